"""Tests of cola_cluster over workers that are processes of this machine, which are killed, stopped and let go on. They run by
tests/cluster.sh, which says where the modules and the library are. The last line is 'N passed, M failed'."""

import ast
import logging
import os
import pickle
import random
import signal
import subprocess
import sys
import tempfile
import threading
import time

import cola
import cola_cluster
from distributed import Client, LocalCluster

passed, failed = 0, 0


def check(what, is_right):
    global passed, failed
    if is_right:
        passed += 1
    else:
        failed += 1
        print("FAILED:", what, flush=True)


def refuses(kind, call):
    """Whether a call raises this, and nothing else."""
    try:
        call()
    except kind:
        return True
    return False


class Room:
    """Folders for a store, and the words of create that all tests share."""

    def __init__(self, cluster, client, path):
        self.cluster, self.client, self.path, self.made = cluster, client, path, 0

    def whole(self):
        """Waits for three workers. (Dask gives a worker up whose successor fails to begin, and has to be told to have others.)"""
        for more in 6, 9:
            try:
                return self.client.wait_for_workers(3, timeout=30)
            except TimeoutError:
                self.cluster.scale(more)
        self.client.wait_for_workers(3, timeout=30)

    def words(self, **words):
        self.made += 1
        at = os.path.join(self.path, str(self.made))
        os.makedirs(os.path.join(at, "shared"))
        return {"folder": os.path.join(at, "own"), "shared": os.path.join(at, "shared"), "journal": os.path.join(at, "journal"),
                "patience": 20, **words}

    def create(self, **words):
        words = self.words(**words)
        return cola_cluster.create(self.client, "events", **words), words["journal"]

    def process(self, store, at):
        """The process of the worker that has a shard."""
        return self.client.run(os.getpid, workers=[store._parts[at].worker])[store._parts[at].worker]


def rows_of(count, random_):
    """Rows in an order of their own, some keys twice, a tenth of them taken out again."""
    for _ in range(count):
        number = random_.randrange(count)
        yield b"key%07d" % number, None if random_.random() < 0.1 else b"value%d" % random_.randrange(10**9)


def made(rows):
    """The map of rows, as a dictionary."""
    wanted = {}
    for key, value in rows:
        if value is None:
            wanted.pop(key, None)
        else:
            wanted[key] = value
    return wanted


def same(store, wanted):
    """Whether a store has exactly these pairs, in order."""
    return list(store.range()) == sorted(wanted.items()) and store.count() == len(wanted)


def beside(journal, suffix=""):
    """What the workers have in their folder whose names end so, of the store of a journal: names with their bytes."""
    folder = os.path.join(os.path.dirname(journal), "own")
    return {name: os.path.getsize(os.path.join(folder, name)) for name in os.listdir(folder) if name.endswith(suffix)}


def the_page(room):
    """The commands of docs/manual/CLUSTER.md, with an address and folders that are here."""
    words = room.words()
    with open(os.path.join(os.path.dirname(os.path.abspath(__file__)), "..", "docs", "manual", "CLUSTER.md")) as page:
        text = "".join(line[4:] for line in page if line.startswith("    "))
    for old, new in ("scheduler:8786", room.client.scheduler.address), ("/var/cola", words["folder"]), \
            ("/shared/events", words["shared"]), ("events.journal", words["journal"]):
        check(f"the page has {old}", f'"{old}"' in text)
        text = text.replace(f'"{old}"', repr(new))
    names, answers = {}, []
    for it in ast.parse(text).body:
        if isinstance(it, ast.Expr):
            answers.append(eval(compile(ast.Expression(it.value), "CLUSTER.md", "eval"), names))
        else:
            exec(compile(ast.Module([it], []), "CLUSTER.md", "exec"), names)
    pairs = [(b"key%06d" % number, b"value") for number in range(10, 20)]
    check("the page's commands", answers == [None, [b"value", None], pairs, None])
    check("and the store that they open again", names["store"].count() == 100_000)
    names["store"].close()
    names["client"].close()


def as_a_dictionary(room):
    random_ = random.Random(1)
    rows = list(rows_of(200_000, random_))
    wanted = made(rows)
    splits = cola_cluster.splits_of([key for key, _ in random_.sample(rows, 1000)], 4)
    store, journal = room.create(keys=100_000, splits=splits)
    store.put_rows(iter(rows))
    check("200,000 rows are those of a dictionary", same(store, wanted))
    keys = [b"key%07d" % random_.randrange(300_000) for _ in range(5000)] + [b"absent"]
    check("many keys at once", store.get_many(keys) == [wanted.get(key) for key in keys])
    check("in batches of any size", store.get_many(iter(keys), batch=333) == [wanted.get(key) for key in keys])
    check("no key", store.get_many([]) == [])
    pairs = sorted(wanted.items())
    for _ in range(5):
        low, high = sorted(b"key%07d" % random_.randrange(250_000) for _ in range(2))
        check("a range over shards", list(store.range(low, high)) == [it for it in pairs if low <= it[0] < high])
        check("and backwards", list(store.reversed(low, high)) == [it for it in pairs[::-1] if low <= it[0] < high])
    check("a prefix", list(store.prefix(b"key00123")) == [it for it in pairs if it[0].startswith(b"key00123")])
    check("a prefix without an end", list(store.prefix(b"\xff")) == [] and list(store.prefix(b"")) == pairs)
    check("all pairs backwards", list(store.reversed()) == pairs[::-1] and next(store.reversed(b"key")) == pairs[-1])
    check("an empty range", list(store.range(b"z", b"a")) == list(store.reversed(b"z", b"a")) == [])
    size, logs = os.path.getsize(journal), beside(journal, "-log")
    store.checkpoint()
    check("a checkpoint cuts the journal", os.path.getsize(journal) < 2000 < size)
    check("and the logs of the workers", len(logs) == 4 and sum(beside(journal, "-log").values()) < sum(logs.values()))
    check("and leaves the map", same(store, wanted))
    store.put_rows([(b"behind", b"the checkpoint"), (b"key", b"again")])
    wanted.update({b"behind": b"the checkpoint", b"key": b"again"})
    store.close()
    store.close()
    check("a close leaves the workers no file", beside(journal) == {})
    for what, call in {"get_many": lambda: store.get_many([b"a"]), "put_rows": lambda: store.put_rows([(b"a", b"1")]),
                       "load": lambda: store.load([]), "count": store.count, "checkpoint": store.checkpoint,
                       "range": lambda: list(store.range()), "reversed": lambda: list(store.reversed())}.items():
        check(f"a closed store refuses {what}", refuses(cola.Closed, call))
    check("and its journal is no new store's", refuses(FileExistsError, lambda: cola_cluster.create(
        room.client, "other", keys=10, folder=".", shared=".", journal=journal)))
    with cola_cluster.open(room.client, journal) as store:
        check("it is opened again", same(store, wanted))
        for row in (b"", b"value"), (b"k" * 25, b"value"), (b"key", b"v" * 33):
            check("a row that is too long is refused", refuses(cola.Length, lambda: store.put_rows([(b"new", b"1"), row])))
        check("text is refused", refuses(TypeError, lambda: store.put_rows([("key", b"value")])))
        check("and nothing of its batch is made", same(store, wanted))
    with open(journal, "ab") as file:
        file.write(b"\x50\0\0\0torn")
    with cola_cluster.open(room.client, journal) as store:
        check("a write of the journal that was cut off", same(store, wanted))
    check("splits that do not rise", refuses(ValueError, lambda: room.create(keys=10, splits=[b"b", b"a"])))
    check("keys that no file is for", refuses(cola.Options, lambda: room.create(keys=1 << 25)))


def from_a_bag(room):
    import dask.bag
    bag = dask.bag.from_sequence(range(20_000), npartitions=20).map(lambda number: (b"bag%05d" % number, b"%d" % number))
    wanted = {b"bag%05d" % number: b"%d" % number for number in range(20_000)}
    store, journal = room.create(keys=4000, splits=[b"bag10000"])
    store.put_rows(bag, batch=300)
    check("the rows of a bag, by shards that are split meanwhile", same(store, wanted) and len(store._parts) > 3)
    check("a row of a bag that no shard takes", refuses(cola.Length, lambda: store.put_rows(bag.map(lambda row: (b"", b"1")))))
    check("is not made", same(store, wanted))
    store.put_rows(bag.filter(lambda row: row[0] < b"bag05000").map(lambda row: (row[0], None)))
    wanted = {key: value for key, value in wanted.items() if key >= b"bag05000"}
    check("rows of a bag that take keys out", same(store, wanted))
    store.__exit__(RuntimeError, None, None)
    with cola_cluster.open(room.client, journal) as store:
        check("and the journal has all of it", same(store, wanted))
    store, _ = room.create(keys=20_000, splits=[b"bag10000"])
    check("a bag without values is not loaded", refuses(TypeError, lambda: store.load(bag.map(lambda row: (row[0], None)))))
    store, _ = room.create(keys=20_000, splits=[b"bag10000"])
    store.load(bag)
    check("a bag is loaded", list(store.range()) == [(b"bag%05d" % number, b"%d" % number) for number in range(20_000)])
    store.close()


def small_runs():
    """Has a worker sort a few rows of a load at once."""
    import cola_cluster
    cola_cluster._RUN = 3000


def loaded(room):
    random_ = random.Random(7)
    rows = [(b"key%07d" % random_.randrange(40_000), b"%d" % number) for number in range(60_000)]
    room.client.run(small_runs)
    store, journal = room.create(keys=40_000, splits=[b"key0013000", b"key0027000"])
    store.load(iter(rows), batch=700)
    check("rows in any order are loaded, the last one of a key is kept", same(store, dict(rows)))
    runs = [it for it in beside(journal) if it.count("-") == 2 and it[-1].isdigit()]
    check("and of the runs on the workers' disks none is left", runs == [])
    check("a store that has keys is not loaded", refuses(ValueError, lambda: store.load([(b"a", b"1")])))
    store.put_rows([(b"behind", b"the load")])
    store.__exit__(RuntimeError, None, None)
    with cola_cluster.open(room.client, journal) as store:
        check("what was loaded is kept, and what was put behind it", same(store, dict(rows) | {b"behind": b"the load"}))
    store, journal = room.create(keys=40_000, splits=[b"key0020000"])
    store.checkpoint()
    doomed = room.process(store, 1)
    killed = (row if at != 30_000 else (os.kill(doomed, signal.SIGKILL), row)[1] for at, row in enumerate(rows))
    check("a worker that is killed in a load", refuses(cola_cluster.Lost, lambda: store.load(killed, batch=5000)))
    with cola_cluster.open(room.client, journal) as store:
        check("leaves the store empty", same(store, {}))
        store.load(rows)
        check("and it is loaded then", same(store, dict(rows)))
    store, journal = room.create(keys=1000)
    check("a range with more keys than its shard is for", refuses(cola.Full, lambda: store.load(rows)))
    with cola_cluster.open(room.client, journal) as store:
        check("leaves it empty too", same(store, {}))


def grown(room):
    rows = [(b"key%07d" % number, b"%d" % number) for number in range(9000)]
    random.Random(8).shuffle(rows)
    store, journal = room.create(keys=1000, most=4000)
    store.put_rows(rows[:4000], batch=300)
    check("a full shard is made one for more keys", same(store, dict(rows[:4000])) and len(store._parts) == 1)
    store.put_rows(rows[4000:], batch=300)
    check("and is split where it may not have more", same(store, dict(rows)) and len(store._parts) > 1)
    os.kill(room.process(store, 0), signal.SIGKILL)
    check("one that is opened anew grows again", same(store, dict(rows)))
    store.__exit__(RuntimeError, None, None)
    with cola_cluster.open(room.client, journal) as store:
        check("so does one that is opened from its journal", same(store, dict(rows)))


def killed_between_batches(room):
    random_ = random.Random(2)
    for journal in {}, {"journal": None}, {"log": False}:
        rows = list(rows_of(20_000, random_))
        room.whole()
        store, _ = room.create(keys=20_000, splits=[b"key0010000"], **journal)
        store.put_rows(rows[:8000])
        store.checkpoint()
        store.put_rows(rows[8000:12000], batch=1000)
        os.kill(room.process(store, 0), signal.SIGKILL)
        store.put_rows(rows[12000:], batch=1000)
        check("a worker that is killed between two batches", same(store, made(rows)))
        room.whole()
        os.kill(room.process(store, 1), signal.SIGKILL)
        check("a worker that is killed before a question", same(store, made(rows)))
        keys = [b"key%07d" % random_.randrange(30_000) for _ in range(5000)]
        room.whole()
        os.kill(room.process(store, 0), signal.SIGKILL)
        wanted = made(rows)
        check("and before many", store.get_many(keys, batch=200) == [wanted.get(key) for key in keys])
        store.close()


def killed_in_a_checkpoint(room):
    random_ = random.Random(3)
    rows = list(rows_of(20_000, random_))
    store, journal = room.create(keys=100_000, splits=[b"key0010000"])
    for at in range(4):
        room.whole()
        store.put_rows(rows[at * 5000:(at + 1) * 5000], batch=1000)
        process = room.process(store, at % 2)
        killer = threading.Timer(0.005 * at, os.kill, (process, signal.SIGKILL))
        killer.start()
        store.checkpoint()
        killer.join()
        check("a worker that is killed in a checkpoint", same(store, made(rows[:(at + 1) * 5000])))
    store.close()
    with cola_cluster.open(room.client, journal) as store:
        check("and the store is opened again", same(store, made(rows)))


def stopped(room):
    random_ = random.Random(4)
    rows = list(rows_of(12_000, random_))
    store, _ = room.create(keys=12_000, splits=[b"key0006000"], patience=3)
    store.put_rows(rows[:4000])
    process, files = room.process(store, 0), {part.name for part in store._parts}
    os.kill(process, signal.SIGSTOP)
    store.put_rows(rows[4000:8000], batch=500)
    check("a worker that does not answer is replaced", same(store, made(rows[:8000])))
    os.kill(process, signal.SIGCONT)
    store.put_rows(rows[8000:], batch=500)
    time.sleep(1)
    check("where it lives on, nothing of it is seen", same(store, made(rows)))
    check("its successor has a file of its own", store._parts[0].name not in files and store._parts[1].name in files)
    store.close()


def split(room):
    random_ = random.Random(5)
    rows = list(rows_of(12_000, random_))
    store, journal = room.create(keys=2000, splits=[b"key0006000"])
    before = len(store._parts)
    store.put_rows(rows, batch=700)
    check("full shards are split", len(store._parts) >= before + 2)
    check("under load, and no row is lost", same(store, made(rows)))
    names = {part.name for part in store._parts[-1:]}
    store.put_rows([(b"a%05d" % number, b"") for number in range(3000)])
    check("a split moves no other shard", names <= {part.name for part in store._parts})
    store.checkpoint()
    names = {part.name for part in store._parts}
    store.put_rows([(b"b%05d" % number, b"") for number in range(3000)])
    shared = os.listdir(os.path.join(os.path.dirname(journal), "shared"))
    check("and leaves no checkpoint of what was split", names - {part.name for part in store._parts}
          and sorted(shared) == sorted(os.path.basename(part.base) for part in store._parts))
    store.__exit__(RuntimeError, None, None)
    wanted = made(rows) | {b"%c%05d" % (letter, number): b"" for letter in b"ab" for number in range(3000)}
    with cola_cluster.open(room.client, journal) as store:
        check("a store that was not closed is opened from its journal", same(store, wanted))


def split_by_a_client_that_ends(room):
    """The map of a split is in the journal before the file that was split is given up, and a client may end before or behind it."""
    rows = [(b"key%07d" % (number * 7919 % 10_007), b"%d" % number) for number in range(3000)]
    store, journal = room.create(keys=1000)
    call, noted = store._call, []

    def watched(part, name, *words):
        if name == "close":
            map_ = [record for kind, record, *_ in cola_cluster._Journal(journal).records() if kind == "map"][-1]
            noted.append(map_["parts"] == [it.words() for it in store._parts] and part not in store._parts)
        return call(part, name, *words)
    store._call = watched
    store.put_rows(rows, batch=300)
    check("the new bounds are in the journal before an old file is given up", len(noted) > 1 and all(noted))
    store.close()

    class Gone(Exception):
        pass

    for is_noted in False, True:
        store, journal = room.create(keys=1000)
        log = store._log

        def ends(*record):
            if is_noted or record[0] != "map":
                log(*record)
            if record[0] == "map":
                raise Gone
        store._log = ends
        check("a client that ends in a split", refuses(Gone, lambda: store.put_rows(rows, batch=300)))
        store.__exit__(Gone, None, None)
        logged = [row for _, routed in cola_cluster._Journal(journal).batches(0) for some in routed for row in pickle.loads(some)]
        with cola_cluster.open(room.client, journal) as store:
            check(f"has the split in the journal: {is_noted}", len(store._parts) > 1 and 1000 < len(logged) < 3000)
            check("and no row is lost", same(store, dict(logged)))


def journal_fails(room):
    rows = [(b"key%07d" % number, b"%d" % number) for number in range(900)]
    store, journal = room.create(keys=1000, splits=[b"key0000150"])
    append, calls = store._journal.append, []

    def full(*record):
        calls.append(record)
        if len(calls) == 3:
            raise OSError(28, "No space left on device")
        append(*record)
    store._journal.append = full
    check("a journal that cannot be written is told", refuses(OSError, lambda: store.put_rows(rows, batch=100)))
    check("and the store is closed", refuses(cola.Closed, store.count))
    with cola_cluster.open(room.client, journal) as store:
        check("with what was in the journal", same(store, dict(rows[:200])))


CLIENT = """
import sys, cola_cluster
from distributed import Client
address, journal, shared, own = sys.argv[1:]
client = Client(address, direct_to_workers=True)
store = cola_cluster.create(client, "killed", keys=1500, folder=own, shared=shared, journal=journal, splits=[b"key0002000"])
for at in range(100):
    store.put_rows([(b"key%07d" % (at * 40 + row), b"%d" % at) for row in range(40)])
    print(at, flush=True)
    if at % 30 == 20:
        store.checkpoint()
"""


def client_killed(room):
    random_ = random.Random(6)
    for _ in range(3):
        words = room.words()
        child = subprocess.Popen([sys.executable, "-c", CLIENT, room.client.scheduler.address, words["journal"],
                                  words["shared"], words["folder"]], stdout=subprocess.PIPE, text=True)
        answered = -1
        for line in child.stdout:
            answered = int(line)
            if answered >= 10 and random_.random() < 0.03:
                break
        time.sleep(random_.random() / 50)
        child.kill()
        rest = child.stdout.read().split()
        child.wait()
        answered = int(rest[-1]) if rest else answered
        with cola_cluster.open(room.client, words["journal"]) as store:
            found = dict(store.range())
        wanted = {b"key%07d" % (at * 40 + row): b"%d" % at for at in range(answered + 1) for row in range(40)}
        more = {key: value for key, value in found.items() if key not in wanted}
        check("what was answered outlives its client", wanted.items() <= found.items())
        check("and of the batch under way all or nothing is there", len(more) in (0, 40))


def none_left():
    with tempfile.TemporaryDirectory() as path, \
            LocalCluster(n_workers=1, threads_per_worker=1, dashboard_address=None, silence_logs=logging.CRITICAL) as cluster, \
            Client(cluster, direct_to_workers=True) as client:
        room = Room(cluster, client, path)
        store, journal = room.create(keys=100, patience=30)
        store.put_rows([(b"a", b"1")])
        os.kill(room.process(store, 0), signal.SIGKILL)
        check("the only worker is killed, and comes again", same(store, {b"a": b"1"}))
        store._patience = 1
        cluster.scale(0)
        until = time.monotonic() + 60
        while client.scheduler_info()["workers"] and time.monotonic() < until:
            time.sleep(0.1)
        check("no worker is left", refuses(cola_cluster.Lost, lambda: store.put_rows([(b"b", b"2")])))
        cluster.scale(1)
        client.wait_for_workers(1)
        with cola_cluster.open(client, journal, patience=30) as store:
            check("the journal has what was not answered too", same(store, {b"a": b"1", b"b": b"2"}))


def main():
    logging.getLogger("distributed").setLevel(logging.CRITICAL)
    with tempfile.TemporaryDirectory() as path, \
            LocalCluster(n_workers=3, threads_per_worker=1, dashboard_address=None, silence_logs=logging.CRITICAL) as cluster, \
            Client(cluster, direct_to_workers=True) as client:
        room = Room(cluster, client, path)
        for test in (the_page, as_a_dictionary, from_a_bag, loaded, grown, killed_between_batches, killed_in_a_checkpoint, stopped,
                     split, split_by_a_client_that_ends, journal_fails, client_killed):
            begun = time.monotonic()
            room.whole()
            test(room)
            if "-v" in sys.argv:
                print(f"{test.__name__}: {time.monotonic() - begun:.1f} s", flush=True)
    none_left()
    print(f"{passed} passed, {failed} failed")
    return failed > 0


if __name__ == "__main__":
    sys.exit(main())
