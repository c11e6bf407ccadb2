# SPDX-License-Identifier: MIT
"""One ordered map over the workers of a Dask cluster: a shard for each range of keys, a file of cola for each shard.

    import cola_cluster
    from distributed import Client

    client = Client("scheduler:8786", direct_to_workers=True)
    with cola_cluster.create(client, "events", keys=1_000_000, splits=[b"g", b"p"], folder="/var/cola",
                             shared="/shared/events", journal="events.journal") as store:
        store.put_rows((b"key%06d" % n, b"value") for n in range(100_000))
        print(store.get_many([b"key000001", b"nothing"]), store.count())
        for key, value in store.range(b"key0000", b"key0001"):
            print(key, value)

A shard is an actor on a worker, with its file and log in `folder`, on that worker's disk. A checkpoint copies the files into
`shared`, a folder that all workers and this client reach by the same path. The journal, a file of this client, has the batches
behind the last checkpoint, and is synced before a batch is answered. Where a worker dies, its shards are opened on others, from
the last checkpoint, and the batches behind it are made again: a put that is made twice leaves the same map.

One client at a time has a store. What is promised, and what is not, stands in docs/manual/CLUSTER.md.
"""

import asyncio
import bisect
import collections
import functools
import heapq
import io
import itertools
import operator
import os
import pickle
import shutil
import struct
import time
import uuid
import zlib

import distributed

import cola

__all__ = ["create", "open", "splits_of", "Cluster", "Lost"]

_PAGE = 4096  # rows that a range asks of a shard at once
_RUN = 1 << 18  # rows of a load that a worker sorts at once
_AHEAD = 2  # batches of keys that are asked for while one before them is put together
_key = operator.itemgetter(0)
_GONE = (OSError, ValueError, asyncio.CancelledError, distributed.TimeoutError,
         distributed.KilledWorker)  # what Dask raises of a worker that is gone, or does not answer in time


class Lost(Exception):
    """No worker is left that serves a shard."""


class _Shard:
    """The actor: an open store in a file of its own. Rows cross as one pickled string, since Dask is slow with lists of bytes.
    Each call gives the exception that it met, or None, and what it answers: what Dask raises is of the worker then."""

    def __init__(self, path, base, options, how):
        os.makedirs(os.path.dirname(path), exist_ok=True)
        if base is None:
            cola.create(path, *options)
        else:
            shutil.copyfile(base, path)
        self._path, self._how, self._kept, self._spilled = path, how, [], []
        self._store = cola.open(path, **how)

    def call(self, name, *words):
        try:
            return None, getattr(self, name)(*words)
        except Exception as error:
            return error, None

    def update(self, rows):
        """Makes the calls of a batch, in their order, where a pair without a value takes its key out. How many were made
        before the store was full."""
        rows, done = pickle.loads(rows), 0
        for is_out, some in itertools.groupby(rows, lambda row: row[1] is None):
            some = list(some)
            try:
                if is_out:
                    for key, _ in some:
                        self._store.pop(key, None)
                else:
                    self._store.update(some)
            except cola.Full as error:
                return done + error.done
            done += len(some)
        return done

    def get_many(self, keys):
        return pickle.dumps(self._store.get_many(pickle.loads(keys)))

    def rows(self, low, high, backwards):
        rows = self._store[low:high]
        return pickle.dumps(list(itertools.islice(reversed(rows) if backwards else rows, _PAGE)))

    def count(self):
        return len(self._store)

    def checkpoint(self, copy):
        self._store.checkpoint(copy)
        if self._how.get("log") or self._how.get("sync"):
            self._store.checkpoint()  # (a new log is begun)

    def spill(self, rows):
        """Keeps rows of a load, and writes them to this worker's disk, many at once, in the order of their keys; of rows of one
        key the last one stands last."""
        self._kept += pickle.loads(rows)
        if len(self._kept) >= _RUN:
            self._kept.sort(key=_key)
            self._spilled.append(f"{self._path}-{len(self._spilled)}")
            with io.open(self._spilled[-1], "wb") as file:
                for at in range(0, len(self._kept), _PAGE):
                    pickle.dump(self._kept[at:at + _PAGE], file)
            self._kept = []

    def fill(self):
        """Fills the store, which is empty, with the rows that were kept, by rising keys."""
        self._kept.sort(key=_key)
        rows = heapq.merge(*map(_unspilled, self._spilled), self._kept, key=_key)  # (of equal keys, in the order they came in)
        self.close()
        try:
            cola.load(self._path, _last_of_each(rows), **self._store.limits)
        finally:
            for path in self._spilled:
                os.remove(path)
        self._kept, self._spilled = [], []
        self._store = cola.open(self._path, **self._how)

    def grow(self, most):
        """Makes the store one for twice as many keys, if that is no more than so many. Whether it did."""
        limits = self._store.limits
        if 2 * limits["keys"] > most:
            return False
        self._store.close()
        try:
            cola.grow(self._path, 2 * limits["keys"], limits["block"])
        finally:
            self._store = cola.open(self._path, **self._how)
        return True

    def split(self, lower, upper):
        """Makes a closed store of each half of the rows, and gives the least key of the upper one."""
        rows = self._store[:]
        limits = self._store.limits
        for path, part in (lower, itertools.islice(rows, len(self._store) // 2)), (upper, rows):
            if os.path.exists(path):
                os.remove(path)  # (of a split that was not finished)
            cola.load(path, part, limits["keys"], limits["block"], limits["version"])
        with cola.open(upper) as store:
            return next(iter(store))

    def close(self):
        self._store.discard()
        for suffix in "", "-log", "-journal":
            _remove(self._path + suffix)


def _unspilled(path):
    """The rows that a shard kept in a file."""
    with io.open(path, "rb") as file:
        while True:
            try:
                yield from pickle.load(file)
            except EOFError:
                return


def _last_of_each(rows):
    """Of rows by rising keys the last one of each key."""
    rows = iter(rows)
    for before in itertools.islice(rows, 1):
        for row in rows:
            if row[0] != before[0]:
                yield before
            before = row
        yield before


def _check_lengths(keys, key_max, values, value_max):
    """Refuses keys and values that no shard takes."""
    if not all(issubclass(kind, bytes) for kind in {*map(type, keys), *map(type, values)}):
        raise TypeError("a key or a value is bytes")
    lengths = set(map(len, keys))
    if lengths and not 1 <= min(lengths) <= max(lengths) <= key_max or max(map(len, values), default=0) > value_max:
        raise cola.Length(f"a key has from 1 to {key_max} bytes, a value up to {value_max}")


def _routed(rows, lows):
    """Rows by shards, each shard's in the order of the rows: the place of the shard, how many, and one pickled string of them."""
    if len(lows) == 1:
        return [(0, len(rows), pickle.dumps(rows))]
    routed = collections.defaultdict(list)
    for row in rows:
        routed[bisect.bisect_right(lows, row[0]) - 1].append(row)
    return [(at, len(some), pickle.dumps(some)) for at, some in routed.items()]


def _in_batches(rows, size, limits, none_allowed, bounds):
    """Rows in batches, each routed, with the bounds that held then, once it is known that shards take all of it."""
    rows, (key_max, value_max) = iter(rows), limits
    while some := list(itertools.islice(rows, size)):
        values = [value for _, value in some if not (none_allowed and value is None)]
        _check_lengths([key for key, _ in some], key_max, values, value_max)
        lows = bounds()
        yield lows, _routed(some, lows)


def _part_in_batches(rows, size, limits, none_allowed, lows):
    """What a worker makes of a part of a bag: all its batches, as one pickled string."""
    return pickle.dumps(list(_in_batches(rows, size, limits, none_allowed, lambda: lows)))


class _Part:
    """What the client holds of a shard: its least key, the name of its incarnation, the checkpoint from which it is opened
    (None: an empty store), and the number of the last batch that this has."""

    def __init__(self, low, name, base, position):
        self.low, self.name, self.base, self.position = low, name, base, position
        self.future = self.actor = self.worker = None

    def words(self):
        return self.low, self.name, self.base, self.position


class _Journal:
    """Maps of the shards and batches in the order in which they came, each pickled, with its length and a sum. A batch is the
    strings that the shards are sent. What stands behind the first record that lacks length or sum is the rest of a write that
    was cut off. Without a path it is in memory alone."""

    def __init__(self, path, records=()):
        self._path, self._file, self._records = path, None, list(records)

    def records(self):
        """All of them, in their order."""
        if self._path is None:
            yield from self._records
            return
        with io.open(self._path, "rb") as file:
            while len(head := file.read(8)) == 8:
                length, total = struct.unpack("<II", head)
                body = file.read(length)
                if len(body) < length or zlib.crc32(body) != total:
                    return
                yield pickle.loads(body)

    def batches(self, position):
        """The batches behind this one, with their numbers."""
        return (record for kind, *record in self.records() if kind == "batch" and record[0] > position)

    def begin(self, map_, position):
        """Begins anew: with this map, and the batches behind a position, in a file that takes the old one's place as a whole."""
        kept = itertools.chain([("map", map_)], (("batch", *batch) for batch in self.batches(position)))
        if self._path is None:
            self._records = list(kept)
            return
        unfinished = f"{self._path}.new"
        file = io.open(unfinished, "wb")
        for record in kept:
            self._write(file, record)
        self._sync(file)
        os.replace(unfinished, self._path)
        folder = os.open(os.path.dirname(os.path.abspath(self._path)), os.O_RDONLY)
        os.fsync(folder)
        os.close(folder)
        self.close()
        self._file = file

    def append(self, *record):
        """Adds a record, which is on the disk then. Where that fails the journal is for an opening alone."""
        if self._path is None:
            self._records.append(record)
        else:
            self._write(self._file, record)
            self._sync(self._file)

    def close(self):
        if self._file is not None:
            self._file.close()

    @staticmethod
    def _write(file, record):
        body = pickle.dumps(record)
        file.write(struct.pack("<II", len(body), zlib.crc32(body)) + body)

    @staticmethod
    def _sync(file):
        file.flush()
        os.fsync(file.fileno())


def splits_of(sample, shards):
    """Keys that part a sample of keys into so many ranges with as many of them each."""
    keys = sorted(set(sample))
    return sorted({keys[len(keys) * at // shards] for at in range(1, shards)} - {keys[0]}) if keys else []


def create(client, name, *, keys, folder, shared, journal, splits=(), block=5, version=1, most=None, patience=60, log=True, **how):
    """Makes a new, empty store: a shard below the first of the splits, and one from each split on, for so many keys each. A
    shard that is full is made one for twice as many keys while that is at most `most`, and else split in two. Where the
    journal is None, all is lost with this client, though nothing with a worker. A worker that has not answered within so
    many seconds is taken for dead: more than a checkpoint of a shard takes, or its part of a load. Other words are those of
    cola.open, by which the workers open their files: resident and logged, with log=False mapped."""
    splits = list(splits)
    if sorted(set(splits)) != splits or b"" in splits:
        raise ValueError("splits are keys, each greater than the one before")
    if keys < 2:
        raise ValueError("a shard that is to be split is for two keys at least")
    map_ = {"name": name, "folder": folder, "shared": shared, "options": (keys, block, version), "most": most or keys,
            "how": {"log": log, **how}, "parts": [(low, None, None, 0) for low in (b"", *splits)]}
    if journal is None:
        return Cluster(client, _Journal(None), map_, 0, patience)
    io.open(journal, "xb").close()  # (one that is there is of another store, which open() opens)
    try:
        return Cluster(client, _Journal(journal), map_, 0, patience)
    except BaseException:
        os.remove(journal)
        raise


def open(client, journal, *, patience=60):
    """Opens the store of a journal: each shard from its last checkpoint, with the batches behind it."""
    found = _Journal(os.fspath(journal))
    map_, last = None, 0
    for kind, *record in found.records():
        if kind == "map":
            map_, = record
        else:
            last = record[0]
    if map_ is None:
        raise ValueError(f"{journal}: has no store")
    return Cluster(client, found, map_, max(last, map_["position"]), patience)


class Cluster:
    """An open store over the workers of a cluster. Close it, or use it in a `with`: a close makes a checkpoint; a `with` that
    is left by an exception makes none, and what was put is in the journal."""

    def __init__(self, client, journal, map_, position, patience):
        self._client, self._journal, self._map, self._patience = client, journal, map_, patience
        self._position = position  # of the last batch
        self._parts = [_Part(*words) for words in map_["parts"]]
        self._limits = {1: (24, 32), 2: (40, 72)}[map_["options"][2]]  # bytes of a key, and of a value
        for part in self._parts:
            self._submit(part, ())
        for part in self._parts:
            if not self._is_opened(part):
                self._open(part, {part.worker})
        self._journal.begin(self._noted(), min(part.position for part in self._parts))
        self._again(b"", None, min(part.position for part in self._parts))

    def __enter__(self):
        return self

    def __exit__(self, kind, *_):
        self.close() if kind is None else self._release()

    # -- The calls

    def put_rows(self, rows, batch=5000):
        """Puts pairs, of an iterable or a dask.bag, in batches; a pair whose value is None takes its key out. A batch is
        synced in the journal before it is sent. What is made once this returns is made on all shards."""
        under_way = []
        try:
            for lows, routed in self._batches(rows, batch):  # (routed and logged while the one before is made)
                self._log("batch", self._position + 1, [some for *_, some in routed])
                self._position += 1
                sent, under_way = under_way, []
                self._finish(sent)
                under_way = self._send(lows, routed, self._position)
        finally:
            self._finish(under_way)

    def get_many(self, keys, batch=5000):
        """The values of keys, in their order; None where a key is absent. They are asked for in batches, the next ones while one
        is looked up."""
        keys, found, asked = list(keys), [], collections.deque()
        _check_lengths(keys, self._limits[0], (), 0)
        for at in range(0, len(keys), batch):
            if len(asked) > _AHEAD:
                found += self._found(*asked.popleft())
            asked.append(self._asked(keys[at:at + batch]))
        while asked:
            found += self._found(*asked.popleft())
        return found

    def range(self, low=b"", high=None):
        """The pairs of the keys from low on and below high, in order, streamed. Each page shows its shard as it is when it is
        asked for."""
        while high is None or low < high:
            rows, _, until = self._page(lambda lows: bisect.bisect_right(lows, low) - 1, low, high, False)
            yield from rows
            if len(rows) == _PAGE:
                low = rows[-1][0] + b"\0"
            elif until is None:
                return
            else:
                low = until

    def reversed(self, low=b"", high=None):
        """The pairs of range(low, high), the last one first, streamed as those are."""
        while high is None or low < high:
            rows, least, _ = self._page(lambda lows: -1 if high is None else bisect.bisect_left(lows, high) - 1, low, high, True)
            yield from rows
            if len(rows) == _PAGE:
                high = rows[-1][0]
            elif least <= low:
                return
            else:
                high = least

    def prefix(self, begin):
        """The pairs of the keys that begin so, in order."""
        head = begin.rstrip(b"\xff")
        return self.range(begin, head[:-1] + bytes([head[-1] + 1]) if head else None)

    def count(self):
        """The number of keys."""
        self._lows()
        counted = [(part, self._call(part, "count")) for part in self._parts]
        counts = [self._answer(call) for _, call in counted]
        for (part, _), count in zip(counted, counts):
            if count is None:
                self._replace(part)
        return self.count() if None in counts else sum(count for count, in counts)

    def checkpoint(self):
        """Copies each shard's file into the shared folder, and begins a new journal: what it had is in the copies, on the
        disk."""
        self._lows()
        before = self._bases()
        while late := [part for part in self._parts if part.base is None or part.position < self._position]:
            for part in self._copied(late):
                self._replace(part)
        self._begin_behind(before)

    def load(self, rows, batch=50_000):
        """Fills the store, which has no key, with pairs in any order, of an iterable or a dask.bag; of pairs of one key the last
        one is kept. Each worker sorts its shards' rows on its disk, and fills their files by rising keys. It ends with a
        checkpoint, and has nothing in the journal: where it raises, as Lost where a worker was lost or cola.Full where a
        range has more keys than its shard is for, the store is closed, and an opening finds it empty."""
        if self.count():
            raise ValueError("the store has keys: put_rows adds to it")
        try:
            under_way = []
            for _, routed in self._batches(rows, batch, none_allowed=False):
                self._all_answer(under_way)  # (a shard has its rows in their order)
                under_way = [self._call(self._parts[at], "spill", some) for at, _, some in routed]
            self._all_answer(under_way)
            self._all_answer([self._call(part, "fill") for part in self._parts])
            self._position += 1  # (it has a batch's number, so that a checkpoint from before it is behind)
            before = self._bases()
            if self._copied(self._parts):
                raise Lost("a worker was lost while its shard was copied")
            self._begin_behind(before)
        except BaseException:
            self._release()
            raise

    def close(self):
        """Makes a checkpoint, and closes and removes the workers' files. A store that is closed stays so."""
        if not self._parts:
            return
        self.checkpoint()
        for call in [self._call(part, "close") for part in self._parts]:
            self._answer(call)
        self._release()

    # -- Checkpoints

    def _bases(self):
        return {part.base for part in self._parts} - {None}

    def _copied(self, parts):
        """Copies the files of shards into the shared folder; those are given whose workers are gone."""
        calls, lost = [(part, self._call(part, "checkpoint", self._copy(part))) for part in parts], []
        for part, call in calls:
            if self._answer(call) is None:
                lost.append(part)
            else:
                part.base, part.position = self._copy(part), self._position
        return lost

    def _begin_behind(self, before):
        """Begins a journal behind the copies, and removes those of before that are of no use now."""
        self._journal.begin(self._noted(), self._position)
        for base in before - self._bases():
            _remove(base)

    # -- Where keys go

    def _lows(self):
        """The least key of each shard."""
        if not self._parts:
            raise cola.Closed("the store is closed")
        return [part.low for part in self._parts]

    def _batches(self, rows, size, none_allowed=True):
        """Batches, each with the bounds by which it is routed. The parts of a bag are worked out and routed on the cluster, as many
        ahead as there are workers: none of their rows is looked at here. (One task does both, since Dask is slow with rows.)"""
        words = {"size": size, "limits": self._limits, "none_allowed": none_allowed}
        if not hasattr(rows, "map_partitions"):
            yield from _in_batches(rows, bounds=self._lows, **words)
            return
        ahead, most, lows = collections.deque(), len(self._workers(())), None
        for at in range(rows.npartitions):
            if lows != self._lows():
                lows = self._lows()
                parts = rows.map_partitions(functools.partial(_part_in_batches, lows=lows, **words)).to_delayed()
            ahead.append(self._client.compute(parts[at]))
            if len(ahead) > most:
                yield from pickle.loads(ahead.popleft().result())
        while ahead:
            yield from pickle.loads(ahead.popleft().result())

    # -- Calls of shards

    def _call(self, part, name, *words):
        """Begins a call of a worker; None where it is gone."""
        try:
            return part.worker, part.actor.call(name, *words)
        except _GONE:
            return None

    def _result(self, worker, future):
        """What a worker is to give. (Dask does not always tell that it died meanwhile.)"""
        until = time.monotonic() + self._patience
        while True:
            left = until - time.monotonic()
            try:
                return future.result(min(max(left, 0), 1))
            except distributed.TimeoutError:
                if future.done() or left <= 1 or worker not in self._client.scheduler_info()["workers"]:
                    raise

    def _answer(self, call):
        """What a call answers, as a tuple of one; None where its worker is gone or does not answer in time."""
        if call is None:
            return None
        try:
            error, answer = self._result(*call)
        except _GONE:
            return None
        if error is not None:
            self._release()  # (an opening goes back to the checkpoint, and on from there)
            raise error
        return answer,

    def _all_answer(self, calls):
        """Sees that all of these calls are made."""
        if None in [self._answer(call) for call in calls]:
            raise Lost("a worker was lost while rows were loaded")

    def _page(self, find, low, high, backwards):
        """Rows of the shard that is found among the bounds, or of the one that comes in its place; its bounds."""
        while True:
            lows = self._lows()
            at = find(lows) % len(lows)
            answer = self._answer(self._call(self._parts[at], "rows", low, high, backwards))
            if answer is not None:
                return pickle.loads(answer[0]), lows[at], (*lows, None)[at + 1]
            self._replace(self._parts[at])

    def _asked(self, keys):
        """Begins to ask for keys, of which each shard has some."""
        lows, places = self._lows(), collections.defaultdict(list)
        for place, key in enumerate(keys):
            places[bisect.bisect_right(lows, key) - 1].append(place)
        asked = []
        for at, its in places.items():
            part = self._parts[at]
            asked.append((part, part.name, its, self._call(part, "get_many", pickle.dumps([keys[place] for place in its]))))
        return keys, asked

    def _found(self, keys, asked):
        """The values of keys that were asked for."""
        found = [None] * len(keys)
        for part, name, places, call in asked:
            answer = self._answer(call) if part.name == name else None  # (else another batch has found it lost)
            if answer is None:
                if part in self._parts and part.name == name:
                    self._replace(part)
                values = self.get_many(keys[place] for place in places)
            else:
                values = pickle.loads(answer[0])
            for place, value in zip(places, values):
                found[place] = value
        return found

    def _send(self, lows, routed, number):
        """Begins to have a batch made that was routed by these bounds."""
        if lows != self._lows():  # (a shard was split since)
            routed = _routed([row for *_, some in routed for row in pickle.loads(some)], self._lows())
        return [(self._parts[at], count, some, number, self._call(self._parts[at], "update", some)) for at, count, some in routed]

    def _finish(self, under_way):
        """Sees that the rows that were sent are made, by their shards or by those that come in their place."""
        for part, count, some, number, call in under_way:
            answer = self._answer(call)
            if not self._parts:
                return  # (the store was given up)
            if answer is None:
                self._replace(part)  # (the journal has these rows)
            elif answer[0] < count and (self._grow(part) or self._split(part, number - 1)):
                self._send_and_finish(pickle.loads(some)[answer[0]:], number)

    def _send_and_finish(self, rows, number):
        if rows:
            lows = self._lows()
            self._finish(self._send(lows, _routed(rows, lows), number))

    # -- Shards that come and go

    def _noted(self):
        """The map as the journal has it."""
        return {**self._map, "position": self._position, "parts": [part.words() for part in self._parts]}

    def _log(self, *record):
        try:
            self._journal.append(*record)
        except OSError:
            self._release()
            raise

    def _name(self):
        """A name that no incarnation has had, of this client or of one that died."""
        return f"{self._map['name']}-{uuid.uuid4().hex}"

    def _copy(self, part):
        return os.path.join(self._map["shared"], f"{part.name}-{self._position}")

    def _submit(self, part, avoided):
        """Begins the opening of a new incarnation of a shard, with a file of its own name, on the worker that has the fewest."""
        used = collections.Counter(other.worker for other in self._parts if other is not part)
        workers = self._workers(avoided)
        part.worker, part.name = min(workers, key=lambda it: used[it]), self._name()
        path = os.path.join(self._map["folder"], part.name)
        part.future = self._client.submit(_Shard, path, part.base, self._map["options"], self._map["how"], actor=True, pure=False,
                                          workers=[part.worker], allow_other_workers=False)

    def _workers(self, avoided):
        """The workers but these; where there is none, those that come within the client's patience."""
        until = time.monotonic() + self._patience
        while not (workers := [it for it in self._client.scheduler_info()["workers"] if it not in avoided]):
            if time.monotonic() > until:
                raise Lost("no worker is left that serves the shards")
            time.sleep(0.1)
        return workers

    def _open(self, part, avoided):
        """Opens a shard on a worker that answers, and is not one of those."""
        while True:
            self._submit(part, avoided)
            if self._is_opened(part):
                return
            avoided = {*avoided, part.worker}

    def _is_opened(self, part):
        """Waits for a shard's worker. False where it is gone, or does not answer in time."""
        try:
            part.actor = self._result(part.worker, part.future)
            return True
        except cola.Error:
            raise  # (it refuses the options, or the checkpoint)
        except _GONE:
            part.future.release()
            return False

    def _replace(self, part):
        """Opens a shard anew, from its checkpoint, on another worker; what the one before still answers or writes is not read:
        it has a file of its own."""
        at = self._parts.index(part)
        high = self._parts[at + 1].low if at + 1 < len(self._parts) else None
        self._open(part, {part.worker})
        self._log("map", self._noted())
        self._again(part.low, high, part.position)

    def _again(self, low, high, position):
        """Makes the batches behind a position again, as far as their keys are from low on and below high."""
        for number, routed in self._journal.batches(position):
            rows = [row for some in routed for row in pickle.loads(some) if row[0] >= low and (high is None or row[0] < high)]
            if rows:
                has = [part.position >= number for part in self._parts]
                lows = self._lows()
                if any(has):
                    rows = [row for row in rows if not has[bisect.bisect_right(lows, row[0]) - 1]]
                self._send_and_finish(rows, number)

    def _grow(self, part):
        """Has a shard that is full made one for more keys, where it may have them. (One that is opened from an older checkpoint
        grows again as its batches are made again.)"""
        answer = self._answer(self._call(part, "grow", self._map["most"]))
        return answer is not None and answer[0]

    def _split(self, part, position):
        """Splits a shard that is full in two, each opened from a file in the shared folder, that has the batches up to a position
        and perhaps some rows behind it. The new bounds are in the journal before the old file is given up. No other shard moves.
        False where the worker was lost instead, and the shard was opened anew with all that the journal has."""
        lower, upper = (_Part(part.low, self._name(), None, position) for _ in range(2))
        for half in lower, upper:
            half.base = self._copy(half)
        answer = self._answer(self._call(part, "split", lower.base, upper.base))
        if answer is None:
            self._replace(part)
            return False
        upper.low, = answer
        at = self._parts.index(part)
        self._parts[at:at + 1] = lower, upper
        self._open(lower, ())
        self._open(upper, ())
        self._log("map", self._noted())
        self._answer(self._call(part, "close"))
        part.future.release()
        if part.base is not None:
            _remove(part.base)
        return True

    def _release(self):
        parts, self._parts = self._parts, []
        for part in parts:
            if part.future is not None:
                part.future.release()
        self._journal.close()


def _remove(path):
    try:
        os.remove(path)
    except OSError:
        pass  # (it is of no use, and in no one's way)
