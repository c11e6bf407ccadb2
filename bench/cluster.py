"""What a cluster of 1, 2 and 4 workers of this machine takes beside processes with no Dask: rows a second of puts and gets, in
batches and in random order; what a call of a shard takes; and the load of many rows into an empty store, by a process alone and by
4 workers, of an iterator and of a bag. It wants the library of the checkout and Debian's Dask, as tests/cluster.sh does:

    make library && COLA_LIBRARY=out/lib/libcola.so PYTHONPATH=bindings/python /usr/bin/python3 bench/cluster.py [ROWS [BATCH [LOADED]]]

200,000 rows by batches of 5,000, and 10,000,000 loaded.
"""

import contextlib
import logging
import multiprocessing
import os
import random
import sys
import tempfile
import time

import cola
import cola_cluster
import dask.bag
from distributed import Client, LocalCluster


def said(what, count, took, *processors):
    times = "".join(f" {1e6 * it / count:.2f} |" for it in processors)
    print(f"| {what} | {took:.2f} | {count / took:,.0f} |{times or ' | |'}", flush=True)


def timed(what, count, call, of=None):
    """What a call takes, and of the processors: this process and the workers of a cluster."""
    def used():
        return time.perf_counter(), time.process_time(), sum(of.run(time.process_time).values()) if of else 0
    begun = used()
    call()
    took = time.perf_counter() - begun[0]
    said(what, count, took, *(end - at for at, end in list(zip(begun, used()))[1:]))


def some_rows(count, seed):
    """Rows in random order, and their keys in another one."""
    random_ = random.Random(seed)
    rows = [(b"key%012d" % random_.randrange(10**12), b"value%016d" % random_.randrange(10**16)) for _ in range(count)]
    keys = [key for key, _ in rows]
    random_.shuffle(keys)
    return rows, keys


def in_batches(of, batch, call):
    for at in range(0, len(of), batch):
        call(of[at:at + batch])


def when(call, *words):
    """When a call began and ended, of the clock that all processes of the machine have."""
    begun = time.monotonic()
    call(*words)
    return begun, time.monotonic()


def alone(path, count, batch, seed, gate, is_logged):
    """What one process takes, among those that begin together."""
    rows, keys = some_rows(count, seed)
    cola.create(path, count)
    with cola.open(path, log=is_logged) as store:
        gate.wait()
        puts = when(in_batches, rows, batch, store.update)
        gate.wait()
        return puts, when(in_batches, keys, batch, store.get_many)


def client(path, count, batch, seed, gate, address):
    """What one client takes, with a store of its own, among those that begin together."""
    rows, keys = some_rows(count, seed)
    with Client(address, direct_to_workers=True) as it, a_store(it, path, count) as store:
        gate.wait()
        puts = when(store.put_rows, rows, batch)
        gate.wait()
        return puts, when(store.get_many, keys, batch)


def _process(job, words, queue):
    queue.put(job(*words))


def together(what, processes, job, path, count, batch, *more):
    """The rate of processes that do the same with as many rows each."""
    kind = multiprocessing.get_context("spawn")
    gate, queue = kind.Barrier(processes), kind.Queue()
    words = [(f"{path}-{at}", count, batch, at, gate, *more) for at in range(processes)]
    children = [kind.Process(target=_process, args=(job, its, queue)) for its in words]
    for child in children:
        child.start()
    for of, spans in zip(("puts", "gets"), zip(*(queue.get() for _ in children))):
        said(f"{what}, {of}", processes * count, max(end for _, end in spans) - min(begun for begun, _ in spans))
    for child in children:
        child.join()


@contextlib.contextmanager
def a_cluster(workers):
    with LocalCluster(n_workers=workers, threads_per_worker=1, dashboard_address=None,
                      silence_logs=logging.CRITICAL) as cluster, Client(cluster, direct_to_workers=True) as it:
        yield it


@contextlib.contextmanager
def a_store(of, path, keys, splits=(), **more):
    """A store whose shards are for so many keys each."""
    os.makedirs(os.path.join(path, "shared"))
    store = cola_cluster.create(of, "rows", keys=keys, folder=os.path.join(path, "own"), shared=os.path.join(path, "shared"),
                                journal=os.path.join(path, "journal"), splits=splits, patience=600, **more)
    yield store
    store.close()


def spread(path, workers, count, batch):
    (rows, keys), what = some_rows(count, 0), f"{workers} worker{'s' * (workers > 1)}"
    splits = cola_cluster.splits_of(keys[:10_000], workers)
    with a_cluster(workers) as of:
        with a_store(of, f"{path}-mapped", count, splits, log=False) as store:
            timed(f"{what}, mapped files, puts", count, lambda: store.put_rows(rows, batch), of)
            timed(f"{what}, mapped files, gets", count, lambda: store.get_many(keys, batch), of)
        with a_store(of, path, count, splits) as store:
            timed(f"{what}, puts", count, lambda: store.put_rows(rows, batch), of)
            timed(f"{what}, gets", count, lambda: store.get_many(keys, batch), of)
            timed(f"{what}, gets, a call a batch", count, lambda: in_batches(keys, batch, store.get_many), of)
            timed(f"{what}, a range over all", count, lambda: sum(1 for _ in store.range()), of)
            timed(f"{what}, a checkpoint", count, store.checkpoint, of)
            timed(f"{what}, calls one by one", 200 * workers, lambda: [store.count() for _ in range(200)], of)
            actor = store._parts[0].actor
            timed(f"{what}, calls at once", 1000, lambda: [it.result() for it in [actor.call("count") for _ in range(1000)]], of)
        if workers == 2:
            together("2 workers, 2 clients with a store each", 2, client, f"{path}-of", count // 2, batch, of.scheduler.address)


def row(number):
    return b"key%012d" % (number * 618033988749 % 10**12), b"value%016d" % number


def many(count):
    """So many rows with keys of their own, in scattered order."""
    return map(row, range(count))


def loaded(path, workers, count, batch):
    with tempfile.TemporaryDirectory(dir=path) as room:
        timed("a load by one process, sorted in memory", count,
              lambda: cola.load(os.path.join(room, "sorted"), sorted(many(count)), keys=count))
    splits = cola_cluster.splits_of([key for key, _ in many(10_000)], workers)
    bag = dask.bag.range(count, npartitions=max(1, count // 100_000)).map(row)
    for what, rows in {"an iterator": lambda: many(count), "a bag": lambda: bag}.items():
        with tempfile.TemporaryDirectory(dir=path) as room, a_cluster(workers) as of:
            with a_store(of, room, 5 * count // (4 * workers), splits) as store:
                timed(f"a load by {workers} workers, of {what}", count, lambda: store.load(rows(), 10 * batch), of)
    with tempfile.TemporaryDirectory(dir=path) as room, a_cluster(workers) as of:
        bag = dask.bag.range(count // 10, npartitions=20).map(row)
        with a_store(of, room, count // 8, splits) as store:
            timed(f"{workers} workers, puts of a bag", count // 10, lambda: store.put_rows(bag, 4 * batch), of)


def main():
    count, batch, more = [int(it) for it in sys.argv[1:]] + [200_000, 5000, 10_000_000][len(sys.argv) - 1:]
    print(f"{count:,} rows, batches of {batch:,}, {os.cpu_count()} processors\n")
    print("| | s | rows or calls a second | client's processor, us each | workers' |\n|---|---:|---:|---:|---:|")
    with tempfile.TemporaryDirectory(dir=os.environ.get("TMPDIR")) as path:
        for processes, is_logged in (1, False), (1, True), (2, True), (4, True):
            what = f"{processes} process{'es' * (processes > 1)} with no Dask, {'logged' if is_logged else 'mapped'}"
            together(what, processes, alone, os.path.join(path, what), count // processes, batch, is_logged)
        for workers in 1, 2, 4:
            spread(os.path.join(path, str(workers)), workers, count, batch)
        if more:
            loaded(path, 4, more, batch)


if __name__ == "__main__":
    main()
