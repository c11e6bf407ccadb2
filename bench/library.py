# SPDX-License-Identifier: MIT
"""Times many rows at once from Python beside single calls, for bench/library.sh:

    library.py FILE COUNT ROUNDS ORDER

ROUNDS times it puts COUNT keys in the order (random or rising) one by one, and in a new file by `update`, 1,000 pairs each, and
gets them so. It prints the least seconds of each, of processor, and what part the many take of the single ones."""

import os
import random
import sys
import time

import cola

path, count, rounds, order = sys.argv[1], int(sys.argv[2]), int(sys.argv[3]), sys.argv[4]
numbers = list(range(count))
if order == "random":
    random.Random(20261130).shuffle(numbers)
pairs = [(b"k%010d" % number, b"value%d" % number) for number in numbers]
keys = [key for key, _ in pairs]
thousands = range(0, count, 1000)


def put_each(store):
    for key, value in pairs:
        store[key] = value


def put_many(store):
    for at in thousands:
        store.update(pairs[at:at + 1000])


def get_each(store):
    return [store[key] for key in keys]


def get_many(store):
    return [value for at in thousands for value in store.get_many(keys[at:at + 1000])]


least = {}
for _ in range(rounds):
    for puts, gets in (put_each, get_each), (put_many, get_many):
        if os.path.exists(path):
            os.remove(path)
        with cola.open(path, keys=count, create=True) as store:
            for call in puts, gets:
                begun = time.process_time()
                answer = call(store)
                least[call] = min(least.get(call, 1e9), time.process_time() - begun)
            assert answer == [value for _, value in pairs]
for name, many, each in ("update", put_many, put_each), ("get_many", get_many, get_each):
    print(f"From Python, {order} order: {name} of 1,000 takes {least[many] / least[each]:.2f} of the time of single calls "
          f"({least[many]:.2f} and {least[each]:.2f} s).")
