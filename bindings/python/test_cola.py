# SPDX-License-Identifier: MIT
"""The tests of the module, for pytest; without it, python3 -m unittest test_cola."""

import ctypes
import math
import os
import random
import shutil
import signal
import subprocess
import sys
import tempfile
import threading
import time
import unittest

import cola


class Stores(unittest.TestCase):
    def setUp(self):
        self.folder = tempfile.mkdtemp()
        self.addCleanup(shutil.rmtree, self.folder)
        self.path = os.path.join(self.folder, "store")
        self.copy = os.path.join(self.folder, "copy")

    def store(self, keys=1000, **options):
        cola.create(self.path, keys, **options)
        store = cola.open(self.path)
        self.addCleanup(store.close)
        return store

    def test_it_answers_as_a_dict(self):
        for version in 1, 2:
            if version == 2:
                os.remove(self.path)
            store, plain, dice = self.store(version=version), {}, random.Random(20261128)
            for step in range(3000):
                number = dice.randrange(400)
                key = bytes((number * 31 + at * at) % 256 for at in range(1 + number % 9))
                kind = dice.randrange(4)
                if kind < 2:
                    value = dice.randbytes(dice.randrange(33 if version == 1 else 73))
                    store[key] = plain[key] = value
                elif kind == 2:
                    self.assertEqual(store.pop(key, None), plain.pop(key, None))
                else:
                    self.assertEqual(store.get(key), plain.get(key))
                    self.assertEqual(key in store, key in plain)
                if step % 300 == 0:
                    pairs = sorted(plain.items())
                    low, high = sorted([dice.randbytes(2), dice.randbytes(1)])
                    self.assertEqual(list(store.items()), pairs)
                    self.assertEqual(list(store), [key for key, _ in pairs])
                    self.assertEqual(list(store.values()), [value for _, value in pairs])
                    self.assertEqual(list(store[low:high]), [pair for pair in pairs if low <= pair[0] < high])
                    self.assertEqual(list(store[low:]), [pair for pair in pairs if low <= pair[0]])
                    self.assertEqual(list(store[:high]), [pair for pair in pairs if pair[0] < high])
                    self.assertEqual(len(store), len(plain))
                    fallen = pairs[::-1]
                    self.assertEqual(list(reversed(store.items())), fallen)
                    self.assertEqual(list(reversed(store)), list(reversed(store.keys())))
                    self.assertEqual(list(zip(reversed(store), reversed(store.values()))), fallen)
                    self.assertEqual(list(reversed(store[low:high])), [pair for pair in fallen if low <= pair[0] < high])
                    self.assertEqual(list(store[high:low:-1]), [pair for pair in fallen if low < pair[0] <= high])
                    self.assertEqual(list(reversed(store[high:low:-1])), [pair for pair in pairs if low < pair[0] <= high])
                    self.assertEqual(list(store[:low:-1]), [pair for pair in fallen if low < pair[0]])
                    self.assertEqual(list(store[high::-1]), [pair for pair in fallen if pair[0] <= high])
                    for count in 0, 1, 31, 32, 33, 1000:
                        self.assertEqual(store.last(count), fallen[:count])
                    store.close()
                    store = cola.open(self.path)
                    self.addCleanup(store.close)
            self.assertEqual(dict(store), plain)
            store.close()

    def test_what_is_no_key_is_refused(self):
        store = self.store()
        for key in "text", 7, None:
            with self.assertRaises(TypeError):
                store[key] = b"value"
        with self.assertRaises(TypeError):
            store[b"key"] = "text"
        with self.assertRaises(TypeError):
            del store[b"a":b"b"]
        for key in b"", b"k" * 25:
            with self.assertRaises(cola.Length):
                store[key] = b"value"
        with self.assertRaises(cola.Length):
            store[b"key"] = b"v" * 33
        with self.assertRaises(KeyError):
            store[b"key"]
        with self.assertRaises(KeyError):
            del store[b"key"]
        for step in 2, -2, 0:
            with self.assertRaises(ValueError):
                store[b"a":b"b":step]
        for key in "text", 7:
            with self.assertRaises(TypeError):
                store[key:]
            with self.assertRaises(TypeError):
                store[:key:-1]
        for count in -1, 1 << 70:
            with self.assertRaises(ValueError):
                store.last(count)
        with self.assertRaises(TypeError):
            store.last("5")
        store[bytearray(b"key")] = memoryview(b"value")
        self.assertEqual(store[b"key"], b"value")

    def test_bounds_may_be_longer_than_keys(self):
        store = self.store(version=2)
        store[b"a" * 40] = b"longest"
        store[b"b"] = b"behind"
        self.assertEqual([key for key, _ in store[b"a" * 41:]], [b"b"])
        self.assertEqual([key for key, _ in store[:b"a" * 41]], [b"a" * 40])
        self.assertEqual([key for key, _ in store[b"a" * 40:b"a" * 41]], [b"a" * 40])
        self.assertEqual([key for key, _ in reversed(store[b"a" * 41:])], [b"b"])
        self.assertEqual([key for key, _ in store[:b"a" * 41:-1]], [b"b"])
        self.assertEqual([key for key, _ in store[b"a" * 41:b"a" * 39:-1]], [b"a" * 40])
        self.assertEqual([key for key, _ in store[b"a" * 41:b"a" * 40:-1]], [])

    def test_a_prefix_has_the_keys_that_begin_so(self):
        store, dice = self.store(version=2), random.Random(20261129)
        keys = sorted({dice.choice([b"", b"\xff", b"\xff\xff", b"\xfe\xff", b"\0"]) + dice.randbytes(1 + dice.randrange(3)) for _ in range(500)} | {b"a" * 40})
        store.update((key, key[:9]) for key in keys)
        prefixes = [b"", b"\0", b"\xff", b"\xff" * 2, b"\xff" * 3, b"\xff" * 40, b"\xfe\xff", b"a" * 40, b"a" * 41, b"a" * 1000, *keys[::7]]
        for prefix in prefixes + [key[:1 + at % 2] for at, key in enumerate(keys)]:
            pairs = [(key, key[:9]) for key in keys if key.startswith(prefix)]
            self.assertEqual(list(store.prefix(prefix)), pairs)
            self.assertEqual(list(reversed(store.prefix(prefix))), pairs[::-1])
        self.assertEqual(list(store.prefix(bytearray(b"a"))), list(store.prefix(b"a")))
        for no_key in "a", 7, None:
            with self.assertRaises(TypeError):
                store.prefix(no_key)
        store.close()
        with self.assertRaises(cola.Closed):
            store.prefix(b"a")

    def test_rows_are_given_one_by_one_in_both_directions(self):
        store = self.store()
        store.update((b"%03d" % at, b"") for at in range(100))
        rows = store[b"010":b"090"]
        self.assertEqual(next(rows), (b"010", b""))
        backwards = reversed(rows)
        self.assertEqual(next(backwards), (b"089", b""))
        self.assertEqual([key for key, _ in rows], [b"%03d" % at for at in range(11, 90)])
        self.assertEqual([key for key, _ in reversed(backwards)], [b"%03d" % at for at in range(10, 90)])
        self.assertEqual([key for key, _ in backwards], [b"%03d" % at for at in range(88, 9, -1)])
        self.assertRaises(StopIteration, next, rows)
        self.assertEqual(list(store[b"090":b"010"]) + list(store[b"010":b"090":-1]), [])
        store.close()
        for call in (lambda: store.last(1)), (lambda: store[::-1]), (lambda: list(reversed(store))), store.info:
            with self.assertRaises(cola.Closed):
                call()

    def test_a_store_says_what_it_is(self):
        store = self.store(keys=500, block=4, version=2)
        self.assertEqual(store.last(1), [])
        info = store.info()
        self.assertEqual((info.keys, info.count, info.bytes, info.version, info.block), (500, 0, os.path.getsize(self.path), 2, 4))
        self.assertEqual((info.write_bound, info.get_bound), (40 * len(info.levels), 8 * len(info.levels)))
        store.update((b"%d" % at, b"") for at in range(400))
        info = store.info()
        self.assertEqual(info.count, 400)
        for number, level in enumerate(info.levels):
            self.assertEqual(level.room, 4 << number)
            self.assertLessEqual(max(level.visible, level.shadow), level.room)
        self.assertGreaterEqual(sum(level.visible for level in info.levels), 400)
        store.close()
        with cola.open(self.path, read_only=True) as store:
            self.assertEqual(store.info(), info)

    def test_many_pairs_are_put_at_once(self):
        store = self.store(keys=3000)
        pairs = [(b"k%05d" % (at * 7919 % 2500), b"v%d" % at) for at in range(2500)]
        class OnlyKeys:  # (as dict takes it)
            def keys(self):
                return [b"x", b"y"]

            def __getitem__(self, key):
                return key * 2
        for given in pairs, dict(pairs), iter(pairs), (pair for pair in pairs), [list(pair) for pair in pairs]:
            store.update(given)
            self.assertEqual(dict(store), dict(pairs))
            store.clear()
        store.update(OnlyKeys())
        store.update()
        store.update([])
        store.update([(bytearray(b"z"), memoryview(b"zz")), (b"x", b"1"), (b"x", b"2")])
        self.assertEqual(dict(store), {b"x": b"2", b"y": b"yy", b"z": b"zz"})
        for wrong in 42, None, [("a", b"1")], [(b"a", "1")], [(b"a", None)], [(7, b"1")]:
            with self.assertRaises(TypeError):
                store.update(wrong)
        with self.assertRaises(TypeError):
            store.update(word=b"1")
        for wrong in [(b"a",)], [(b"a", b"b", b"c")]:
            with self.assertRaises(ValueError):
                store.update(wrong)
        self.assertEqual(len(store), 3)

    def test_an_update_says_how_far_it_came(self):
        store = self.store(keys=1500)
        with self.assertRaises(cola.Full) as raised:
            store.update((b"%05d" % at, b"") for at in range(5000))
        self.assertEqual((raised.exception.done, len(store)), (1500, 1500))
        store.clear()
        for length in 25, 40, 41, 255, 256, 1000:
            with self.assertRaises(cola.Length) as raised:
                store.update([(b"a", b"1"), (b"b", b"2"), (b"k" * length, b"3"), (b"c", b"4")])
            self.assertEqual((raised.exception.done, dict(store)), (2, {b"a": b"1", b"b": b"2"}))
            if length > 32:
                with self.assertRaises(cola.Length) as raised:
                    store.update([(b"a", b"1"), (b"b", b"v" * length)])
                self.assertEqual(raised.exception.done, 1)
        with self.assertRaises(cola.Length):
            store.update({b"": b"1"})
        with cola.open(self.copy, keys=10, version=2, create=True) as wide:
            for length in 41, 255, 256, 1000:
                for pair in (b"k" * length, b""), (b"k", b"v" * (32 + length)):
                    with self.assertRaises(cola.Length):
                        wide.update([pair])
                with self.assertRaises(cola.Length):
                    wide.get_many([b"k" * length])
            wide.update([(b"k" * 40, b"v" * 72)])
            self.assertEqual(wide.get_many([b"k" * 40]), [b"v" * 72])
            self.assertEqual(len(wide), 1)

    def test_many_values_are_had_at_once(self):
        store = self.store(keys=3000)
        plain = {b"k%05d" % at: b"v" * (at % 33) for at in range(2500)}
        store.update(plain)
        keys = [b"k%05d" % (at * 3 % 3000) for at in range(3000)]
        self.assertTrue(store.get_many(keys) == [plain.get(key) for key in keys])
        self.assertTrue(store.get_many(iter(keys), b"-") == [plain.get(key, b"-") for key in keys])
        self.assertEqual(store.get_many([]), [])
        self.assertEqual(store.get_many([bytearray(b"k00001"), memoryview(b"none")], default=0), [b"v", 0])
        for wrong in "text", 7, [b"a", "b"], [None]:
            with self.assertRaises(TypeError):
                store.get_many(wrong)
        for length in 0, 25, 41, 255, 256, 1000:
            with self.assertRaises(cola.Length):
                store.get_many([b"a", b"k" * length])
        store.close()
        with self.assertRaises(cola.Closed):
            store.get_many([b"a"])

    def test_a_store_is_loaded(self):
        pairs = [(b"k%05d" % at, b"v%d" % at) for at in range(2500)]
        self.assertEqual(cola.load(self.path, pairs, keys=3000, block=4, version=2), 2500)
        with cola.open(self.path) as store:
            self.assertEqual(list(store.items()), pairs)
            self.assertEqual(store.limits, {"keys": 3000, "block": 4, "version": 2})
        with self.assertRaises(cola.NotEmpty):
            cola.load(self.path, pairs, keys=3000)
        os.remove(self.path)
        self.assertEqual(cola.load(self.path, {b"b": b"1", b"c": bytearray(b"2")}, keys=2), 2)
        os.remove(self.path)
        self.assertEqual(cola.load(self.path, iter([]), keys=2), 0)
        os.remove(self.path)
        swapped = pairs[:1500] + [pairs[1600], pairs[1500]] + pairs[1700:]
        for wrong, kind, done in ((swapped, cola.Order, 1501), (pairs, cola.Full, 2000), (pairs[:9] + [(b"", b"")], cola.Length, 9),
                                  (pairs[:5] * 2, cola.Order, 5)):
            with self.assertRaises(kind) as raised:
                cola.load(self.path, wrong, keys=2000)
            self.assertEqual(raised.exception.done, done)
            self.assertIn(f"pair {done + 1}, {wrong[done][0]!r}", str(raised.exception))
        for wrong, kind in ([("a", b"1")], TypeError), ([b"ab"], TypeError), ((1 / 0 for _ in [1]), ZeroDivisionError), (7, TypeError):
            with self.assertRaises(kind):
                cola.load(self.path, wrong, keys=2000)
        for keys, block in (0, 5), (1 << 70, 5), (5, 300):
            with self.assertRaises(cola.Options):
                cola.load(self.path, [], keys=keys, block=block)
        with self.assertRaises(FileNotFoundError):
            cola.load(os.path.join(self.folder, "none", "store"), [], keys=5)
        self.assertEqual(os.listdir(self.folder), [])

    def test_a_store_is_checked_and_grown(self):
        pairs = [(b"k%05d" % at, b"v%d" % at) for at in range(300)]
        store = self.store(keys=300, version=2)
        store.update(reversed(pairs))
        stamps = [store.stamp(key) for key, _ in pairs]
        self.assertEqual(store.check(), (True, 300, None, None, None))
        self.assertEqual(dict(store), dict(pairs))
        store[b"k00000"] = b"again"
        for call in (lambda: cola.check(self.path)), (lambda: cola.grow(self.path, 1000)):
            with self.assertRaises(BlockingIOError):
                call()
        store.close()
        with self.assertRaises(cola.Closed):
            store.check()
        self.assertEqual(cola.check(self.path), (True, 300, None, None, None))
        with self.assertRaises(cola.Fewer):
            cola.grow(self.path, 299)
        for keys, block in (1000, 99), (0, 5), (-1, 5):
            with self.assertRaises(cola.Options):
                cola.grow(self.path, keys, block)
        self.assertEqual(cola.grow(self.path, 1000, block=4), 300)
        self.assertEqual(os.listdir(self.folder), ["store"])
        with cola.open(self.path, read_only=True) as store:
            self.assertEqual(store.limits, {"keys": 1000, "block": 4, "version": 2})
            self.assertEqual(dict(store), {**dict(pairs), b"k00000": b"again"})
            self.assertEqual([store.stamp(key) for key, _ in pairs[1:]], stamps[1:])
            self.assertEqual(store.check(), cola.check(self.path))
            with self.assertRaises(cola.ReadOnly):
                store[b"a"] = b"b"
        with open(self.path, "r+b") as file:
            file.seek(24)
            file.write(b"\x01")
        self.assertEqual(cola.check(self.path)[:3], (False, None, "count"))
        os.truncate(self.path, 600)
        for call in (lambda: cola.check(self.path)), (lambda: cola.grow(self.path, 1000)):
            with self.assertRaises(cola.Small):
                call()
        with self.assertRaises(FileNotFoundError):
            cola.check(self.copy)

    def test_many_at_once_cross_once(self):
        store = self.store(version=2)
        pairs = [(b"user:%06d" % at, b"value %d" % at) for at in range(1000)]
        keys, rows, done = [key for key, _ in pairs], bytes(cola._packed(pairs)), ctypes.c_size_t()
        room, there = ctypes.create_string_buffer(rows, len(rows)), ctypes.create_string_buffer(1000)

        def put_each():
            for key, value in pairs:
                store[key] = value
        calls = [put_each, lambda: store.update(pairs), lambda: cola._library.cola_put_many(store._at, rows, 1000, None, done),
                 lambda: [store[key] for key in keys], lambda: store.get_many(keys),
                 lambda: cola._library.cola_get_many(store._at, room, 1000, there, done)]
        least = [math.inf] * len(calls)
        for _ in range(40):
            for at, call in enumerate(calls):
                begun = time.process_time()
                call()
                least[at] = min(least[at], time.process_time() - begun)
        for name, (each, many, alone) in ("update", least[:3]), ("get_many", least[3:]):
            crossing = (many - alone) / (each - alone)
            print(f"1,000 at once, beside one by one: {name} {many / each:.2f} of the time, and {crossing:.2f} without that of the library itself "
                  f"({each * 1000:.2f}, {many * 1000:.2f} and {alone * 1000:.2f} us a row)")
            self.assertLess(many, each)
            self.assertLess(crossing, 0.3)  # (0.2 is aimed at; 0.1 is what it takes)

    def test_a_store_is_made_where_there_is_none(self):
        for wrong in {"create": True}, {"keys": 5}, {"block": 3}, {"version": 2, "read_only": True}:
            with self.assertRaises(TypeError):
                cola.open(self.path, **wrong)
        with self.assertRaises(TypeError):
            cola.open(self.path, 1000)
        self.assertFalse(os.path.exists(self.path))
        with self.assertRaises(cola.Options):
            cola.open(self.path, keys=0, create=True)
        with cola.open(self.path, keys=100, block=3, version=2, create=True) as store:
            store[b"a"] = b"1"
            self.assertEqual(store.limits, {"keys": 100, "block": 3, "version": 2})
            self.assertEqual(repr(store), f"<cola.Store {self.path!r}, keys=100, block=3, version=2>")
        self.assertEqual(repr(store), f"<cola.Store {self.path!r}, keys=100, block=3, version=2, closed>")
        with cola.open(self.path, keys=7, create=True, read_only=True) as store:
            self.assertEqual(dict(store), {b"a": b"1"})
            self.assertEqual(repr(store), f"<cola.Store {self.path!r}, keys=100, block=3, version=2, read_only=True>")
        with open(self.copy, "wb"):
            pass
        with cola.open(self.copy, keys=7, create=True) as store:  # (an empty file)
            self.assertEqual((len(store), store.limits["keys"]), (0, 7))
        with open(self.copy, "wb") as file:
            file.write(b"x")
        with self.assertRaises(cola.Small):
            cola.open(self.copy, keys=7, create=True)

    def test_a_store_that_is_read_alone(self):
        with self.store(version=2) as store:
            store.update({b"a": b"1", b"b": b"2"})
            with self.assertRaises(BlockingIOError):
                cola.open(self.path, read_only=True)
        with open(self.path, "rb") as file:
            before = file.read()
        with cola.open(self.path, read_only=True) as one, cola.open(self.path, read_only=True) as two:
            self.assertTrue(one.read_only)
            self.assertEqual((dict(one), len(two), two.stamp(b"b"), list(two.prefix(b"b"))), ({b"a": b"1", b"b": b"2"}, 2, 2, [(b"b", b"2")]))
            for call in (lambda: one.__setitem__(b"a", b"2"), lambda: one.pop(b"a"), lambda: one.update({b"a": b"2"}), lambda: one.put_if(b"a", 1, b"2"),
                         lambda: one.checkpoint(self.copy), lambda: one.__delitem__(b"c")):
                with self.assertRaises(cola.ReadOnly):
                    call()
            with self.assertRaises(BlockingIOError):
                cola.open(self.path)
            child = os.fork()
            if child == 0:
                cola.open(self.path, read_only=True)
                os.kill(os.getpid(), signal.SIGKILL)
            os.waitpid(child, 0)
        with open(self.path, "rb") as file:
            self.assertEqual(file.read(), before)
        with cola.open(self.path) as store:
            self.assertFalse(store.read_only)
            store[b"a"] = b"3"

    def test_a_full_store_is_full(self):
        store = self.store(keys=1)
        store[b"a"] = b"1"
        store[b"a"] = b"2"
        with self.assertRaises(cola.Full) as raised:
            store[b"b"] = b"1"
        self.assertEqual(raised.exception.answer, 3)
        self.assertEqual(dict(store), {b"a": b"2"})

    def test_stamps_make_puts_conditional(self):
        store = self.store(version=2)
        self.assertEqual(store.stamp(b"hits"), 0)
        self.assertTrue(store.put_if(b"hits", 0, b"1"))
        seen = store.stamp(b"hits")
        self.assertFalse(store.put_if(b"hits", seen + 1, b"2"))
        self.assertTrue(store.put_if(b"hits", seen, b"2"))
        self.assertEqual(store[b"hits"], b"2")
        self.assertGreater(store.stamp(b"hits"), seen)

    def test_a_stamp_is_a_number_of_64_bits(self):
        store = self.store(version=2)
        self.assertTrue(store.put_if(b"hits", 0, b"1"))
        for seen in -1, 1 << 64, 1 << 70:
            with self.assertRaises(ValueError):
                store.put_if(b"hits", seen, b"2")
        for seen in None, "0", 0.0:
            with self.assertRaises(TypeError):
                store.put_if(b"hits", seen, b"2")
        self.assertFalse(store.put_if(b"hits", (1 << 64) - 1, b"2"))
        self.assertEqual(dict(store), {b"hits": b"1"})

    def test_a_path_has_no_zero_byte(self):
        store = self.store()
        for path in self.path + "\0.store", os.fsencode(self.copy) + b"\0":
            for call in (lambda: cola.create(path, 10), lambda: cola.open(path), lambda: store.checkpoint(path)):
                with self.assertRaises(ValueError):
                    call()
        self.assertEqual(os.listdir(self.folder), ["store"])

    def test_a_library_that_is_missing_is_named(self):
        named = os.path.join(self.folder, "libcola.so")
        done = subprocess.run([sys.executable, "-c", "import cola"], env={**os.environ, "COLA_LIBRARY": named}, capture_output=True)
        self.assertEqual(done.returncode, 1)
        last = done.stderr.decode().splitlines()[-1]
        self.assertTrue(last.startswith("ImportError: ") and named in last and "COLA_LIBRARY" in last, last)

    def test_files_that_are_refused(self):
        with self.assertRaises(cola.Options):
            cola.create(self.path, 0)
        with self.assertRaises(cola.Options):
            cola.create(self.path, 10, block=300)
        with self.assertRaises(FileNotFoundError):
            cola.open(self.path)
        store = self.store()
        with self.assertRaises(BlockingIOError):
            cola.open(self.path)
        store.close()
        with self.assertRaises(cola.NotEmpty):
            cola.create(self.path, 10)
        with open(self.path, "r+b") as file:
            file.truncate(600)
        with self.assertRaises(cola.Small):
            cola.open(self.path)
        with open(self.path, "wb") as file:
            file.write(b"x" * 8192)
        with self.assertRaises(cola.NotStore):
            cola.open(self.path)

    def test_a_closed_store_is_closed(self):
        with self.store() as store:
            store[b"a"] = b"1"
        store.close()
        for call in (lambda: store[b"a"], lambda: len(store), lambda: list(store[:]), lambda: store.checkpoint(self.copy)):
            with self.assertRaises(cola.Closed):
                call()
        store = cola.open(self.path)
        self.assertEqual(store[b"a"], b"1")
        del store  # (closes it)
        with cola.open(self.path) as store:
            self.assertEqual(len(store), 1)

    def test_the_file_of_a_resident_store_has_its_last_checkpoint(self):
        def bytes_of_file():
            with open(self.path, "rb") as file:
                return file.read()

        with self.assertRaises(TypeError):
            with self.store() as store:
                store.checkpoint()
        with cola.open(self.path, resident=True) as store:
            made = bytes_of_file()
            store[b"a"] = b"1"
            self.assertEqual(bytes_of_file(), made)
            store.checkpoint()
            saved = bytes_of_file()
            self.assertNotEqual(saved, made)
            self.assertTrue(os.path.exists(self.path + "-journal"))
            store[b"b"] = b"2"
            store.checkpoint(self.copy)
            self.assertEqual(bytes_of_file(), saved)
        self.assertFalse(os.path.exists(self.path + "-journal"))
        self.assertEqual(bytes_of_file()[:15], saved[:15])
        with self.assertRaises(ZeroDivisionError):
            with cola.open(self.path, resident=True) as store:
                self.assertEqual(list(store), [b"a", b"b"])
                store[b"c"] = b"3"
                1 / 0
        with self.assertRaises(cola.Options):
            cola.open(self.path, resident=True, read_only=True)
        with cola.open(self.path) as store:
            self.assertEqual(dict(store), {b"a": b"1", b"b": b"2"})

    def test_a_store_with_a_log_keeps_what_it_answered(self):
        cola.create(self.path, 1000, version=2)
        for flags in {"resident": True, "log": True}, {"sync": True}:
            child = os.fork()
            if child == 0:
                store = cola.open(self.path, **flags)
                store[b"a"] = b"1"
                store.update({b"b": b"2", b"c": b"3"})
                del store[b"a"]
                store.put_if(b"c", store.stamp(b"c"), b"4")
                store.sync()
                os.kill(os.getpid(), signal.SIGKILL)
            self.assertTrue(os.WIFSIGNALED(os.waitpid(child, 0)[1]))
            self.assertTrue(os.path.exists(self.path + "-log"))
            with self.assertRaises(ZeroDivisionError):
                with cola.open(self.path, log=True) as store:
                    self.assertEqual(dict(store), {b"b": b"2", b"c": b"4"})
                    store[b"d"] = b"5"
                    1 / 0
            with cola.open(self.path, read_only=True) as store:  # (makes the calls again, by a checkpoint)
                self.assertEqual(dict(store), {b"b": b"2", b"c": b"4", b"d": b"5"})
            self.assertFalse(os.path.exists(self.path + "-log"))
            with cola.open(self.path, log=True) as store:
                store.clear()
                store.checkpoint()
        with self.assertRaises(cola.Options):
            cola.open(self.path, log=True, read_only=True)
        with cola.open(self.path, resident=True) as store:
            with self.assertRaises(cola.Options):
                store.sync()

    def test_a_process_that_dies_leaves_its_checkpoint(self):
        cola.create(self.path, 1000)
        child = os.fork()
        if child == 0:
            store = cola.open(self.path)
            store[b"a"] = b"1"
            store.checkpoint(self.copy)
            store[b"a"] = b"2"
            os.kill(os.getpid(), signal.SIGKILL)
        os.waitpid(child, 0)
        with self.assertRaises(cola.NotClosed):
            cola.open(self.path)
        os.replace(self.copy, self.path)
        with cola.open(self.path) as store:
            self.assertEqual(dict(store), {b"a": b"1"})

    def test_threads_may_share_a_store(self):
        store = self.store()
        names = [bytes([letter]) for letter in b"abcd"]

        def work(name):
            for at in range(200):
                store[name + b"%d" % at] = name

        threads = [threading.Thread(target=work, args=(name,)) for name in names]
        for thread in threads:
            thread.start()
        for thread in threads:
            thread.join()
        self.assertEqual(len(store), 800)
        self.assertEqual([key for key, value in store.items() if not key.startswith(value)], [])

    def test_other_threads_run_while_a_copy_is_made(self):
        store = self.store(keys=1 << 18)  # (a file of 64 MiB)
        store[b"a"] = b"1"
        beats, done = [], threading.Event()

        def beat():
            while not done.is_set():
                beats.append(time.monotonic())
                time.sleep(0.0005)

        thread = threading.Thread(target=beat)
        thread.start()
        begun = time.monotonic()
        store.checkpoint(self.copy)
        ended = time.monotonic()
        done.set()
        thread.join()
        self.assertGreater(sum(begun < beat < ended for beat in beats), 5)

    def test_calls_on_a_store_wait_for_each_other(self):
        store = self.store()

        def work(name):
            for at in range(100):
                store[name + b"%d" % at] = name
                if at % 20 == 0:
                    store.checkpoint(self.copy)

        threads = [threading.Thread(target=work, args=(bytes([letter]),)) for letter in b"abc"]
        for thread in threads:
            thread.start()
        for thread in threads:
            thread.join()
        store.checkpoint(self.copy)
        with cola.open(self.copy) as copy:
            self.assertEqual(len(copy), 300)
            self.assertEqual(dict(copy), dict(store))

    def test_a_forked_process_waits_for_no_thread_of_its_parent(self):
        store = self.store()
        store[b"a"] = b"1"
        held, done = threading.Event(), threading.Event()

        def hold():
            with store._lock:  # (as a checkpoint does)
                held.set()
                done.wait()

        thread = threading.Thread(target=hold)
        thread.start()
        held.wait()
        child = os.fork()
        if child == 0:
            signal.alarm(10)
            store.close()  # (leaves the file to the parent)
            os._exit(0)
        self.assertEqual(os.waitpid(child, 0)[1], 0)
        done.set()
        thread.join()
        self.assertEqual(dict(store), {b"a": b"1"})


if __name__ == "__main__":
    unittest.main()
