# SPDX-License-Identifier: MIT
"""What Python asks of a mapping, by its own tests (test.mapping_tests), where its python3 has them."""

import ast
import os
import shutil
import tempfile
import unittest

import cola

try:
    from test import mapping_tests
except ImportError:
    mapping_tests = None


def coded(it):
    return repr(it).encode()


def decoded(it):
    return ast.literal_eval(it.decode())


class Rows:
    """The pairs of a range of a store, as objects."""

    def __init__(self, pairs):
        self.pairs = pairs

    def __iter__(self):
        return self

    def __next__(self):
        key, value = next(self.pairs)
        return decoded(key), decoded(value)

    def __reversed__(self):
        return Rows(reversed(self.pairs))


class Objects(cola.Store):
    """A store whose keys and values are the bytes of Python's own objects, since those of the tests are no bytes. What gives or takes them
    is replaced here, with no more in it than the coding; the views, the iterations and all else are the store's own."""

    def __getitem__(self, key):
        return super().__getitem__(key) if isinstance(key, slice) else decoded(super().__getitem__(coded(key)))

    def _range(self, bounds):
        return Rows(super()._range(bounds))

    def __setitem__(self, key, value):
        super().__setitem__(coded(key), coded(value))

    def __delitem__(self, key):
        super().__delitem__(coded(key))

    def update(self, pairs=(), /, **words):
        super().update((coded(key), coded(value)) for key, value in cola._pairs(pairs, words))


if mapping_tests is not None:
    class Mapping(mapping_tests.TestMappingProtocol):
        def setUp(self):
            self.folder = tempfile.mkdtemp()
            self.addCleanup(shutil.rmtree, self.folder)
            self.made = 0

        def type2test(self, **words):
            self.made += 1
            path = os.path.join(self.folder, f"{self.made}")
            cola.create(path, 3000, version=2)
            store = Objects(path)
            self.addCleanup(store.close)
            store.update(**words)
            return store

        def test_views(self):
            store, plain = self.type2test(b=2, a=1, c=3), {"a": 1, "b": 2, "c": 3}
            for view, kind in (store.keys(), cola._Keys), (store.items(), cola._Items), (store.values(), cola._Values):
                self.assertIs(type(view), kind)
            for given, wanted in ((store, plain), (store.keys(), plain.keys()), (store.items(), plain.items()), (store.values(), plain.values())):
                self.assertEqual((list(given), list(reversed(given)), len(given)), (list(wanted), list(reversed(wanted)), 3))
            self.assertTrue(("b", 2) in store.items() and ("b", 3) not in store.items() and 3 in store.values() and 4 not in store.values())
            self.assertEqual((store.keys() & {"a", "x"}, store.items() - {("a", 1)}), ({"a"}, {("b", 2), ("c", 3)}))

        test_fromkeys = test_copy = None  # (a store is in a file, and is made there)
        test_popitem = mapping_tests.BasicTestMappingProtocol.test_popitem  # (the further one makes copies)
        test_setdefault = mapping_tests.BasicTestMappingProtocol.test_setdefault  # (what is had of a store is no part of it)
else:
    class Mapping(unittest.TestCase):
        @unittest.skip("this Python has no test.mapping_tests")
        def test_read(self):
            pass


if __name__ == "__main__":
    unittest.main()
