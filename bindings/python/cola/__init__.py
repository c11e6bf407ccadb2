# SPDX-License-Identifier: MIT
"""An ordered key-value store in one file: a mapping of bytes to bytes.

    import cola

    with cola.open("notes", keys=1000, create=True) as store:
        store[b"user:1001"] = b"Ada"
        store.update({b"user:1002": b"Grace", b"user:1003": b"Edsger"})
        print(store[b"user:1001"], b"user:1004" in store, len(store))
        for key, value in store.prefix(b"user:"):
            print(key, value)
        store.checkpoint("notes.copy")

A store is for a number of keys that is chosen when its file is made. Keys are ordered byte by byte. They have from 1 to 24
bytes and values up to 32, or up to 40 and 72 in a file of version 2. A process that dies with a mapped store, which open gives where
nothing else is asked for, leaves a file that is refused from then on (NotClosed): go back to the copy of the last checkpoint. The file
of a resident store has its last checkpoint, and that of one with a log each call that was answered (open).

Threads may share a store: one call on it is made at a time, and other threads run while a file is made, opened, copied or
closed. It stands on libcola.so over ctypes alone. `python3 -m cola notes` is a shell for people (cola/shell.py).
"""

import ctypes
import ctypes.util
import operator
import os
import struct
import threading
import weakref
from collections import namedtuple
from collections.abc import ItemsView, KeysView, Mapping, MutableMapping, ValuesView
from functools import lru_cache
from itertools import chain, islice

__all__ = ["create", "open", "load", "check", "grow", "Store", "Info", "Level", "Verdict", "Error", "Full", "Worn", "Closed", "Length",
           "Options", "NotEmpty", "NotStore", "Small", "NotClosed", "BadCell", "Overfull", "ReadOnly", "Order", "Fewer",
           "Unfinished", "KEY_MAX", "VALUE_MAX", "KEYS_MAX"]

__version__ = "1.0"

KEY_MAX = 40  #: bytes of a key in a file of version 2; 24 in one of version 1
VALUE_MAX = 72  #: bytes of a value in a file of version 2; 32 in one of version 1
KEYS_MAX = 1 << 24  #: keys that a store may be for

_OK, _NONE, _OTHER, _MEMORY, _SYSTEM, _BROKEN = 0, 1, 2, 16, 17, 21
_READ_ONLY, _RESIDENT, _LOGGED, _SYNCED = 1, 2, 4, 8
_ROWS = 32  # how many rows an iteration asks for at once
_MANY = 1024  # how many rows are put, or looked up, at once


class Error(Exception):
    """A call was refused; nothing changed. `answer` is its number in cola.h. `done` is set by Store.update and load: how many pairs
    were taken before the one that was refused."""

    answer = None
    done = 0


class Full(Error):
    """The key is new, and the store has as many keys as it is for."""

    answer = 3


class Worn(Error):
    """No stamp is left to give."""

    answer = 4


class Closed(Error, ValueError):
    """The store is closed."""

    answer = 5


class Length(Error, ValueError):
    """A key has no byte or more, or a value more, than the file's version allows."""

    answer = 7


class Options(Error, ValueError):
    """No store has these keys, this block or this version."""

    answer = 9


class NotEmpty(Error):
    """The file that was to be made is not empty."""

    answer = 10


class NotStore(Error):
    """The file has no store's header."""

    answer = 11


class Small(Error):
    """The file has fewer bytes than its store."""

    answer = 12


class NotClosed(Error):
    """The store was not closed: a process has it open, or died."""

    answer = 13


class BadCell(Error):
    """A cell of the file is damaged."""

    answer = 14


class Overfull(Error):
    """The levels of the file are damaged."""

    answer = 15


class ReadOnly(Error):
    """The store is open to be read alone."""

    answer = 18


class Order(Error, ValueError):
    """The key of a pair is not above that of the pair before (load)."""

    answer = 19


class Fewer(Error, ValueError):
    """The new store is for fewer keys than there are (grow)."""

    answer = 20


class Unfinished(Error):
    """A checkpoint holds in the journal beside the file, and not in the file, or what the disk has of the log is not known: nothing is
    put before a checkpoint has succeeded."""

    answer = 22


_errors = {kind.answer: kind for kind in Error.__subclasses__()}


class _Cola(ctypes.Structure):
    _fields_ = [("is_open", ctypes.c_bool), ("is_read_only", ctypes.c_bool), ("is_unfinished", ctypes.c_bool),
                ("is_logged", ctypes.c_bool), ("at", ctypes.c_void_p)]


class _File(ctypes.Structure):
    _fields_ = [("store", _Cola), ("bytes", ctypes.c_void_p), ("length", ctypes.c_size_t),
                ("descriptor", ctypes.c_int), ("is_resident", ctypes.c_bool), ("owner", ctypes.c_long)]


class _Row(ctypes.Structure):
    _fields_ = [("key_len", ctypes.c_uint8), ("value_len", ctypes.c_uint8),
                ("key", ctypes.c_uint8 * KEY_MAX), ("value", ctypes.c_uint8 * VALUE_MAX)]


class _Cursor(ctypes.Structure):
    _fields_ = [("from_len", ctypes.c_uint8), ("until_len", ctypes.c_uint8), ("behind", ctypes.c_bool),
                ("bounded", ctypes.c_bool), ("from_", ctypes.c_uint8 * KEY_MAX), ("until", ctypes.c_uint8 * KEY_MAX)]


class _StoreInfo(ctypes.Structure):
    _fields_ = [(name, ctypes.c_uint64) for name in ("keys", "count", "bytes", "write_bound", "get_bound")] + \
               [(name, ctypes.c_uint8) for name in ("version", "block", "levels")]


class _LevelInfo(ctypes.Structure):
    _fields_ = [(name, ctypes.c_uint64) for name in ("visible", "shadow", "room")]


class _Verdict(ctypes.Structure):
    _fields_ = [("count", ctypes.c_uint64), ("cell", ctypes.c_uint64), ("flaw", ctypes.c_uint32), ("level", ctypes.c_uint32)]


class _FileLoad(ctypes.Structure):
    _fields_ = [("is_open", ctypes.c_bool), ("at", ctypes.c_void_p), ("bytes", ctypes.c_void_p), ("length", ctypes.c_size_t),
                ("name", ctypes.c_void_p), ("descriptor", ctypes.c_int), ("owner", ctypes.c_long)]


Info = namedtuple("Info", "keys count bytes write_bound get_bound version block levels")
Info.__doc__ = """What a store is, and how full: the keys that it is for, those that it has, its bytes, the cell accesses that a put or a
delete, and a get, makes at most, its version and block, and its levels, each a Level, from the one that takes a put on."""
Level = namedtuple("Level", "visible shadow room")
Level.__doc__ = """How far a level is filled, in cells: of the run that searches read, of the run that it builds, and the room of either."""


_FLAWS = (None, "cell", "order", "sample", "length", "shadow", "live", "count", "stamp")
Verdict = namedtuple("Verdict", "is_sound count flaw level cell")
Verdict.__doc__ = """What check says of a closed store: whether it stands for a map, and of how many keys; else its first flaw, by the word that the
program cola has for it ("cell", "order", "sample", "length", "shadow", "live", "count", "stamp"), and the level and the cell where it shows."""


def _declare(library, calls):
    """Says what the calls take; each answers a number."""
    for call, words in calls.items():
        getattr(library, call).argtypes = words
        getattr(library, call).restype = ctypes.c_int32
    return library


def _load():
    """libcola.so, twice: for calls of some microseconds, by which the interpreter waits, and for those that wait for a disk,
    while other threads run. It is the file that COLA_LIBRARY names, else that of the module's wheel, else where the system
    finds it."""
    named = os.environ.get("COLA_LIBRARY")
    carried = os.path.join(os.path.dirname(os.path.dirname(__file__)), "cola.libs", "libcola.so.1")
    name = named or (os.path.exists(carried) and carried) or ctypes.util.find_library("cola") or "libcola.so.1"
    try:
        quick, slow = ctypes.PyDLL(name, use_errno=True), ctypes.CDLL(name, use_errno=True)
    except OSError as error:
        raise ImportError(f"{error}: COLA_LIBRARY {'has to name' if named else 'may name'} the file of libcola.so "
                          "(make library builds out/lib/libcola.so)", name="cola") from None
    at, size, text, number = ctypes.c_void_p, ctypes.c_size_t, ctypes.c_char_p, ctypes.POINTER(ctypes.c_uint64)
    quick.cola_strerror.argtypes = [ctypes.c_int32]
    quick.cola_strerror.restype = ctypes.c_char_p
    puts = {
        "cola_put": [at, text, size, text, size, at],
        "cola_put_if": [at, text, size, ctypes.c_uint64, text, size, number],
        "cola_delete": [at, text, size],
        "cola_put_many": [at, at, size, at, ctypes.POINTER(size)],
    }
    return _declare(quick, {
        **puts,
        "cola_get": [at, text, size, text, ctypes.POINTER(size)],
        "cola_stamp": [at, text, size, number],
        "cola_count": [at, number],
        "cola_seek_prefix": [ctypes.POINTER(_Cursor), text, size],
        "cola_next": [at, ctypes.POINTER(_Cursor), ctypes.POINTER(_Row), size, ctypes.POINTER(size)],
        "cola_prev": [at, ctypes.POINTER(_Cursor), ctypes.POINTER(_Row), size, ctypes.POINTER(size)],
        "cola_info": [at, ctypes.POINTER(_StoreInfo)],
        "cola_level": [at, ctypes.c_uint8, ctypes.POINTER(_LevelInfo)],
        "cola_get_many": [at, at, size, at, ctypes.POINTER(size)],
        "cola_load_many": [at, at, size, ctypes.POINTER(size)],
    }), _declare(slow, {
        **puts,
        "cola_file_sync": [ctypes.POINTER(_File)],
        "cola_file_create": [text, ctypes.c_uint64, ctypes.c_uint8, ctypes.c_uint8],
        "cola_file_open_as": [ctypes.POINTER(_File), text, ctypes.c_uint32],
        "cola_file_checkpoint": [ctypes.POINTER(_File), text],
        "cola_file_close": [ctypes.POINTER(_File)],
        "cola_file_check_open": [ctypes.POINTER(_File), ctypes.POINTER(_Verdict)],
        "cola_file_check": [text, ctypes.POINTER(_Verdict)],
        "cola_file_grow": [text, ctypes.c_uint64, ctypes.c_uint8, number],
        "cola_file_load_begin": [ctypes.POINTER(_FileLoad), text, ctypes.c_uint64, ctypes.c_uint8, ctypes.c_uint8],
        "cola_file_load_end": [ctypes.POINTER(_FileLoad), number],
        "cola_file_load_drop": [ctypes.POINTER(_FileLoad)],
        "cola_file_discard": [ctypes.POINTER(_File)],
    })


_library, _files = _load()
_open_stores = weakref.WeakValueDictionary()  # by id: those that were opened here and are there still


def _renew_locks():
    """In a process made by fork no thread is left that could give up a lock."""
    for store in list(_open_stores.values()):
        store._lock = threading.RLock()


if hasattr(os, "register_at_fork"):
    os.register_at_fork(after_in_child=_renew_locks)


def _check(answer, path=None):
    """Raises the error of an answer that is not 0."""
    if answer == _OK:
        return
    if answer == _SYSTEM:
        number = ctypes.get_errno()
        raise OSError(number, os.strerror(number), path)
    words = _library.cola_strerror(answer).decode()
    if answer == _MEMORY:
        raise MemoryError(words)
    raise _errors.get(answer, Error)(words if path is None else f"{words}: {os.fsdecode(path)}")


def _bytes(it):
    """The bytes of a key or a value."""
    if isinstance(it, (bytes, bytearray, memoryview)):
        return bytes(it)
    raise TypeError(f"a key or a value is bytes, and not {type(it).__name__}")


def _path(path):
    """The bytes of a path, of which none is zero."""
    path = os.fsencode(path)
    if b"\0" in path:
        raise ValueError("a path has no zero byte")
    return path


def _options(keys, block, version=1):
    """The numbers of a new store, as the library can be given them."""
    keys, block, version = operator.index(keys), operator.index(block), operator.index(version)
    if not (0 <= keys < 1 << 64 and 0 <= block < 256 and 0 <= version < 256):
        raise Options("no store has these keys, this block or this version")
    return keys, block, version


def create(path, keys, block=5, version=1):
    """Makes the file of a new, closed store for so many keys, with blocks of 2**block cells. A file that is there has to be
    empty (NotEmpty)."""
    keys, block, version = _options(keys, block, version)
    _check(_files.cola_file_create(_path(path), keys, block, version), path)


_create = create  # (open has a word of that name)


def _is_to_be_made(path):
    """Whether a file is not there, or is empty."""
    try:
        return os.stat(path).st_size == 0
    except FileNotFoundError:
        return True


def open(path, *, keys=None, block=5, version=1, create=False, read_only=False, resident=False, log=False, sync=False):
    """Opens the store in a file, for this process alone; with `read_only` to be read alone, beside others that read it; with
    `resident` it is kept in memory, and the file has its last checkpoint; with `log`, which is resident too, what was answered since is
    in a log beside the file, and outlives the process; with `sync`, which has a log too, it is on the disk, and outlives the machine. With
    `create` a file that is not there, or is empty, is made first, as by `create(path, keys, block, version)`; one that is there
    is opened as it is."""
    if create and keys is None:
        raise TypeError("a store that may have to be made is for a number of keys: keys=..")
    if not create and (keys, block, version) != (None, 5, 1):
        raise TypeError("keys, block and version are those of a store that may have to be made: create=True")
    if create and _is_to_be_made(path):
        try:
            _create(path, keys, block, version)
        except (NotEmpty, BlockingIOError):
            pass  # (another process makes it, or has made it)
    return Store(path, read_only=read_only, resident=resident, log=log, sync=sync)


def _pairs(other, words):
    """The pairs that a dict's update would take."""
    if isinstance(other, Mapping):
        pairs = other.items()
    elif hasattr(other, "keys"):
        pairs = ((key, other[key]) for key in other.keys())
    else:
        pairs = other
    return chain(pairs, words.items())


def _verdict(answer, verdict, path):
    """The Verdict of a check that was not refused."""
    if answer != _BROKEN:
        _check(answer, path)
        return Verdict(True, verdict.count, None, None, None)
    flaw = _FLAWS[verdict.flaw] if verdict.flaw < len(_FLAWS) else f"flaw {verdict.flaw}"
    return Verdict(False, None, flaw, verdict.level, verdict.cell)


def check(path):
    """Tests the closed store in a file, all of it, beside others that read it: a Verdict. It writes nothing but what a journal or
    a log beside the file has, as an opening does."""
    verdict = _Verdict()
    return _verdict(_files.cola_file_check(_path(path), verdict), verdict, path)


def grow(path, keys, block=5):
    """Makes the closed store in a file one for so many keys, with blocks of 2**block cells, and says how many rows it has. The file
    is replaced as a whole, and is on the disk then; a refusal leaves it as it was."""
    rows = ctypes.c_uint64()
    keys, block, _ = _options(keys, block)
    _check(_files.cola_file_grow(_path(path), keys, block, rows), path)
    return rows.value


def load(path, pairs, keys, block=5, version=1):
    """Makes the file of a new store of pairs by rising keys, and says how many they are. A file that is there has to be
    empty (NotEmpty). A pair that is refused, as one whose key is not above the one before (Order), ends it: what is raised has in
    `done` how many were before it. Where the pairs end by an error, nothing is left."""
    loading, all_rows, done = _FileLoad(descriptor=-1), ctypes.c_uint64(), 0
    name, (keys, block, version), pairs = _path(path), _options(keys, block, version), iter(_pairs(pairs, {}))
    _check(_files.cola_file_load_begin(loading, name, keys, block, version), path)
    try:
        while batch := list(islice(pairs, _MANY)):
            rows, loaded = _packed(batch), ctypes.c_size_t()
            answer = _library.cola_load_many(ctypes.byref(loading), _at(rows), len(batch), loaded)
            done += loaded.value
            if answer != _OK:
                kind = _errors.get(answer, Error)
                error = kind(f"{_library.cola_strerror(answer).decode()}: pair {done + 1}, {bytes(batch[loaded.value][0])!r}")
                error.done = done
                raise error
        _check(_files.cola_file_load_end(loading, all_rows), path)
    finally:
        if loading.bytes:
            _files.cola_file_load_drop(loading)
    return all_rows.value


_row = struct.Struct(f"BB{KEY_MAX}s{VALUE_MAX}s")  # a cola_row
_KEY_LENS, _VALUE_LENS = slice(0, None, _row.size), slice(1, None, _row.size)  # in some rows

# Many rows are laid out by struct's p, bytes behind a byte with their length, and cut off where there is no room: a key begins behind
# where the length of its value will be, and a value where the last byte of a key of KEY_MAX is. Then the lengths are moved.
_pair = struct.Struct(f"x{KEY_MAX}p{VALUE_MAX + 1}p")
_BEFORE_VALUES = slice(1 + KEY_MAX, None, _row.size)


@lru_cache(maxsize=None)  # (for each power of 2 up to _MANY)
def _many(row, count):
    """So many rows at once, by the layout of one."""
    return struct.Struct(row * count)


def _packed(pairs):
    """The rows of some pairs, of which each is bytes. A length that no row has stays too long."""
    pack = _pair.pack
    try:
        rows = bytearray().join([pack(key, value) for key, value in pairs])
        key_lens, value_lens = rows[_VALUE_LENS], rows[_BEFORE_VALUES]
        if KEY_MAX - 1 in key_lens or VALUE_MAX in value_lens:  # (some may be cut off)
            if any(len(key) >= KEY_MAX or len(value) > VALUE_MAX for key, value in pairs):
                raise struct.error
        rows[_KEY_LENS], rows[_VALUE_LENS] = key_lens, value_lens
        return rows
    except (struct.error, TypeError):
        pairs = [(_bytes(key), _bytes(value)) for key, value in pairs]
        return bytearray().join([_row.pack(min(len(key), 255), min(len(value), 255), key, value) for key, value in pairs])


def _packed_keys(keys):
    """The rows of some keys, and as many behind them as make a power of 2."""
    room = 1 << (len(keys) - 1).bit_length()
    try:
        rows = bytearray(_many(f"x{KEY_MAX + 1}p{VALUE_MAX}x", room).pack(*keys, *[b""] * (room - len(keys))))
        key_lens = rows[_VALUE_LENS]
        if KEY_MAX in key_lens and max(map(len, keys)) > KEY_MAX:
            raise struct.error
        rows[_KEY_LENS] = key_lens
        return rows
    except (struct.error, TypeError):
        return _packed([(key, b"") for key in keys]) + bytes((room - len(keys)) * _row.size)


def _values(rows, count):
    """The values of the first of some rows, which lose their keys."""
    rows[_BEFORE_VALUES] = rows[_VALUE_LENS]
    return _many(f"{1 + KEY_MAX}x{VALUE_MAX + 1}p", len(rows) // _row.size).unpack(rows)[:count]


def _at(it):
    """Where the bytes of a bytearray are."""
    return ctypes.byref(ctypes.c_char.from_buffer(it))


class _Place(namedtuple("_Place", "key is_behind")):
    """A place between two keys, in the order of such: before a key that may be there, or behind it."""

    __slots__ = ()

    @classmethod
    def of(cls, key, is_behind=False):
        # No key is longer than KEY_MAX: the place of a longer one is behind its first KEY_MAX bytes.
        return cls(key[:KEY_MAX], is_behind or len(key) > KEY_MAX)


_FIRST, _LAST = _Place(b"", False), _Place(b"\xff" * KEY_MAX, True)  # before all keys, and behind them


class _Rows:
    """The pairs of a store between two places, one by one, by rising keys or by falling ones. Backwards they are those from the
    other end on, also where some were given."""

    def __init__(self, store, low, high, falls=False):
        self._all = store, low, high, falls
        self._pairs = store._rows(low, high, falls)

    def __iter__(self):
        return self._pairs

    def __next__(self):
        return next(self._pairs)

    def __reversed__(self):
        store, low, high, falls = self._all
        return _Rows(store, low, high, not falls)


class _Keys(KeysView):
    def __reversed__(self):
        return reversed(self._mapping)


class _Items(ItemsView):
    def __iter__(self):
        return self._mapping[:]

    def __reversed__(self):
        return reversed(self._mapping[:])


class _Values(ValuesView):
    def __iter__(self):
        return (value for _, value in self._mapping[:])

    def __reversed__(self):
        return (value for _, value in reversed(self._mapping[:]))


class Store(MutableMapping):
    """An open store: a mapping, whose keys come in their order. Close it, or use it in a `with`.

    A slice store[low:high] gives the pairs of the keys from low on and below high, one by one; either bound may be missing. With
    `reversed` around it they come from the last on, as store[high:low:-1] gives those of the keys from high on and above low.
    An iteration asks for some rows at once: what is put or deleted meanwhile may show in it or not.
    """

    def __init__(self, path, *, read_only=False, resident=False, log=False, sync=False):
        if read_only and (resident or log or sync):
            raise Options("a resident store is not read alone")
        flags = _SYNCED if sync else _LOGGED if log else _RESIDENT if resident else _READ_ONLY if read_only else 0
        self._puts = _files if sync else _library  # (other threads run while a put waits for the disk)
        self.path = os.fspath(path)
        self._lock = threading.RLock()  # (a signal's handler may call while a call of its own thread is made)
        self._file = _File(descriptor=-1)
        self._at = ctypes.byref(self._file)
        _check(_files.cola_file_open_as(self._file, _path(path), flags), path)
        info = _StoreInfo()
        _check(_library.cola_info(self._at, info))
        self.limits = {"keys": info.keys, "block": info.block, "version": info.version}
        _open_stores[id(self)] = self

    def __repr__(self):
        limits = ", ".join(f"{name}={number}" for name, number in self.limits.items())
        state = ", closed" if not self._file.bytes else ", read_only=True" if self.read_only else ""
        return f"<cola.Store {self.path!r}, {limits}{state}>"

    @property
    def read_only(self):
        """Whether the store is open to be read alone."""
        return bool(self._file.store.is_read_only)

    def __enter__(self):
        return self

    def __exit__(self, kind, *what):
        if kind is None:
            self.close()
        else:
            self.discard()

    def __del__(self):
        file = getattr(self, "_file", None)
        if file is not None and file.bytes:
            _files.cola_file_close(file)

    def close(self):
        """Closes the store and its file; then all is on the disk. A store that is closed stays so."""
        with self._lock:
            if self._file.bytes:
                _check(_files.cola_file_close(self._file))

    def discard(self):
        """Closes a resident store without a checkpoint: what changed since the last one is gone, but stays in the log of a store that
        has one. Any other is closed. So does a `with` that is left by an exception."""
        with self._lock:
            if self._file.bytes:
                _check(_files.cola_file_discard(self._file))

    def sync(self):
        """Waits until what was answered by a store with a log is on the disk; other threads run meanwhile. A store without one: Options."""
        with self._lock:
            _check(_files.cola_file_sync(self._file))

    def checkpoint(self, copy=None):
        """Makes the file of a resident store have what the store has, and waits until it is on the disk. Or, of any store, makes a
        copy of the store as it is now, a closed store, in a file that is replaced as a whole and is on the disk then. It writes as
        many bytes as the store's file has; other threads run meanwhile, and wait where they call with this store."""
        name = None if copy is None else _path(copy)
        if name is None and not self._file.is_resident:
            raise TypeError("a store that is not resident is copied: name the file of the copy")
        with self._lock:
            _check(_files.cola_file_checkpoint(self._file, name), copy)

    def check(self):
        """Tests the store as it is now: it is closed, in memory, tested, and opened again. A Verdict."""
        verdict = _Verdict()
        with self._lock:
            return _verdict(_files.cola_file_check_open(self._file, verdict), verdict, None)

    def __getitem__(self, key):
        if isinstance(key, slice):
            return self._range(key)
        key = _bytes(key)
        value = ctypes.create_string_buffer(VALUE_MAX)
        length = ctypes.c_size_t()
        with self._lock:
            answer = _library.cola_get(self._at, key, len(key), value, length)
        if answer == _NONE:
            raise KeyError(key)
        _check(answer)
        return value.raw[:length.value]

    def __setitem__(self, key, value):
        key, value = _bytes(key), _bytes(value)
        with self._lock:
            _check(self._puts.cola_put(self._at, key, len(key), value, len(value), None))

    def __delitem__(self, key):
        key = _bytes(key)
        with self._lock:
            answer = self._puts.cola_delete(self._at, key, len(key))
        if answer == _NONE:
            raise KeyError(key)
        _check(answer)

    def __len__(self):
        count = ctypes.c_uint64()
        with self._lock:
            _check(_library.cola_count(self._at, count))
        return count.value

    def __iter__(self):
        return (key for key, _ in self[:])

    def __reversed__(self):
        return (key for key, _ in reversed(self[:]))

    def update(self, pairs=(), /, **words):
        """Puts the pairs of a mapping, or of any iterable, in their order, some at once, up to the first that is refused: what that
        one raises has in `done` how many were put before it. Where the iterable itself raises, what it gave last may not be put.
        (Words, which are str, are no keys.)"""
        pairs, done = iter(_pairs(pairs, words)), 0
        while batch := list(islice(pairs, _MANY)):
            rows, put = _packed(batch), ctypes.c_size_t()
            with self._lock:
                answer = self._puts.cola_put_many(self._at, _at(rows), len(batch), None, put)
            done += put.value
            try:
                _check(answer)
            except Error as error:
                error.done = done
                raise

    def get_many(self, keys, default=None):
        """The values of the keys, as a list in their order, with the default where a key is absent."""
        keys, values = iter(keys), []
        while batch := list(islice(keys, _MANY)):
            rows, there = _packed_keys(batch), bytearray(len(batch))
            with self._lock:
                _check(_library.cola_get_many(self._at, _at(rows), len(batch), _at(there), ctypes.c_size_t()))
            values += _values(rows, len(batch))
            if 0 in there:
                first = len(values) - len(batch)
                for at, is_there in enumerate(there):
                    if not is_there:
                        values[first + at] = default
        return values

    def keys(self):
        return _Keys(self)

    def items(self):
        return _Items(self)

    def values(self):
        return _Values(self)

    def put_if(self, key, seen, value):
        """Puts the value where the key has the stamp that was seen, 0 where it is absent, and says whether it did."""
        key, value, seen = _bytes(key), _bytes(value), operator.index(seen)
        if not 0 <= seen < 1 << 64:
            raise ValueError("a stamp is a number from 0 to 2**64 - 1")
        stamp = ctypes.c_uint64()
        with self._lock:
            answer = self._puts.cola_put_if(self._at, key, len(key), seen, value, len(value), stamp)
        if answer != _OTHER:
            _check(answer)
        return answer == _OK

    def stamp(self, key):
        """The number of the put that gave the key its value; 0 where it is absent, and in a file of version 1."""
        key = _bytes(key)
        stamp = ctypes.c_uint64()
        with self._lock:
            answer = _library.cola_stamp(self._at, key, len(key), stamp)
        if answer != _NONE:
            _check(answer)
        return stamp.value

    def info(self):
        """What the store is, and how full: an Info."""
        info, level, levels = _StoreInfo(), _LevelInfo(), []
        with self._lock:
            _check(_library.cola_info(self._at, info))
            for number in range(info.levels):
                _check(_library.cola_level(self._at, number, level))
                levels.append(Level(level.visible, level.shadow, level.room))
        return Info(info.keys, info.count, info.bytes, info.write_bound, info.get_bound, info.version, info.block, tuple(levels))

    def prefix(self, prefix):
        """The pairs of the keys that begin with these bytes, one by one."""
        prefix = _bytes(prefix)
        cursor = _Cursor()
        if not self._file.bytes:
            _check(Closed.answer)
        if len(prefix) > KEY_MAX:
            return _Rows(self, _FIRST, _FIRST)  # (no key is as long)
        _check(_library.cola_seek_prefix(cursor, prefix, len(prefix)))
        return _Rows(self, _Place(prefix, False), _Place(bytes(cursor.until[:cursor.until_len]), False) if cursor.bounded else _LAST)

    def last(self, count):
        """The last `count` pairs, from the last one on, as a list."""
        count = operator.index(count)
        if not self._file.bytes:
            _check(Closed.answer)
        return list(islice(self._rows(_FIRST, _LAST, True, min(count, _ROWS)), count)) if count else []

    def _range(self, bounds):
        if bounds.step not in (None, 1, -1):
            raise ValueError("a range of keys has the step 1 or -1")
        if not self._file.bytes:
            _check(Closed.answer)
        falls = bounds.step == -1
        start, stop = (None if key is None else _Place.of(_bytes(key), falls) for key in (bounds.start, bounds.stop))
        low, high = (stop, start) if falls else (start, stop)
        return _Rows(self, low or _FIRST, high or _LAST, falls)

    def _rows(self, low, high, falls, most=_ROWS):
        """The pairs between two places, of which so many are asked for at once."""
        rows, given, cursor = (_Row * most)(), ctypes.c_size_t(), _Cursor()
        call, begin = (_library.cola_prev, high) if falls else (_library.cola_next, low)
        cursor.from_len, cursor.behind = len(begin.key), begin.is_behind
        ctypes.memmove(cursor.from_, begin.key, len(begin.key))
        if not high.is_behind:  # (the cursor's own end is one before a key, and saves the rows behind it)
            cursor.bounded, cursor.until_len = True, len(high.key)
            ctypes.memmove(cursor.until, high.key, len(high.key))
        has_end = low != _FIRST if falls else high.is_behind and high != _LAST  # (where the keys have to be looked at)
        while low < high:
            with self._lock:
                answer = call(self._at, cursor, rows, most, given)
            if answer == _NONE:
                return
            _check(answer)
            for key_len, value_len, key, value in _row.iter_unpack(ctypes.string_at(rows, given.value * _row.size)):
                key, value = key[:key_len], value[:value_len]
                if has_end and ((key, False) < low if falls else (key, False) >= high):
                    return
                yield key, value
