"""libbwtree by ctypes: the declarations of bwtree.h, the statuses of its calls, and where the library is found. Programs import bwtree, which uses this.

The library is looked for where BWTREE_LIB says, a file or a folder, then beside this file, where a wheel has it, then where `./bwtree build` puts it, then
where the system's loader looks. One whose version doesn't go with this module's is refused."""

import ctypes
import os

__version__ = "0.2.0"

MAX_LENGTH = 64

OK, ABSENT, EXISTS, REPLACED, DIFFERS, FULL, SPENT, NO_ROOM = range(8)
CLOSED, NO_SEAT, BUSY, UNFINISHED, IDLE, TOO_LONG, BAD_LIMITS, NO_MEMORY, OPEN = range(16, 25)
BAD_ORDER = 26
TEXTS = {
    FULL: "the tree is full",
    CLOSED: "the tree is closed",
    NO_SEAT: "the tree has no such seat",
    BUSY: "another call is inside the seat",
    UNFINISHED: "the seat has an unfinished operation",
    IDLE: "the seat has no unfinished operation",
    TOO_LONG: "a key or a value is longer than 64 bytes",
    BAD_LIMITS: "a limit is outside its range",
    NO_MEMORY: "no memory",
    OPEN: "the tree is open already",
    BAD_ORDER: "the keys don't ascend",
}


def plain(text: bytes) -> bytes:
    """A key or a value as bytes that nobody changes; raises TypeError for what has no bytes."""
    return text if type(text) is bytes else bytes(memoryview(text))


class Tree(ctypes.Structure):
    _fields_ = [("held", ctypes.c_uint64), ("at", ctypes.c_void_p)]


class Limits(ctypes.Structure):
    _fields_ = [("actors", ctypes.c_uint64), ("pages", ctypes.c_uint64), ("records", ctypes.c_uint64), ("epoch", ctypes.c_uint64),
                ("large", ctypes.c_uint64), ("narrow_records", ctypes.c_uint64), ("wide_from", ctypes.c_uint64), ("narrow_words", ctypes.c_uint64),
                ("page_words", ctypes.c_uint64)]


class Room(ctypes.Structure):
    _fields_ = [("free_pages", ctypes.c_uint64), ("free_records", ctypes.c_uint64)]


class Bytes(ctypes.Structure):
    _fields_ = [("length", ctypes.c_uint64), ("bytes", ctypes.c_uint8 * MAX_LENGTH)]

    @classmethod
    def of(cls, text: bytes) -> "Bytes":
        text = plain(text)
        if len(text) > MAX_LENGTH:
            raise ValueError(TEXTS[TOO_LONG])
        return cls(len(text), (ctypes.c_uint8 * MAX_LENGTH)(*text))

    def taken(self) -> bytes:
        return bytes(self.bytes[: self.length])


class Pair(ctypes.Structure):
    _fields_ = [("key", Bytes), ("value", Bytes)]


class Page(ctypes.Structure):
    _fields_ = [("count", ctypes.c_uint64), ("more", ctypes.c_uint64), ("next", Bytes), ("pairs", Pair * 24)]


assert [ctypes.sizeof(it) for it in (Tree, Limits, Room, Bytes, Pair, Page)] == [16, 72, 16, 72, 144, 3544]


def find() -> tuple[str, ctypes.CDLL]:
    """The library's file, and the library. Raises ImportError where there is none."""
    here = os.path.dirname(os.path.abspath(__file__))
    beside, built = os.path.join(here, "libbwtree.so.0"), os.path.join(here, "..", "c", "out", "libbwtree.so.0")
    built = beside if os.path.isfile(beside) else built
    place = os.environ.get("BWTREE_LIB", built if os.path.isfile(built) else "libbwtree.so.0")
    file = os.path.join(place, "libbwtree.so.0") if os.path.isdir(place) else place
    try:
        return file, ctypes.CDLL(file)
    except OSError as error:
        looked = f"{os.path.normpath(built)}, and then {file} where the system's loader looks"
        if "BWTREE_LIB" in os.environ:
            looked = f"{file}, which BWTREE_LIB names"
        advice = "Run ./bwtree build, or set BWTREE_LIB to libbwtree.so.0 or its folder"
        raise ImportError(f"bwtree: the library was not loaded from {looked}: {error}. {advice}") from error


def load() -> ctypes.CDLL:
    """The library, with the declarations of bwtree.h. Raises ImportError where there is none, or one of another version."""
    file, library = find()
    if not hasattr(library, "bwtree_goes_with"):
        raise ImportError(f"bwtree: this module is version {__version__}, and {file} is older than 0.2.0, the first library that has a version")
    library.bwtree_version.restype = ctypes.c_char_p
    if not library.bwtree_goes_with(__version__.encode()):
        raise ImportError(f"bwtree: this module is version {__version__}, and {file} is {library.bwtree_version().decode()}, with which it doesn't go")
    tree, seat, old, page = ctypes.POINTER(Tree), ctypes.c_uint32, ctypes.POINTER(Bytes), ctypes.POINTER(Page)
    text, size, count = ctypes.c_char_p, ctypes.c_size_t, ctypes.c_uint64
    for name, kinds in {
        "limits_for_keys": [count, count, ctypes.POINTER(Limits)],
        "limits_for_many_keys": [count, count, ctypes.POINTER(Limits)],
        "limits_for_pairs": [count, count, count, count, ctypes.POINTER(Limits)],
        "open": [ctypes.POINTER(Limits), tree],
        "open_from": [ctypes.POINTER(Limits), ctypes.POINTER(Pair), size, tree],
        "close": [tree],
        "close_pairs": [tree, ctypes.POINTER(Pair), size, ctypes.POINTER(count)],
        "get": [tree, seat, text, size, old],
        "insert": [tree, seat, text, size, text, size, old],
        "upsert": [tree, seat, text, size, text, size, old],
        "delete": [tree, seat, text, size, old],
        "delete_if": [tree, seat, text, size, text, size, old],
        "swap": [tree, seat, text, size, text, size, text, size, old],
        "add": [tree, seat, text, size, count, old],
        "tidy": [tree, seat, text, size],
        "page": [tree, seat, text, size, page],
        "back": [tree, seat, text, size, page],
        "resume": [tree, seat, ctypes.c_uint32, old, page],
        "room": [tree, seat, ctypes.POINTER(Room)],
    }.items():
        call = getattr(library, "bwtree_raw_" + name)
        call.argtypes, call.restype = kinds, ctypes.c_uint32
    return library


library = load()
