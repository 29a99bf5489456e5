"""An ordered map from byte strings to byte strings, in memory, for many threads, without locks: libbwtree by ctypes.

    with bwtree.Tree(seats=4, keys=10_000) as tree, tree.seat() as seat:
        seat[b"Bern"] = b"Switzerland"

Threads share a tree, and each leases a seat of it: a mapping for one thread at a time. Keys and values have at most 64 bytes.

The tree is linearizable (Herlihy and Wing), proved over all states of the tree: all calls form one sequential history of an ordered map, in which a
call that has returned precedes a call that begins afterwards, whatever threads and seats make the two. In a program's own proof, order between two
seats comes from meeting or a note, because the language has no clock.

Where the library is looked for: bwtree_library.

Exceptions: a call that raises ValueError, TypeError, Full or Error changed no key, and leaves the seat as it was. Every call of a seat raises TypeError for
what has no bytes, ValueError for a key or value of more than 64 bytes, and Error with the status CLOSED (16), where the seat was given back or its tree is
closed, or BUSY (18), where another thread is inside the seat. A write also raises Full. An exception of a signal's handler, as of Ctrl-C, is raised once the
operation is done: its effect stays.
"""

import contextlib
import ctypes
import functools
import io
import queue
import threading
import time
from collections.abc import Callable, Iterable, Iterator
from enum import Enum
from typing import TYPE_CHECKING, Any, NamedTuple, NoReturn, Optional

import bwtree_library as _lib
import bwtree_walks
from bwtree_library import MAX_LENGTH, __version__

__all__ = ["Error", "Full", "FullHint", "Room", "Seat", "Compared", "Tree", "MAX_LENGTH", "__version__"]

_STEPS = 1 << 16
# how many more keys a tree has where an operation is OK
_MORE = {"insert": 1, "upsert": 1, "add": 1, "delete": -1, "delete_if": -1}
_NOTHING = object()
_NO_PAIRS = (_lib.Pair * 0)()


def _resumed(handle: "ctypes._Pointer[_lib.Tree]", seat: int, old: _lib.Bytes, page: _lib.Page) -> int:
    """What a seat's unfinished operation came to, once it is done."""
    while True:
        status: int = _lib.library.bwtree_raw_resume(handle, seat, _STEPS, ctypes.byref(old), ctypes.byref(page))
        if status != _lib.SPENT:
            return status


class Error(Exception):
    """Nothing was done. `status` is the number that bwtree.h gives to the reason."""

    def __init__(self, status: int):
        super().__init__(_lib.TEXTS.get(status, f"status {status}"))
        self.status = status


class Full(Error):
    """Nothing was free for a change, and no key was changed."""


class FullHint(Enum):
    """What may become of a write that raised Full. It is a hint, made from what is free a moment later: nothing is proved of it, and other calls change
    it. Free records are counted over all widths. In a large tree for so many keys, whose records have three widths, a write may need one of 512 words: so there
    the hint is PASSED only if one of these must be free, and never FOR_NOW."""

    PASSED = "a page is free now, and a record with room for any change"
    FOR_NOW = "other seats hold records back: it passes once a stopped thread goes on, or an idle seat tidies"
    FOR_GOOD = "the tree itself may have all pages or records: unless keys were just deleted, a larger tree is needed"
    UNKNOWN = "pages are free, but perhaps no record of 512 words, for now or for good: if a wait is in vain, a larger tree is needed, or one for longer pairs"


def _hint(limits: _lib.Limits, room: "Room") -> FullHint:
    """Records are enough from 9 for each page and 120 for each seat on, in a large tree 3 and 240. Of three widths, fewer than wide_from records are narrower
    than 512 words: if more are free, one of these has 512."""
    page, seat = (3, 240) if limits.large else (9, 120)
    narrower = limits.wide_from if limits.large == 2 else 0
    if room.free_pages and room.free_records > narrower:
        return FullHint.PASSED
    has_enough = limits.records >= page * limits.pages + seat * limits.actors
    if not room.free_pages or not (room.free_records or has_enough):
        return FullHint.FOR_GOOD
    return FullHint.UNKNOWN if narrower else FullHint.FOR_NOW


def _pauses(patience: float) -> Iterator[None]:
    """Goes on after a pause, a longer one each time, until so many seconds are over."""
    end, pause = time.monotonic() + patience, 50e-6
    while (left := end - time.monotonic()) > 0:
        time.sleep(min(pause, left))
        pause = min(2 * pause, 5e-3)
        yield


class Compared(NamedTuple):
    """What a compare-and-set or a deletion by value found: whether the value was the expected one, and is the new one or none now; else the value that the key
    has, if it has one."""

    done: bool
    found: Optional[bytes] = None


class Room(NamedTuple):
    """How many pages and records are free."""

    free_pages: int
    free_records: int


def _must(status: int) -> int:
    """A status of an operation that took place; else raises what says why there is none."""
    if status == _lib.FULL:
        raise Full(status)
    if status == _lib.TOO_LONG:
        raise ValueError(_lib.TEXTS[status])
    if status > _lib.SPENT:
        raise Error(status)
    return status


class Tree:
    """A tree with so many seats, for so many different keys, all counted that it ever has; or with so many pages and records. It has 1 to 16 seats, a large
    one 1 to 63. A large tree takes up to 27 million keys, in some 500 bytes each; where key_bytes and value_bytes are given, as many as keys and values mostly
    have at most, in fewer: of 16 and 8 in some 141. With several seats it takes 26 or 7 MB more if its keys are few. Longer pairs are taken, too, as far as there
    is room. It has the given pairs, whose keys ascend.

    Raises Error with the status BAD_LIMITS (22), BAD_ORDER (26) of pairs whose keys don't ascend, or NO_MEMORY (23); Full where the pairs don't all fit;
    ValueError for a key or value of more than 64 bytes, and for pages without records; TypeError for what has no bytes. No tree is open then."""

    def __init__(self, seats: int = 4, keys: int = 1000, *, pages: Optional[int] = None, records: Optional[int] = None, large: bool = False,
                 key_bytes: Optional[int] = None, value_bytes: Optional[int] = None, pairs: Iterable[tuple[bytes, bytes]] = ()):
        if not all(0 <= limit < 1 << 64 for limit in (seats, keys, pages or 0, records or 0, key_bytes or 0, value_bytes or 0)):
            raise Error(_lib.BAD_LIMITS)
        if (pages is None) != (records is None):
            raise ValueError("pages and records are given both, or neither")
        if (key_bytes is None) != (value_bytes is None) or (key_bytes is not None and not (large and pages is None)):
            raise ValueError("key_bytes and value_bytes are given both, of a large tree for so many keys, or neither")
        limits = _lib.Limits(seats, pages or 0, records or 0, 1, large)
        if key_bytes is not None:
            _must(_lib.library.bwtree_raw_limits_for_pairs(seats, keys, key_bytes, value_bytes, ctypes.byref(limits)))
        elif pages is None:
            propose = _lib.library.bwtree_raw_limits_for_many_keys if large else _lib.library.bwtree_raw_limits_for_keys
            _must(propose(seats, keys, ctypes.byref(limits)))
        self._limits = limits
        self._handle = _lib.Tree()
        self._free: "queue.SimpleQueue[int]" = queue.SimpleQueue()
        self._seats = 0
        self._local = threading.local()
        # the closed tree's pairs until they are returned; there is less room than pairs while there are none
        self._pairs: "ctypes.Array[_lib.Pair]" = _NO_PAIRS
        self._count = ctypes.c_uint64(1)
        given = [_lib.Pair(_lib.Bytes.of(key), _lib.Bytes.of(value)) for key, value in pairs]
        status = _lib.library.bwtree_raw_open_from(ctypes.byref(limits), (_lib.Pair * max(len(given), 1))(*given), len(given), ctypes.byref(self._handle))
        _must(_lib.FULL if status == _lib.SPENT else status)
        self._seats = seats
        # how many more keys each seat has set than deleted
        self._counts = [0] * seats
        self._counts[0] = len(given)
        for number in reversed(range(seats)):
            self._free.put(number)

    def seat(self, timeout: Optional[float] = None) -> "Seat":
        """Leases a seat, and waits for one where none is free. Raises queue.Empty after so many seconds. The calls on a seat of a closed tree raise Error."""
        return Seat(self, timeout)

    def local(self) -> "Seat":
        """The calling thread's own seat: leased at the thread's first call, where it waits for one, and given back when the thread ends or closes the tree."""
        seat: Optional[Seat] = getattr(self._local, "seat", None)
        if seat is None or not seat._is_lent():
            seat = self._local.seat = self.seat()
        return seat

    def count(self) -> int:
        """How many keys the tree has, without a walk: exact when no call is under way; otherwise it may lack some calls that are. A call that a signal's
        handler interrupts, as Ctrl-C does, may never be counted."""
        return max(0, sum(self._counts))

    @contextlib.contextmanager
    def _all_seats(self) -> Iterator["ctypes._Pointer[_lib.Tree]"]:
        """The handle, while all seats are taken. Raises Error where one is lent."""
        seats: list[Seat] = []
        # the calling thread's own seat is given back
        self._local.__dict__.pop("seat", None)
        try:
            while len(seats) < self._seats:
                seats.append(Seat(self, 0))
        except queue.Empty:
            _give_back(seats)
            raise Error(_lib.BUSY) from None
        try:
            yield ctypes.pointer(self._handle)
        finally:
            _give_back(seats)

    def close(self) -> None:
        """Closes the tree and frees it. Raises Error with the status BUSY (18), where a seat is lent, and CLOSED (16), where the tree is closed: it is as it
        was, but that the calling thread's own seat was given back."""
        with self._all_seats() as handle:
            _must(_lib.library.bwtree_raw_close(handle))

    def close_with_pairs(self) -> list[tuple[bytes, bytes]]:
        """Closes the tree and frees it: its pairs, keys ascending. Raises Error as close does, or with the status NO_MEMORY (23): the tree is as it was.
        Where it is interrupted, as by Ctrl-C or want of memory, the pairs wait for the next such call."""
        with self._all_seats() as handle:
            while self._count.value > len(self._pairs):
                room = self._count.value
                self._pairs = (_lib.Pair * room)()
                self._count.value = room + 1
                status = _lib.library.bwtree_raw_close_pairs(handle, self._pairs, room, ctypes.byref(self._count))
                if status != _lib.NO_ROOM:
                    _must(status)
            pairs = [(pair.key.taken(), pair.value.taken()) for pair in self._pairs[: self._count.value]]
        self._pairs, self._count.value = _NO_PAIRS, 1
        return pairs

    def __reduce__(self) -> NoReturn:
        raise TypeError("a tree can't be copied or pickled")

    def __repr__(self) -> str:
        return f"<bwtree.Tree: {self.count()} keys, {self._free.qsize()} of {self._seats} seats free>"

    def __enter__(self) -> "Tree":
        return self

    def __exit__(self, kind: Optional[type[BaseException]], *_: object) -> None:
        """Closes the tree. An exception that ends the block is raised in any case; where a seat is lent then, the tree stays open."""
        try:
            self.close()
        except Error as error:
            if kind is None and error.status != _lib.CLOSED:
                raise

    def __del__(self) -> None:
        if hasattr(self, "_handle"):
            _lib.library.bwtree_raw_close(ctypes.byref(self._handle))


class _GivesBack:
    """What ends a seat's `with`: of a seat the call of C that gives it back, in which no signal's handler runs; of the class a function of a seat."""

    def __get__(self, seat: "Optional[Seat]", of: type) -> Callable[..., Any]:
        ends: Callable[..., Any] = self.__call__
        if seat is not None:
            ends = seat._lease.__exit__
        return ends

    def __call__(self, seat: "Seat", *_: object) -> None:
        seat.close()


class Seat(bwtree_walks.Walks):
    """A seat of a tree, for one thread at a time. It goes back to its tree by `close`, at the end of a `with`, or when nothing refers to it."""

    #: how many seconds a write waits while the tree is full, before it raises Full
    patience: float = 0.0

    def __init__(self, tree: Tree, timeout: Optional[float]):
        # An exception that a signal's handler raises, as of Ctrl-C, loses no number: taking it from the tree's queue into `_numbers` and giving it back are one
        # call of C each, which no handler interrupts. An IOBase calls its `close` from C, where a `with` ends, and where nothing refers to it any more.
        self._tree = tree
        self._numbers: list[Any] = [_NOTHING]
        self._lease = io.IOBase()
        setattr(self._lease, "close", functools.partial(next, map(tree._free.put, iter(self._numbers.pop, _NOTHING)), None))
        take = functools.partial(tree._free.get, timeout=timeout)
        next(map(self._numbers.append, iter(take, _NOTHING)))
        self._number: int = self._numbers[-1]
        # (an interrupt in the course of another one may have left an operation)
        _resumed(ctypes.pointer(tree._handle), self._number, _lib.Bytes(), _lib.Page())

    def _is_lent(self) -> bool:
        return len(self._numbers) > 1

    def _handle(self) -> "ctypes._Pointer[_lib.Tree]":
        if not self._is_lent():
            raise Error(_lib.CLOSED)
        return ctypes.pointer(self._tree._handle)

    def _run(self, name: str, *texts: bytes, numbers: tuple[int, ...] = ()) -> tuple[int, bytes]:
        """The status of an operation, and the value that goes with it, if one does."""
        words: list[object] = []
        for text in map(_lib.plain, texts):
            words += [text, len(text)]
        old = _lib.Bytes()
        more = () if name == "tidy" else (ctypes.byref(old),)
        status = self._written(name, [*words, *numbers, *more], old)
        if status == _lib.OK and name in _MORE:
            self._tree._counts[self._number] += _MORE[name]
        return status, old.taken()

    def _written(self, name: str, words: list[object], old: _lib.Bytes) -> int:
        """The status of an operation, which is made again while the tree is full, until the seat's patience is at its end."""
        try:
            return self._called(name, words, old)
        except Full:
            for _ in _pauses(self.patience):
                with contextlib.suppress(Full):
                    return self._called(name, words, old)
            raise

    def _called(self, name: str, words: list[object], old: _lib.Bytes, page: Optional[_lib.Page] = None) -> int:
        """The status of an operation. It runs to its end, also where that is interrupted: none is left in the seat."""
        handle = self._handle()
        try:
            status: int = getattr(_lib.library, "bwtree_raw_" + name)(handle, self._number, *words)
            if status == _lib.SPENT:
                status = _resumed(handle, self._number, old, _lib.Page() if page is None else page)
        except BaseException:
            _resumed(handle, self._number, _lib.Bytes(), _lib.Page())
            raise
        return _must(status)

    def _key(self, key: bytes) -> bytes:
        key = _lib.plain(key)
        if len(key) > MAX_LENGTH:
            raise ValueError(_lib.TEXTS[_lib.TOO_LONG])
        return key

    def _page(self, at: bytes, reverse: bool) -> tuple[list[tuple[bytes, bytes]], Optional[bytes]]:
        page = _lib.Page()
        self._called("back" if reverse else "page", [at, len(at), ctypes.byref(page)], _lib.Bytes(), page)
        pairs = [(pair.key.taken(), pair.value.taken()) for pair in page.pairs[: page.count]]
        return pairs, page.next.taken() if page.more else None

    def __getitem__(self, key: bytes) -> bytes:
        """The value of a key. Raises KeyError where it has none; ValueError."""
        status, value = self._run("get", key)
        if status == _lib.ABSENT:
            raise KeyError(key)
        return value

    def __setitem__(self, key: bytes, value: bytes) -> None:
        """Gives a key a value. Raises Full, ValueError."""
        self._run("upsert", key, value)

    def __delitem__(self, key: bytes) -> None:
        """Makes a key absent. Raises KeyError where it has no value; Full, ValueError."""
        if self._run("delete", key)[0] == _lib.ABSENT:
            raise KeyError(key)

    def __contains__(self, key: object) -> bool:
        """Whether a key has a value; what has no bytes is no key. Raises ValueError."""
        return isinstance(key, (bytes, bytearray, memoryview)) and self._run("get", _lib.plain(key))[0] == _lib.OK

    # Each of these is one operation on a key, whatever other threads do: the mapping's own are two.
    def pop(self, key: bytes, default: Any = _NOTHING) -> Any:
        """Makes a key absent: the value that it had, else the default. Raises KeyError where there is neither; Full, ValueError."""
        old = self.delete(key)
        if old is None and default is _NOTHING:
            raise KeyError(key)
        return default if old is None else old

    def popitem(self) -> tuple[bytes, bytes]:
        """Makes the least key that a walk meets absent: it and its value. Raises KeyError where it meets none; Full."""
        for key in self:
            old = self.delete(key)
            if old is not None:
                return key, old
        raise KeyError("the tree is empty")

    def clear(self) -> None:
        """Makes each key absent that a walk meets. Raises Full: those before are absent."""
        for key in self:
            self.delete(key)

    def setdefault(self, key: bytes, default: Any = None) -> Any:
        """The value of a key; one that has none gets the default, unless that is None. Raises Full, ValueError."""
        old = self.get(key) if default is None else self.insert(key, default)
        return _lib.plain(default) if old is None else old

    def insert(self, key: bytes, value: bytes) -> Optional[bytes]:
        """Gives a key a value where it has none: the value that it has, if it has one. Raises Full, ValueError."""
        status, old = self._run("insert", key, value)
        return old if status == _lib.EXISTS else None

    def upsert(self, key: bytes, value: bytes) -> Optional[bytes]:
        """Gives a key a value: the one that it had before, if it had one. Raises Full, ValueError."""
        status, old = self._run("upsert", key, value)
        return old if status == _lib.REPLACED else None

    def delete(self, key: bytes) -> Optional[bytes]:
        """Makes a key absent: the value that it had, if it had one. Raises Full, ValueError."""
        status, old = self._run("delete", key)
        return old if status == _lib.OK else None

    def delete_if(self, key: bytes, expected: bytes) -> Compared:
        """Makes a key absent where it has the expected value. Raises Full, ValueError."""
        status, old = self._run("delete_if", key, expected)
        return Compared(status == _lib.OK, old if status == _lib.DIFFERS else None)

    def replace(self, key: bytes, value: bytes) -> Optional[bytes]:
        """Gives a key a value where it has one: the value that it had. It makes several calls, and takes effect atomically in the last one. Raises Full,
        ValueError."""
        value, old = self._key(value), self.get(key)
        while old is not None:
            compared = self.compare_and_set(key, old, value)
            if compared.done:
                break
            old = compared.found
        return old

    def add(self, key: bytes, number: int) -> Optional[int]:
        """Adds a number, modulo 2^64, to the one that a key's value of eight bytes is, the highest byte first: the number before. A key without a value gets
        the number. Raises Full; ValueError, also where the value has not eight bytes: the key keeps it."""
        status, old = self._run("add", key, numbers=(number % (1 << 64),))
        if status == _lib.DIFFERS:
            raise ValueError("the key's value has not eight bytes")
        return int.from_bytes(old, "big") if status == _lib.REPLACED else None

    def compare_and_set(self, key: bytes, expected: bytes, value: bytes) -> Compared:
        """Gives a key the value where it has the expected one. Raises Full, ValueError."""
        status, old = self._run("swap", key, expected, value)
        return Compared(status == _lib.OK, old if status == _lib.DIFFERS else None)

    def tidy(self, key: bytes) -> None:
        """Does what upkeep is due at the leaf of a key; no value changes. Raises Full, ValueError."""
        self._run("tidy", key)

    def room(self) -> Room:
        """How many pages and records are free. Raises Error."""
        room = _lib.Room()
        _must(_lib.library.bwtree_raw_room(self._handle(), self._number, ctypes.byref(room)))
        return Room(room.free_pages, room.free_records)

    def full_hint(self) -> FullHint:
        """What may become of a write that raised Full. Raises Error."""
        return _hint(self._tree._limits, self.room())

    def close(self) -> None:
        """Gives the seat back to its tree; a second time it does nothing."""
        self._lease.close()

    def __reduce__(self) -> NoReturn:
        raise TypeError("a seat can't be copied or pickled")

    def __repr__(self) -> str:
        return f"<bwtree.Seat {self._number} of {self._tree!r}>" if self._is_lent() else "<bwtree.Seat, given back>"

    def __enter__(self) -> "Seat":
        return self

    if TYPE_CHECKING:

        def __exit__(self, *_: object) -> None:
            """Gives the seat back, as close does."""
    else:
        __exit__ = _GivesBack()


def _give_back(seats: list[Seat]) -> None:
    for seat in seats:
        seat.close()
