"""What a seat of a tree does with pages: it is a mapping that is walked in both directions, and has the neighbours of a key."""

import abc
from collections.abc import ItemsView, Iterator, KeysView, Mapping, MutableMapping, ValuesView
from typing import Optional, TypeVar

import bwtree_keys

__all__ = ["Walks"]

_MAX_LENGTH = 64
_GREATEST = b"\xff" * _MAX_LENGTH

_Pair = tuple[bytes, bytes]
_Self = TypeVar("_Self", bound="Walks")


class Walks(MutableMapping[bytes, bytes]):
    """A mapping by pages. A walk reads page by page, in the order of the keys. It returns each key that is present throughout, and none that never is.

    Each function with a key raises TypeError for what has no bytes and ValueError for more than 64. Each, and each step of a walk, raises bwtree.Error where
    the seat was given back, its tree is closed, or another thread is inside the seat."""

    @abc.abstractmethod
    def _page(self, at: bytes, reverse: bool) -> tuple[list[_Pair], Optional[bytes]]:
        """The pairs of a leaf from a key on, or up to it, keys ascending, and the key at which the next page goes on, if there is more."""

    @abc.abstractmethod
    def _key(self, key: bytes) -> bytes:
        """A key as bytes that nobody changes. Raises TypeError for what has no bytes, ValueError for more than 64."""

    def _pages(self, at: Optional[bytes], reverse: bool) -> Iterator[_Pair]:
        """The pairs from a key on, or backward from it down."""
        while at is not None:
            found, at = self._page(at, reverse)
            yield from reversed(found) if reverse else found

    def pairs(self, start: bytes = b"", stop: Optional[bytes] = None, reverse: bool = False) -> Iterator[_Pair]:
        """The pairs from a key on, below another one, keys ascending; with `reverse` from the greatest of these keys down."""
        start, stop = self._key(start), None if stop is None else self._key(stop)
        if not reverse:
            return self._forward(start, stop)
        return self._backward(start, _GREATEST if stop is None else bwtree_keys.before(stop))

    def _forward(self, start: bytes, stop: Optional[bytes]) -> Iterator[_Pair]:
        for key, value in self._pages(start, False):
            if stop is not None and key >= stop:
                return
            yield key, value

    def _backward(self, start: bytes, at: Optional[bytes]) -> Iterator[_Pair]:
        for key, value in self._pages(at, True):
            if key < start:
                return
            yield key, value

    def prefix(self, prefix: bytes, reverse: bool = False) -> Iterator[_Pair]:
        """The pairs whose keys begin with these bytes."""
        prefix = self._key(prefix)
        return self.pairs(prefix, bwtree_keys.behind(prefix), reverse)

    # Each of these is atomic if the first page that is read has a pair; otherwise it is a walk's answer.
    def first(self) -> Optional[_Pair]:
        """The pair of the least key."""
        return next(self._pages(b"", False), None)

    def last(self) -> Optional[_Pair]:
        """The pair of the greatest key."""
        return next(self._pages(_GREATEST, True), None)

    def floor(self, key: bytes) -> Optional[_Pair]:
        """The pair of the greatest key that isn't above this one."""
        return next(self._pages(self._key(key), True), None)

    def lower(self, key: bytes) -> Optional[_Pair]:
        """The pair of the greatest key below this one."""
        return next(self._pages(bwtree_keys.before(self._key(key)), True), None)

    def ceiling(self, key: bytes) -> Optional[_Pair]:
        """The pair of the least key that isn't below this one."""
        return next(self._pages(self._key(key), False), None)

    def higher(self, key: bytes) -> Optional[_Pair]:
        """The pair of the least key above this one."""
        return next(self._pages(bwtree_keys.after(self._key(key)), False), None)

    def __iter__(self) -> Iterator[bytes]:
        return (key for key, _ in self.pairs())

    def __reversed__(self) -> Iterator[bytes]:
        return (key for key, _ in self.pairs(reverse=True))

    def __len__(self) -> int:
        """How many keys a walk over all of them meets."""
        return sum(1 for _ in self.pairs())

    def __bool__(self) -> bool:
        """Whether a walk meets a key."""
        return self.first() is not None

    # As of a dict: the pairs of both, those on the right where a key is in both.
    def __or__(self, other: Mapping[bytes, bytes]) -> dict[bytes, bytes]:
        return {**dict(self.pairs()), **other} if isinstance(other, Mapping) else NotImplemented

    def __ror__(self, other: Mapping[bytes, bytes]) -> dict[bytes, bytes]:
        return {**other, **dict(self.pairs())} if isinstance(other, Mapping) else NotImplemented

    def __ior__(self: _Self, other: Mapping[bytes, bytes]) -> _Self:
        self.update(other)
        return self

    def keys(self) -> "Keys":
        """The keys as a walk shows them, forward or, by reversed, backward."""
        return Keys(self)

    def items(self) -> "Items":
        """The pairs as a walk shows them, forward or, by reversed, backward."""
        return Items(self)

    def values(self) -> "Values":
        """The values as a walk shows them, forward or, by reversed, backward."""
        return Values(self)


class Keys(KeysView[bytes]):
    """Keys as a walk shows them."""

    def __init__(self, walked: Walks):
        super().__init__(walked)
        self._walked = walked

    def __reversed__(self) -> Iterator[bytes]:
        return reversed(self._walked)


class Items(ItemsView[bytes, bytes]):
    """Pairs as a walk shows them: no key is looked up again."""

    def __init__(self, walked: Walks):
        super().__init__(walked)
        self._walked = walked

    def __iter__(self) -> Iterator[_Pair]:
        return self._walked.pairs()

    def __reversed__(self) -> Iterator[_Pair]:
        return self._walked.pairs(reverse=True)


class Values(ValuesView[bytes]):
    """Values as a walk shows them."""

    def __init__(self, walked: Walks):
        super().__init__(walked)
        self._walked = walked

    def __iter__(self) -> Iterator[bytes]:
        return (value for _, value in self._walked.pairs())

    def __reversed__(self) -> Iterator[bytes]:
        return (value for _, value in self._walked.pairs(reverse=True))
