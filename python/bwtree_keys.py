"""Keys of numbers and texts that sort as these do, since a tree compares keys byte by byte.

    key = bwtree_keys.key(bwtree_keys.text("Bern"), bwtree_keys.u64(7))
    city, number = bwtree_keys.parts(key, "text", "u64")

A key is put together part by part, so that a tuple sorts by its first part, then by its second one. Keys that are compared have parts of the same kinds,
in the same order. The bytes are the same in C, C++, Rust and Go:

    u64         eight bytes, the highest first
    i64         the same, with the highest bit turned
    f64         the same of a float's bits, all turned if it is negative, else the highest one alone: -inf, .. -0, 0, .. inf; a NaN is above or, with its
                sign set, below all of them
    text        the bytes of a str or of bytes, each 0 as 0 255, and then 0 0
"""

import struct
from typing import Optional, Union

__all__ = ["after", "before", "behind", "f64", "i64", "key", "parts", "text", "text_start", "u64"]

_MAX_LENGTH = 64
_TOP = 1 << 63
_ALL = (1 << 64) - 1


def u64(number: int) -> bytes:
    """A number as a part. Raises OverflowError where it is negative or not below 2^64."""
    return number.to_bytes(8, "big")


def i64(number: int) -> bytes:
    """A signed number as a part. Raises OverflowError where it is not between -2^63 and 2^63 - 1."""
    return u64(int.from_bytes(number.to_bytes(8, "big", signed=True), "big") ^ _TOP)


def f64(number: float) -> bytes:
    """A float as a part."""
    bits: int = struct.unpack(">Q", struct.pack(">d", number))[0]
    return u64(bits ^ (_ALL if bits & _TOP else _TOP))


def text_start(text: Union[str, bytes]) -> bytes:
    """A text without its end: the keys whose text begins with it begin with these bytes."""
    return (text.encode() if isinstance(text, str) else bytes(text)).replace(b"\0", b"\0\xff")


def text(text: Union[str, bytes]) -> bytes:
    """A text as a part, with its end."""
    return text_start(text) + b"\0\0"


def key(*parts: bytes) -> bytes:
    """A key of these parts. Raises ValueError where they take more than 64 bytes."""
    made = b"".join(parts)
    if len(made) > _MAX_LENGTH:
        raise ValueError("a key is longer than 64 bytes")
    return made


def _read_text(key: bytes, at: int) -> tuple[bytes, int]:
    """A text, and the place behind its end."""
    end = at
    while True:
        end = key.index(b"\0", end)
        mark = key[end + 1 : end + 2]
        if mark == b"\0":
            return key[at:end].replace(b"\0\xff", b"\0"), end + 2
        if mark != b"\xff":
            raise ValueError("a 0 in a text is followed by 0 or 255")
        end += 2


def _read_u64(key: bytes, at: int) -> tuple[int, int]:
    if len(key) < at + 8:
        raise ValueError("a number has eight bytes")
    return int.from_bytes(key[at : at + 8], "big"), at + 8


def _read(key: bytes, at: int, kind: str) -> tuple[Union[int, float, str, bytes], int]:
    """A part of a key, and the place behind it."""
    if kind in ("text", "bytes"):
        found, at = _read_text(key, at)
        return (found.decode() if kind == "text" else found), at
    bits, at = _read_u64(key, at)
    if kind == "i64":
        return bits - _TOP, at
    if kind == "f64":
        number: float = struct.unpack(">d", u64(bits ^ (_TOP if bits & _TOP else _ALL)))[0]
        return number, at
    if kind != "u64":
        raise TypeError(f"{kind!r} is no kind of part: u64, i64, f64, text, bytes")
    return bits, at


def parts(key: bytes, *kinds: str) -> tuple[Union[int, float, str, bytes], ...]:
    """The parts of a key, each of its kind: "u64", "i64", "f64", "text" (a str) or "bytes" (a text as bytes). Raises ValueError where it has others."""
    found, at = [], 0
    for kind in kinds:
        part, at = _read(key, at, kind)
        found.append(part)
    if at != len(key):
        raise ValueError("the key has more parts")
    return tuple(found)


def before(key: bytes) -> Optional[bytes]:
    """The greatest key below this one, of at most 64 bytes, if there is one: without a last 0; else with a last byte that is one less, filled up with 255."""
    if not key:
        return None
    if key[-1] == 0:
        return key[:-1]
    return (key[:-1] + bytes([key[-1] - 1])).ljust(_MAX_LENGTH, b"\xff")


def behind(prefix: bytes) -> Optional[bytes]:
    """The least key that is above all that begin with these bytes, if there is one."""
    start = prefix.rstrip(b"\xff")
    return start[:-1] + bytes([start[-1] + 1]) if start else None


def after(key: bytes) -> Optional[bytes]:
    """The least key above this one, if there is one: with a 0 behind it, if there is room."""
    return key + b"\0" if len(key) < _MAX_LENGTH else behind(key)
