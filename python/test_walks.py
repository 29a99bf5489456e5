"""Tests of walks in both directions, the neighbours of a key, additions, deletions by value, counts, and keys of numbers and texts."""

import itertools
import os
import random
import struct
import threading
import unittest
from collections.abc import Callable, Iterator, Sequence
from typing import Any, Optional, TypeVar

import bwtree
import bwtree_keys as keys

Pair = tuple[bytes, bytes]
T = TypeVar("T")

STORED = os.path.join(os.path.dirname(os.path.abspath(__file__)), "..", "c", "tests", "keys.txt")


class Calls(unittest.TestCase):
    def test_answers(self) -> None:
        with bwtree.Tree(seats=2, keys=100) as tree, tree.seat() as it, tree.seat() as other:
            self.assertEqual((it.replace(b"a", b"x"), it.delete_if(b"a", b"x"), tree.count()), (None, (False, None), 0))
            it[b"a"] = b"x"
            self.assertEqual((other.replace(b"a", b"y"), it.delete_if(b"a", b"x"), tree.count()), (b"x", (False, b"y"), 1))
            self.assertEqual((it.delete_if(b"a", b"y"), b"a" in it, tree.count()), ((True, None), False, 0))
            self.assertEqual((it.add(b"n", 5), other.add(b"n", -2), it[b"n"], tree.count()), (None, 5, keys.u64(3), 1))
            self.assertEqual((it.add(b"n", 2**64 - 4), it.add(b"n", 0)), (3, 2**64 - 1))
            it[b"n"] = b"1234567"
            with self.assertRaises(ValueError):
                it.add(b"n", 1)
            self.assertEqual((it[b"n"], it.pop(b"n"), tree.count()), (b"1234567", b"1234567", 0))
            self.assertEqual((it.setdefault(b"a", b"x"), it.setdefault(b"a", b"y"), tree.count(), it.popitem(), tree.count()), (b"x", b"x", 1, (b"a", b"x"), 0))

    def test_misuse(self) -> None:
        with bwtree.Tree(seats=1, keys=100) as tree, tree.seat() as it:
            long = b"k" * 65
            near: tuple[Callable[[Any], object], ...] = (it.floor, it.lower, it.ceiling, it.higher)
            calls: tuple[Callable[[Any], object], ...] = (
                *near, it.prefix, it.pairs, lambda key: it.pairs(stop=key), lambda key: it.add(key, 1), lambda key: it.delete_if(key, b""),
                lambda key: it.delete_if(b"a", key), lambda key: it.replace(b"a", key), lambda key: it.replace(key, b""),
            )
            for call in calls:
                with self.assertRaises(ValueError):
                    call(long)
                for wrong in ("a", 5, None):
                    if wrong is not None or call in near:
                        with self.assertRaises(TypeError):
                            call(wrong)
            self.assertEqual((len(it), tree.count()), (0, 0))


class Walks(unittest.TestCase):
    def drawn(self, draw: random.Random) -> bytes:
        start = b"\xff" * 60 if draw.randrange(8) == 0 else b""
        return start + bytes(draw.choice(b"\0\1a\xfe\xff") for _ in range(draw.randrange(5 if start else 6)))

    def shows(self, wanted: list[Pair], walk: Callable[[bool], Iterator[Pair]]) -> None:
        self.assertEqual(list(walk(False)), wanted)
        self.assertEqual(list(walk(True)), wanted[::-1])

    def ranges(self, it: bwtree.Seat, pairs: list[Pair], one: bytes, other: bytes) -> None:
        self.shows([pair for pair in pairs if one <= pair[0]], lambda reverse: it.pairs(one, reverse=reverse))
        self.shows([pair for pair in pairs if pair[0] < one], lambda reverse: it.pairs(stop=one, reverse=reverse))
        self.shows([pair for pair in pairs if one <= pair[0] < other], lambda reverse: it.pairs(one, other, reverse))
        self.shows([pair for pair in pairs if pair[0].startswith(one)], lambda reverse: it.prefix(one, reverse))

    def neighbours(self, it: bwtree.Seat, pairs: list[Pair], key: bytes) -> None:
        def last(below: Callable[[bytes], bool]) -> Optional[Pair]:
            return next((pair for pair in reversed(pairs) if below(pair[0])), None)

        def first(above: Callable[[bytes], bool]) -> Optional[Pair]:
            return next((pair for pair in pairs if above(pair[0])), None)

        self.assertEqual(it.floor(key), last(lambda other: other <= key))
        self.assertEqual(it.lower(key), last(lambda other: other < key))
        self.assertEqual(it.ceiling(key), first(lambda other: other >= key))
        self.assertEqual(it.higher(key), first(lambda other: other > key))

    def test_model(self) -> None:
        draw = random.Random(1)
        with bwtree.Tree(seats=1, keys=1000) as tree, tree.seat() as it:
            self.assertEqual((it.first(), it.last(), it.floor(b"a"), it.lower(b""), it.higher(b"\xff" * 64), list(reversed(it))), (None,) * 5 + ([],))
            model = {self.drawn(draw): bytes([i % 256]) for i in range(400)}
            it.update(model)
            pairs = sorted(model.items())
            self.assertEqual((tree.count(), it.first(), it.last()), (len(pairs), pairs[0], pairs[-1]))
            self.assertEqual((list(it), list(reversed(it))), (sorted(model), sorted(model, reverse=True)))
            self.assertEqual((list(reversed(it.items())), list(reversed(it.values()))), (pairs[::-1], [value for _, value in reversed(pairs)]))
            for _ in range(60):
                one, other = self.drawn(draw), self.drawn(draw)
                self.neighbours(it, pairs, one)
                self.neighbours(it, pairs, draw.choice(pairs)[0])
                self.ranges(it, pairs, one, other)

    def test_given_pairs_are_counted(self) -> None:
        with bwtree.Tree(seats=2, pairs=[(b"a", b"x"), (b"b", b"y")]) as tree, tree.seat() as it:
            del it[b"a"]
            self.assertEqual((tree.count(), it.last()), (1, (b"b", b"y")))

    def test_threads(self) -> None:
        def run(number: int) -> None:
            draw = random.Random(number)
            with tree.seat() as it:
                for i in range(200):
                    again(lambda: it.add(b"sum", i))
                    again(lambda: it.insert(bytes([number, draw.randrange(50)]), b"x"))
                    key = bytes([number, draw.randrange(50)])
                    again(lambda: it.delete_if(key, b"x"))
                    if i % 50 == 0:
                        found = list(reversed(it))
                        falls.append(found == sorted(set(found), reverse=True))

        def again(call: Callable[[], object]) -> object:
            while True:
                try:
                    return call()
                except bwtree.Full:
                    pass

        falls: list[bool] = []
        with bwtree.Tree(seats=4, keys=1000) as tree:
            threads = [threading.Thread(target=run, args=(number,)) for number in range(4)]
            for thread in threads:
                thread.start()
            for thread in threads:
                thread.join()
            with tree.seat() as it:
                self.assertEqual((it[b"sum"], tree.count(), falls), (keys.u64(4 * 199 * 200 // 2), len(it), [True] * 16))


class Keys(unittest.TestCase):
    def part(self, word: str) -> tuple[str, object, bytes]:
        kind, _, part = word.partition(":")
        if kind == "text":
            return "bytes", bytes.fromhex(part), keys.text(bytes.fromhex(part))
        if kind == "f64":
            number = struct.unpack(">d", bytes.fromhex(part))[0]
            return kind, number, keys.f64(number)
        return kind, int(part), {"u64": keys.u64, "i64": keys.i64}[kind](int(part))

    def test_stored(self) -> None:
        last, count = None, 0
        with open(STORED, encoding="utf-8") as lines:
            for words in map(str.split, lines):
                if not words or words[0].startswith("#"):
                    last = None
                    continue
                wanted, parts = bytes.fromhex(words[0]), [self.part(word) for word in words[1:]]
                self.assertEqual(keys.key(*(made for _, _, made in parts)), wanted)
                found = keys.parts(wanted, *(kind for kind, _, _ in parts))
                self.assertEqual([struct.pack(">d", it) if isinstance(it, float) else it for it in found],
                                 [struct.pack(">d", it) if isinstance(it, float) else it for _, it, _ in parts])
                self.assertTrue(last is None or last < wanted)
                last, count = wanted, count + 1
        self.assertGreater(count, 100)

    def test_sorted(self) -> None:
        texts = ["", "\0", "\0\0", "a", "a\0", "a\0b", "ab", "\u00e9", "\U0001f600"]
        tuples = list(itertools.product(texts, [-2**63, -256, -1, 0, 1, 2**63 - 1], [float("-inf"), -1.5, 0.0, 0.1, 1e300]))
        random.Random(2).shuffle(tuples)
        made = {keys.key(keys.text(text), keys.i64(number), keys.f64(real)): (text, number, real) for text, number, real in tuples}
        self.assertEqual([made[key] for key in sorted(made)], sorted(tuples))
        self.assertTrue(all(keys.parts(key, "text", "i64", "f64") == parts for key, parts in made.items()))
        self.assertTrue(keys.text("a\0b").startswith(keys.text_start("a\0")))

    def test_refusals(self) -> None:
        wrongs: Sequence[Callable[[], object]] = (
            lambda: keys.key(keys.text(b"k" * 63)), lambda: keys.parts(b"1234567", "u64"), lambda: keys.parts(b"123456789", "u64"),
            lambda: keys.parts(b"a", "text"), lambda: keys.parts(b"a\0\1", "text"), lambda: keys.parts(b"a\0", "text"),
            lambda: keys.parts(b"\xff\0\0", "text"),
        )
        for wrong in wrongs:
            with self.assertRaises(ValueError):
                wrong()
        beyond: Sequence[Callable[[], object]] = (lambda: keys.u64(-1), lambda: keys.u64(2**64), lambda: keys.i64(2**63))
        for wrong in beyond:
            with self.assertRaises(OverflowError):
                wrong()

    def test_neighbours(self) -> None:
        self.assertEqual((keys.before(b""), keys.before(b"a\0"), keys.before(b"b")), (None, b"a", b"a".ljust(64, b"\xff")))
        self.assertEqual((keys.behind(b""), keys.behind(b"\xff\xff"), keys.behind(b"a\xff")), (None, None, b"b"))
        self.assertEqual((keys.after(b"a"), keys.after(b"a" * 64), keys.after(b"\xff" * 64)), (b"a\0", b"a" * 63 + b"b", None))


if __name__ == "__main__":
    unittest.main()
