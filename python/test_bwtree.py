"""Tests of bwtree.py: what a tree and its seats answer and raise, leases, and threads."""

import array
import contextlib
import copy
import gc
import os
import pickle
import queue
import random
import resource
import signal
import sys
import threading
import time
import unittest
import unittest.mock
from collections.abc import Callable
from typing import Any, Optional

import bwtree
import bwtree_library


class Calls(unittest.TestCase):
    def answers(self, it: bwtree.Seat, other: bwtree.Seat) -> None:
        self.assertIsNone(it.get(b"a"))
        self.assertIsNone(it.insert(b"a", b"x"))
        self.assertEqual(other.insert(b"a", b"y"), b"x")
        self.assertEqual(it.upsert(b"a", b"z"), b"x")
        self.assertEqual(it.compare_and_set(b"a", b"x", b"w"), (False, b"z"))
        self.assertEqual(it.compare_and_set(b"a", b"z", b"w"), (True, None))
        self.assertEqual(it.compare_and_set(b"c", b"z", b"w"), (False, None))
        it[b"b\0"] = b""
        it.tidy(b"a")
        self.assertEqual(list(it.items()), [(b"a", b"w"), (b"b\0", b"")])
        self.assertEqual(list(it.pairs(stop=b"b")), [(b"a", b"w")])
        self.assertEqual(list(it.pairs(b"aa")), [(b"b\0", b"")])
        self.assertEqual((len(it), list(it), b"a" in it, b"c" in it, object() in it), (2, [b"a", b"b\0"], True, False, False))
        self.assertEqual((it.pop(b"a"), it.delete(b"a"), it.delete(b"b\0")), (b"w", None, b""))
        with self.assertRaises(KeyError):
            it[b"a"]
        with self.assertRaises(KeyError):
            del it[b"a"]
        longs: tuple[Callable[[], object], ...] = (lambda: it.get(b"k" * 65), lambda: it.insert(b"a", b"v" * 65), lambda: list(it.pairs(b"k" * 65)))
        for long in longs:
            with self.assertRaises(ValueError):
                long()
        it[b"k" * 64] = b"v" * 64
        self.assertEqual(it.pop(b"k" * 64), b"v" * 64)
        self.assertGreater(it.room().free_records, 0)

    def as_a_mapping(self, it: bwtree.Seat) -> None:
        it.update({b"a": b"x", b"b": b"y"})
        self.assertEqual((it.setdefault(b"a", b"z"), it.setdefault(b"a"), it.setdefault(b"c", bytearray(b"z"))), (b"x", b"x", b"z"))
        self.assertEqual((list(it.values()), (b"a", b"x") in it.items(), memoryview(b"a") in it), ([b"x", b"y", b"z"], True, True))
        self.assertEqual((it.pop(b"d", None), it.pop(b"c", None), it.popitem()), (None, b"z", (b"a", b"x")))
        with self.assertRaises(KeyError):
            it.pop(b"a")
        it.clear()
        self.assertEqual(len(it), 0)
        with self.assertRaises(KeyError):
            it.popitem()
        # all bytes count of what has them in wider items, and nothing else is a key or a value
        wide: Any = array.array("I", [1, 2])
        it[wide] = b""
        self.assertEqual(it.pop((1).to_bytes(4, "little") + (2).to_bytes(4, "little")), b"")
        wrongs: tuple[Any, ...] = ("a", 5, [1], None)
        calls: tuple[Callable[[Any], object], ...] = (
            it.get, lambda wrong: it.insert(b"a", wrong), lambda wrong: list(it.pairs(wrong)), lambda wrong: bwtree.Tree(pairs=[(wrong, b"")]),
        )
        for wrong in wrongs:
            for call in calls:
                with self.assertRaises(TypeError):
                    call(wrong)

    def test_answers(self) -> None:
        with bwtree.Tree(seats=2, keys=100) as tree, tree.seat() as seat, tree.seat() as other:
            self.answers(seat, other)
            self.as_a_mapping(seat)

    def test_limits(self) -> None:
        wrongs: tuple[dict[str, Any], ...] = (
            {"seats": 17}, {"seats": 64, "large": True}, {"seats": 0}, {"keys": 10**30}, {"pages": 63, "records": 64},
            {"pages": 64, "records": 0},
            {"seats": 2**64 + 1, "pages": 64, "records": 64}, {"pages": 2**64 + 64, "records": 64},
        )
        for limits in wrongs:
            with self.assertRaises(bwtree.Error) as raised:
                bwtree.Tree(**limits)
            self.assertEqual((raised.exception.status, str(raised.exception)), (22, "a limit is outside its range"))

        halves: tuple[dict[str, Any], ...] = ({"pages": 64}, {"records": 64})
        for half in halves:
            with self.assertRaisesRegex(ValueError, "pages and records"):
                bwtree.Tree(**half)

    def test_as_a_dict(self) -> None:
        with bwtree.Tree(seats=1, keys=100) as tree, tree.seat() as seat:
            self.assertFalse(seat)
            seat |= {b"a": b"x", b"b": b"y"}
            self.assertTrue(seat)
            self.assertEqual((seat | {b"a": b"z"}, {b"a": b"z"} | seat), ({b"a": b"z", b"b": b"y"}, {b"a": b"x", b"b": b"y"}))
            self.assertEqual((list(reversed(seat)), list(reversed(seat.values()))), ([b"b", b"a"], [b"y", b"x"]))
            keys = seat.keys()
            self.assertEqual((list(keys), list(reversed(keys)), b"a" in keys, keys & {b"a", b"c"}), ([b"a", b"b"], [b"b", b"a"], True, {b"a"}))
            with self.assertRaises(TypeError):
                seat | 5  # type: ignore[operator]
            self.assertEqual(repr(seat), "<bwtree.Seat 0 of <bwtree.Tree: 2 keys, 0 of 1 seats free>>")
        self.assertEqual(repr(seat), "<bwtree.Seat, given back>")

    def test_local(self) -> None:
        """Each thread has a seat of its own, which goes back when the thread ends."""
        with bwtree.Tree(seats=2, keys=100) as tree:
            mine, others = tree.local(), list[object]()

            def use() -> None:
                others.append(tree.local() is not mine and tree.local() is tree.local() and tree.local().upsert(b"a", b"x"))

            for _ in range(3):
                thread = threading.Thread(target=use)
                thread.start()
                thread.join()
            self.assertEqual((tree.local() is mine, others, mine[b"a"]), (True, [None, b"x", b"x"], b"x"))
            mine.close()
            self.assertEqual(tree.local()[b"a"], b"x")
            del mine

    def test_large(self) -> None:
        with bwtree.Tree(seats=1, keys=20000, large=True) as tree, tree.seat() as seat:
            for i in range(20000):
                seat[i.to_bytes(4, "big")] = b"x"
            self.assertEqual(seat[(7).to_bytes(4, "big")], b"x")
        with self.assertRaises(bwtree.Error):
            bwtree.Tree(seats=1, keys=20000)

    def test_widths(self) -> None:
        """A large tree for pairs of some length takes longer ones, too."""
        with bwtree.Tree(seats=1, keys=1000, large=True, key_bytes=16, value_bytes=8) as tree, tree.seat() as seat:
            for i in range(1000):
                seat[i.to_bytes(16 if i % 100 else 64, "big")] = i.to_bytes(8 if i % 100 else 64, "big")
            self.assertEqual(seat[(7).to_bytes(16, "big")], (7).to_bytes(8, "big"))
            self.assertEqual(seat[(700).to_bytes(64, "big")], (700).to_bytes(64, "big"))
        for wrong in ({"key_bytes": 16}, {"value_bytes": 8}, {"key_bytes": 16, "value_bytes": 8, "large": False},
                      {"key_bytes": 16, "value_bytes": 8, "pages": 64, "records": 832}):
            with self.assertRaises(ValueError):
                bwtree.Tree(**{"large": True, **wrong})  # type: ignore[arg-type]
        with self.assertRaises(bwtree.Error):
            bwtree.Tree(large=True, key_bytes=65, value_bytes=8)

    @unittest.skipIf(sys.platform != "linux", "no /proc here")
    def test_no_memory(self) -> None:
        """A tree is not opened where the process may not have the memory."""
        with open("/proc/self/statm", encoding="ascii") as it:
            pages = int(it.read().split()[0])
        before = resource.getrlimit(resource.RLIMIT_AS)
        resource.setrlimit(resource.RLIMIT_AS, (pages * resource.getpagesize() + (64 << 20), before[1]))
        try:
            with self.assertRaises(bwtree.Error) as raised:
                bwtree.Tree(seats=1, keys=1_000_000, large=True)
        finally:
            resource.setrlimit(resource.RLIMIT_AS, before)
        self.assertEqual((raised.exception.status, str(raised.exception)), (23, "no memory"))

    def test_two_in_a_seat(self) -> None:
        """A call that finds another one inside its seat raises Error, and changes nothing."""
        tree, raised, done = bwtree.Tree(seats=1, keys=10), list[int](), list[int]()
        seat, end = tree.seat(), time.monotonic() + 60

        def use() -> None:
            while not raised and time.monotonic() < end:
                try:
                    seat.add(b"a", 1)
                    done.append(1)
                except bwtree.Full:
                    pass
                except bwtree.Error as error:
                    raised.append(error.status)

        threads = [threading.Thread(target=use) for _ in range(4)]
        for it in threads:
            it.start()
        for it in threads:
            it.join()
        # (the library of c/tests/spent.c takes no seat before it runs an operation: UNFINISHED then, too)
        self.assertLessEqual(set(raised), {18, 19} if "BWTREE_SPENT" in os.environ else {18})
        self.assertEqual((len(raised) > 0, seat.add(b"a", 0)), (True, len(done)))
        seat.close()
        tree.close()

    def test_most_seats(self) -> None:
        with bwtree.Tree(seats=63, keys=100, large=True) as tree:
            seats = [tree.seat(timeout=1) for _ in range(63)]
            for i, seat in enumerate(seats):
                seat[bytes([i])] = b"x"
            with self.assertRaises(queue.Empty):
                tree.seat(timeout=0)
            for seat in seats:
                seat.close()
            self.assertEqual(tree.count(), 63)

    def test_pairs(self) -> None:
        pairs = [(i.to_bytes(2, "big"), bytes([i])) for i in range(100)]
        with bwtree.Tree(seats=2, pairs=pairs) as tree, tree.seat() as seat:
            self.assertEqual(list(seat.pairs()), pairs)
        with self.assertRaises(bwtree.Error) as raised:
            bwtree.Tree(pairs=reversed(pairs))
        self.assertEqual((raised.exception.status, str(raised.exception)), (26, "the keys don't ascend"))
        with self.assertRaises(ValueError):
            bwtree.Tree(pairs=[(b"k" * 65, b"")])
        with self.assertRaises(bwtree.Full):
            bwtree.Tree(seats=1, pages=64, records=64, pairs=[(i.to_bytes(2, "big"), b"") for i in range(4000)])

    def test_close_with_pairs(self) -> None:
        tree = bwtree.Tree(seats=2, keys=500)
        with tree.seat() as seat:
            for i in reversed(range(400)):
                seat[i.to_bytes(4, "big")] = bytes([i % 256])
            del seat[(7).to_bytes(4, "big")]
            with self.assertRaises(bwtree.Error) as raised:
                tree.close_with_pairs()
            self.assertEqual(raised.exception.status, 18)
        pairs = tree.close_with_pairs()
        self.assertEqual(pairs, [(i.to_bytes(4, "big"), bytes([i % 256])) for i in range(400) if i != 7])
        for close in (tree.close_with_pairs, tree.close):
            with self.assertRaises(bwtree.Error) as raised:
                close()
            self.assertEqual(raised.exception.status, 16)
        self.assertEqual(bwtree.Tree(seats=1, keys=500, pairs=pairs).close_with_pairs(), pairs)
        self.assertEqual(bwtree.Tree(seats=1, keys=1).close_with_pairs(), [])
        with bwtree.Tree(seats=1, keys=1) as tree:
            self.assertEqual(tree.close_with_pairs(), [])

    def test_interrupts(self) -> None:
        """What the library did is not lost where the program is interrupted right behind it."""
        answers: list[object] = []

        def interrupted(name: str, ends: bool = True) -> Any:
            real = getattr(bwtree_library.library, name)

            def call(*words: object) -> object:
                answers.append(real(*words))
                if ends:
                    raise KeyboardInterrupt
                return answers[-1]

            return unittest.mock.patch.object(bwtree_library.library, name, call)

        tree = bwtree.Tree(seats=1, keys=10, pairs=[(b"a", b"x"), (b"b", b"y")])
        for _ in range(2):
            with interrupted("bwtree_raw_close_pairs"), self.assertRaises(KeyboardInterrupt):
                tree.close_with_pairs()
        self.assertEqual((answers, tree.close_with_pairs()), ([7, 0], [(b"a", b"x"), (b"b", b"y")]))
        with self.assertRaises(bwtree.Error):
            tree.close_with_pairs()
        answers.clear()
        with interrupted("bwtree_raw_open_from"), interrupted("bwtree_raw_close", ends=False):
            with self.assertRaises(KeyboardInterrupt):
                bwtree.Tree(seats=1, keys=10)
            gc.collect()
        self.assertEqual(answers, [0, 0])

    def test_full(self) -> None:
        with bwtree.Tree(seats=1, pages=64, records=64) as tree, tree.seat() as seat, self.assertRaises(bwtree.Full):
            for i in range(100000):
                seat[i.to_bytes(4, "big")] = b""


    def test_patience(self) -> None:
        """A write waits as long as its seat's patience lasts: in vain where the tree is full for good."""
        with bwtree.Tree(seats=1, pages=64, records=704) as tree, tree.seat() as seat:
            self.assertEqual(seat.full_hint(), bwtree.FullHint.PASSED)
            with self.assertRaises(bwtree.Full):
                for i in range(100000):
                    seat[(i * 2654435761 % 2**32).to_bytes(4, "big")] = b""
            seat.patience, begin = 0.03, time.monotonic()
            with self.assertRaises(bwtree.Full):
                seat[(i * 2654435761 % 2**32).to_bytes(4, "big")] = b""
            self.assertGreaterEqual(time.monotonic() - begin, 0.03)
            self.assertEqual(seat.full_hint(), bwtree.FullHint.FOR_GOOD)

    def test_waits(self) -> None:
        """A write that is full for a moment is done once there is room."""
        real, answers = bwtree_library.library.bwtree_raw_upsert, [5, 5, 5]
        with bwtree.Tree(seats=1, keys=10) as tree, tree.seat() as seat:
            with unittest.mock.patch.object(bwtree_library.library, "bwtree_raw_upsert", lambda *words: answers.pop() if answers else real(*words)):
                with self.assertRaises(bwtree.Full):
                    seat[b"a"] = b"x"
                seat.patience = 20
                seat[b"a"] = b"y"
            self.assertEqual((answers, seat[b"a"], tree.count()), ([], b"y", 1))

    def test_hints(self) -> None:
        for limits, room, hint in (((1, 64, 704, 1, 0), (1, 1), "PASSED"), ((1, 64, 704, 1, 0), (0, 1), "FOR_GOOD"), ((1, 64, 704, 1, 0), (1, 0), "FOR_NOW"),
                                   ((1, 64, 640, 1, 0), (1, 0), "FOR_GOOD"), ((1, 64, 448, 1, 1), (1, 0), "FOR_NOW"), ((1, 64, 384, 1, 1), (1, 0), "FOR_GOOD")):
            self.assertEqual(bwtree._hint(bwtree_library.Limits(*limits), bwtree.Room(*room)).name, hint)

    def test_hints_of_three_widths(self) -> None:
        """As many records as are narrower than 512 words tell nothing of the others."""
        three, few = (1, 64, 576, 1, 2, 320, 512, 8, 56), (1, 64, 384, 1, 2, 128, 320, 8, 56)
        for limits, room, hint in ((three, (1, 513), "PASSED"), (three, (1, 512), "UNKNOWN"), (three, (1, 0), "UNKNOWN"), (three, (0, 513), "FOR_GOOD"),
                                   (few, (1, 0), "FOR_GOOD"), (few, (1, 1), "UNKNOWN")):
            self.assertEqual(bwtree._hint(bwtree_library.Limits(*limits), bwtree.Room(*room)).name, hint)

    def test_full_with_narrow_records(self) -> None:
        """In a tree for short pairs that is filled with long ones no record of 512 words is free any more, though many narrower ones are."""
        with bwtree.Tree(seats=1, keys=2000, large=True, key_bytes=1, value_bytes=1) as tree, tree.seat() as seat:
            self.assertEqual(seat.full_hint(), bwtree.FullHint.PASSED)
            with self.assertRaises(bwtree.Full):
                for i in range(2000):
                    seat[(i * 2654435761 % 2**32).to_bytes(4, "big") * 16] = bytes(64)
            room = seat.room()
            self.assertGreater(min(room), 0)
            self.assertEqual(seat.full_hint(), bwtree.FullHint.UNKNOWN)


class Loading(unittest.TestCase):
    def test_without_the_library(self) -> None:
        """The module says where it looked for the library, and what to set."""
        nowhere = os.path.join(os.path.dirname(os.path.abspath(__file__)), "nowhere")
        with unittest.mock.patch.dict(os.environ, {"BWTREE_LIB": nowhere}), self.assertRaises(ImportError) as raised:
            bwtree_library.load()
        for word in (nowhere, "BWTREE_LIB", "./bwtree build"):
            self.assertIn(word, str(raised.exception))


class Leases(unittest.TestCase):
    def test_leases(self) -> None:
        tree = bwtree.Tree(seats=1, keys=100)
        seat = tree.seat()
        with self.assertRaises(queue.Empty):
            tree.seat(timeout=0.01)
        with self.assertRaises(bwtree.Error) as raised:
            tree.close()
        self.assertEqual(raised.exception.status, 18)
        seat.close()
        seat.close()
        with self.assertRaises(bwtree.Error):
            seat.get(b"a")
        tree.close()
        with self.assertRaises(bwtree.Error) as raised:
            tree.seat().get(b"a")
        self.assertEqual(raised.exception.status, 16)
        with self.assertRaises(bwtree.Error):
            tree.close()


    def test_exception_in_a_block(self) -> None:
        """It is raised in place of what a lent seat makes of the closing, which is raised where there is no other one."""
        with self.assertRaises(RuntimeError):
            with bwtree.Tree(seats=1, keys=10) as tree:
                seat = tree.seat()
                raise RuntimeError("of the program")
        seat[b"a"] = b"x"
        seat.close()
        tree.close()
        with self.assertRaises(bwtree.Error) as raised:
            with bwtree.Tree(seats=1, keys=10) as tree:
                seat = tree.seat()
        self.assertEqual(raised.exception.status, 18)


    def test_copies(self) -> None:
        """Neither a tree nor a seat is copied: two objects of one handle would close it twice, and lend one seat to two threads."""
        with bwtree.Tree(seats=1, keys=10) as tree, tree.seat() as seat:
            seat[b"a"] = b"x"
            for it in (tree, seat):
                copies: tuple[Callable[[object], object], ...] = (copy.copy, copy.deepcopy, pickle.dumps)
                for copied in copies:
                    with self.assertRaises(TypeError):
                        copied(it)
            gc.collect()
            self.assertEqual(seat[b"a"], b"x")


    def test_blocks(self) -> None:
        """A seat goes back at the end of its block, also where a stack of blocks has it."""
        with bwtree.Tree(seats=1, keys=10) as tree:
            with tree.seat() as seat:
                seat[b"a"] = b"x"
            with self.assertRaises(bwtree.Error):
                seat.get(b"a")
            with contextlib.ExitStack() as stack:
                self.assertEqual(stack.enter_context(tree.seat(timeout=0))[b"a"], b"x")
            with self.assertRaises(KeyError), tree.seat(timeout=0) as seat:
                seat[b"b"]
            self.assertEqual(tree._free.qsize(), 1)

    def test_dropped(self) -> None:
        tree = bwtree.Tree(seats=1, keys=10)
        seat = tree.seat()
        del seat
        gc.collect()
        tree.seat(timeout=0).close()
        tree.close()

    @unittest.skipUnless(hasattr(signal, "setitimer"), "no timers here")
    def test_exceptions_from_signals(self) -> None:
        """A signal's handler may raise at any time, as Ctrl-C does: each seat is back at the end of its block, also where the program still refers to it."""

        class Stop(Exception):
            pass

        def stop(*_: object) -> None:
            raise Stop

        def use(tree: bwtree.Tree) -> None:
            for _ in range(10000):
                with tree.seat() as seat:
                    kept[:] = [seat]
                    seat[b"a"] = b"x"
                    seat.get(b"a")

        kept: list[bwtree.Seat] = []
        lent = 0
        tree, draws = bwtree.Tree(seats=2, keys=10), random.Random(1)
        before = signal.signal(signal.SIGALRM, stop)
        try:
            for _ in range(500):
                try:
                    signal.setitimer(signal.ITIMER_REAL, draws.uniform(0.00002, 0.0006))
                    use(tree)
                except Stop:
                    pass
                lent += 2 - tree._free.qsize()
        finally:
            signal.setitimer(signal.ITIMER_REAL, 0)
            signal.signal(signal.SIGALRM, before)
        self.assertEqual(lent, 0)
        tree.close()


def upsert(seat: bwtree.Seat, key: bytes, value: bytes) -> Optional[bytes]:
    """A write is told Full while another thread stands still inside an operation: it is made again until that thread goes on."""
    while True:
        try:
            return seat.upsert(key, value)
        except bwtree.Full:
            time.sleep(0)


class Threads(unittest.TestCase):
    def test_threads(self) -> None:
        tree, faults = bwtree.Tree(seats=4, keys=6 * 300), list[Exception]()

        def work(number: int) -> None:
            try:
                with tree.seat() as seat:
                    for i in range(900):
                        key = bytes([number]) + (i % 300).to_bytes(4, "big")
                        self.assertEqual(upsert(seat, key, i.to_bytes(4, "big")), (i - 300).to_bytes(4, "big") if i >= 300 else None)
            except Exception as fault:
                faults.append(fault)

        threads = [threading.Thread(target=work, args=(number,)) for number in range(6)]
        for it in threads:
            it.start()
        for it in threads:
            it.join()
        with tree.seat() as seat:
            keys = list(seat)
        self.assertEqual((faults, len(keys), keys), ([], 1800, sorted(keys)))
        tree.close()


if __name__ == "__main__":
    unittest.main()
