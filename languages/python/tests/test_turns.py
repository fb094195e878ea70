"""Calls of the whole map, and long batches, let other threads have the interpreter, and answer signals.

Times are those of this thread's processor, so that a busy machine counts for little: where it isn't at work, no one waits for it. On a
slow machine, or one whose memory comes slowly, a part of the call's own time is the limit.
"""

from __future__ import annotations

import pickle
import random
import signal
import threading
import time
import unittest
from array import array
from collections.abc import Callable

from samvolip import Map

COUNT = 400_000
STANDS = 0.020  # so long another thread stands at most, or a quarter of the call
ANSWERED = 0.6  # so long it takes at most until a signal is answered; 0.3 on the machine of the page


def filled(count: int) -> Map:
    """A map with keys in no order; a few of the values are the same."""
    keys = array("Q", random.Random(count).randbytes(8 * count))
    m = Map()
    m.put_many(keys, array("Q", (key % (2 * count) for key in keys)))
    return m


def taken(call: Callable[[], object]) -> float:
    """How long a call takes by itself: the least of three."""
    times = []
    for _ in range(3):
        begun = time.thread_time()
        call()
        times.append(time.thread_time() - begun)
    return min(times)


def stood(call: Callable[[], object], enough: float, turns: int = 8) -> float:
    """How long another thread stands while this one makes a call: the least of some turns, since it may stand for others."""
    least = 1e9
    while turns > 0 and least > enough:
        least = min(least, stood_once(call))
        turns -= 1
    return least


def stood_once(call: Callable[[], object]) -> float:
    clock = time.pthread_getcpuclockid(threading.get_ident())
    ticks, longest, goes_on = [0], [0.0], [True]

    def tick() -> None:
        last = time.clock_gettime(clock)
        while goes_on[0]:
            now = time.clock_gettime(clock)
            longest[0] = max(longest[0], now - last)
            last = now
            ticks[0] += 1

    ticking = threading.Thread(target=tick)
    ticking.start()
    while ticks[0] < 10:
        time.sleep(0.001)
    longest[0] = 0.0
    made = call()  # it goes later: that is no time of the call
    goes_on[0] = False
    ticking.join()
    del made
    return longest[0]


class Turns(unittest.TestCase):
    """Another thread stands for a moment, whatever this one calls."""

    m: Map
    same: dict[int, int]

    @classmethod
    def setUpClass(cls) -> None:
        cls.m = filled(COUNT)
        cls.same = cls.m.snapshot()

    @classmethod
    def tearDownClass(cls) -> None:
        del cls.m, cls.same

    def stands(self, call: Callable[[], object]) -> None:
        most = max(STANDS, taken(call) / 4)
        self.assertLess(stood(call, most), most)

    def test_most_common(self):
        self.stands(self.m.most_common)
        self.stands(lambda: self.m.most_common(10))

    def test_equal(self):
        other = self.m.copy()
        self.stands(lambda: self.assertTrue(self.m == other))
        self.stands(lambda: self.assertTrue(self.m == self.same))

    def test_copies(self):
        self.stands(self.m.copy)
        self.stands(self.m.snapshot_arrays)
        self.stands(lambda: self.m | {1: 2})

    def test_loops(self):
        self.stands(lambda: sum(self.m.values()))
        self.stands(lambda: max(self.m))

    def test_snapshot(self):
        """As long as for any dict that grows to so many entries, and not for all of them."""

        def grow() -> dict[int, int]:
            made = {}
            for key, value in self.same.items():
                made[key] = value
            return made

        most = max(1.5 * stood(grow, 0, 2) + STANDS, 0.7 * taken(self.m.snapshot))
        self.assertLess(stood(self.m.snapshot, most), most)


class Interrupted(unittest.TestCase):
    """The handler of a signal raises in the middle of a long call."""

    def test_interrupted(self):
        class Stop(Exception):
            pass

        def handler(*_: object) -> None:
            raise Stop

        m = filled(2 * COUNT)
        other, same, numbers = m.copy(), m.snapshot(), list(range(2 * COUNT))
        calls: list[Callable[[], object]] = [
            m.snapshot,
            m.snapshot_arrays,
            m.most_common,
            lambda: m.most_common(10),
            lambda: m == other,
            lambda: m == same,
            lambda: repr(m),
            m.copy,
            lambda: list(m),
            lambda: sum(m.values()),
            lambda: 2**60 in m.values(),
            lambda: m.update(same),
            lambda: m.get_many(numbers),
            lambda: Map.fromkeys(numbers),
            lambda: pickle.dumps(m),
        ]
        signal.signal(signal.SIGPROF, handler)
        try:
            for number, call in enumerate(calls):
                for after in (0.01, 0.2):
                    begun = time.thread_time()
                    with self.assertRaises(Stop):
                        signal.setitimer(signal.ITIMER_PROF, after)
                        while time.thread_time() - begun < 10:
                            call()
                    self.assertLess(time.thread_time() - begun - after, ANSWERED, number)
        finally:
            signal.setitimer(signal.ITIMER_PROF, 0)
            signal.signal(signal.SIGPROF, signal.SIG_DFL)
        self.assertEqual(m, other)


class Cost(unittest.TestCase):
    def test_equal_beside_copy(self):
        """== takes no more than three times copy."""
        m = filled(COUNT // 2)
        other, same = m.copy(), m.snapshot()

        def best(call: Callable[[], object]) -> float:
            times = []
            for _ in range(5):
                begun = time.process_time()
                call()
                times.append(time.process_time() - begun)
            return min(times)

        most = 3 * best(m.copy)
        self.assertLess(best(lambda: m == other), most)
        self.assertLess(best(lambda: m == same), most)


if __name__ == "__main__":
    unittest.main()
