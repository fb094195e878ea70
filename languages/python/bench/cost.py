"""Prints what calls cost beside those of a dict behind a lock, in microseconds, as docs/python.md tells: cost.py [KEYS [CALLS]]

A number is the time of a round, with that of its loop, divided by the calls of all threads; the best of seven rounds, which go by turns,
each with other keys. First the processor's time of one thread, with keys in order and in no order; then the elapsed time of four threads,
each with as many calls, with keys in no order.
"""

import sys
import threading
import time
from array import array
from collections.abc import Callable
from typing import Any

from samvolip import Map

KEYS = int(sys.argv[1]) if len(sys.argv) > 1 else 65_536
CALLS = int(sys.argv[2]) if len(sys.argv) > 2 else 200_000
ROUNDS = 7
IN_ORDER, IN_NO_ORDER = 1, 2_654_435_761  # the step from key to key: so each comes once before one comes again


class Locked:
    """A dict behind a lock."""

    def __init__(self) -> None:
        self.numbers: dict[int, int] = {}
        self.lock = threading.Lock()

    def get(self, key):
        with self.lock:
            return self.numbers.get(key)

    def put(self, key, number):
        with self.lock:
            self.numbers[key] = number

    def add(self, key):
        with self.lock:
            self.numbers[key] = self.numbers.get(key, 0) + 1


def gets(one, keys):
    for key in keys:
        one.get(key)


def puts(one, keys):
    for key in keys:
        one.put(key, 5)


def adds(one, keys):
    for key in keys:
        one.add(key)


def subscripts(one, keys):
    for key in keys:
        one[key]


def sets(one, keys):
    for key in keys:
        one[key] = 5


def walks(one, keys):
    for _, _ in zip(one.items(), keys):
        pass


def add_batches(one, keys):
    one.add_many(keys)


def put_batches(one, keys):
    one.put_many(keys, 5)


def get_batches(one, keys):
    one.get_many(keys)


def filled(one: Any) -> Any:
    for key in range(KEYS):
        one.put(key, key)
    return one


def one_thread(work: Callable[[Any, Any], None], one: Any, keys: Any) -> float:
    begun = time.thread_time()
    work(one, keys)
    return time.thread_time() - begun


def four_threads(work: Callable[[Any, Any], None], one: Any, keys: Any) -> float:
    threads = [threading.Thread(target=work, args=(one, keys)) for _ in range(4)]
    begun = time.perf_counter()
    for thread in threads:
        thread.start()
    for thread in threads:
        thread.join()
    return (time.perf_counter() - begun) / 4


def keys_of(turn: int, step: int) -> list[int]:
    return [i * step % KEYS for i in range(turn * CALLS, (turn + 1) * CALLS)]


def main() -> None:
    m, locked = filled(Map()), filled(Locked())
    rows: list[tuple[str, Callable[[Any, Any], None], Any]] = [
        ("get", gets, m),
        ("put", puts, m),
        ("add", adds, m),
        ("m[k]", subscripts, m),
        ("m[k] = v", sets, m),
        ("a pair of a loop", walks, m),
        ("get_many", get_batches, m),
        ("put_many", put_batches, m),
        ("add_many", add_batches, m),
        ("a dict behind a lock: get", gets, locked),
        ("a dict behind a lock: put", puts, locked),
        ("a dict behind a lock: add", adds, locked),
    ]
    best = {name: [1e9, 1e9, 1e9] for name, *_ in rows}
    for turn in range(ROUNDS):
        given: dict[int, Any] = {step: keys_of(turn, step) for step in (IN_ORDER, IN_NO_ORDER)}
        words: dict[int, Any] = {step: array("Q", keys) for step, keys in given.items()}
        for name, work, one in rows:
            ways = ((one_thread, IN_ORDER), (one_thread, IN_NO_ORDER), (four_threads, IN_NO_ORDER))
            for place, (measure, step) in enumerate(ways):
                keys = (words if name.endswith("_many") else given)[step]
                best[name][place] = min(best[name][place], measure(work, one, keys))
    print(f"{'':28}{'in order':>12}{'in no order':>12}{'four':>10}")
    for name, times in best.items():
        print(f"{name:28}{times[0] / CALLS * 1e6:12.3f}{times[1] / CALLS * 1e6:12.3f}{times[2] / CALLS * 1e6:10.3f}")


main()
