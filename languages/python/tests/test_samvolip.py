"""Each call and each refusal; the map as a MutableMapping; batches; threads, forks, signals and renewals; the page's programs.

CPython's own tests of a mapping are in test_mapping.py. Where a call is wrong on purpose, a comment says what mypy calls it.
"""

from __future__ import annotations

import ast
import collections
import copy
import gc
import importlib
import inspect
import multiprocessing
import os
import pickle
import pydoc
import random
import re
import resource
import signal
import subprocess
import sys
import sysconfig
import tempfile
import threading
import time
import unittest
import weakref
from array import array
from collections.abc import Callable, MutableMapping
from typing import Any

import samvolip
from samvolip import KEY_MAX, VALUE_MAX, Map

PAGE = os.path.join(os.path.dirname(os.path.abspath(__file__)), "../../../docs/python.md")
KINDS = ("secret", "mixed", "as they are")
HAS_LOCK = not sysconfig.get_config_var("Py_GIL_DISABLED")


def run_all(count: int, work: Callable[[int], object]) -> None:
    """Runs so many threads, each with its number. What one of them raises is raised here."""
    raised: list[BaseException] = []

    def guarded(number: int) -> None:
        try:
            work(number)
        except BaseException as error:
            raised.append(error)

    threads = [threading.Thread(target=guarded, args=(number,)) for number in range(count)]
    for thread in threads:
        thread.start()
    for thread in threads:
        thread.join()
    if raised:
        raise raised[0]


class Calls(unittest.TestCase):
    """What each call of a key answers."""

    def test_dict(self):
        m = Map()
        m[1] = 2
        self.assertEqual((m[1], m.get(1), m.get(2), m.get(2, 7), m.get(1, 7)), (2, 2, None, 7, 2))
        self.assertTrue(1 in m and 2 not in m)
        self.assertEqual((m.setdefault(1, 5), m.setdefault(2, 5), m.setdefault(3), len(m)), (2, 5, 0, 3))
        self.assertEqual((m.pop(2), m.pop(2, 9), m.pop(2, None)), (5, 9, None))
        del m[3]
        for call in (lambda: m[3], lambda: m.pop(3), lambda: m.__delitem__(3)):
            with self.assertRaises(KeyError) as raised:
                call()
            self.assertEqual(raised.exception.args, (3,))
        self.assertEqual(m.popitem(), (1, 2))
        self.assertRaises(KeyError, m.popitem)

    def test_writes(self):
        m = Map()
        self.assertEqual((m.put(1, 2), m.put(1, 3), m[1]), (None, 2, 3))
        self.assertEqual((m.put_if_absent(1, 4), m.put_if_absent(2, 4), m[1], m[2]), (3, None, 3, 4))
        self.assertEqual((m.replace(1, 5), m.replace(3, 5), m.get(1), m.get(3)), (3, None, 5, None))
        self.assertEqual((m.replace_if(1, 4, 6), m.replace_if(1, 5, 6), m.replace_if(3, 0, 6), m[1]), (False, True, False, 6))
        self.assertEqual((m.add(1), m.add(1, 3), m.add(4, 2), m.add(5), m[1], m[4], m[5]), (6, 7, None, None, 10, 2, 1))
        self.assertEqual((m.fetch_max(1, 9), m.fetch_max(1, 11), m.fetch_max(6, 1), m[1], m[6]), (10, 10, None, 11, 1))
        self.assertEqual((m.fetch_min(1, 12), m.fetch_min(1, 4), m.fetch_min(7, 1), m[1], m[7]), (11, 11, None, 4, 1))
        self.assertEqual((m.remove_if(1, 5), m.remove_if(1, 4), m.remove_if(1, 4), m.remove(1)), (False, True, False, None))
        self.assertEqual((m.remove(2), 2 in m), (4, False))

    def test_compare_exchange(self):
        m = Map({1: 2})
        exchange = m.compare_exchange
        self.assertEqual((exchange(1, 3, 4), m[1], exchange(1, None, 4), m[1]), (2, 2, 2, 2))
        self.assertEqual((exchange(1, 2, 4), m[1], exchange(1, 4, None), 1 in m), (2, 4, 4, False))
        self.assertEqual((exchange(1, 4, 5), exchange(1, None, None), 1 in m), (None, None, False))
        self.assertEqual((exchange(1, None, 6), m[1]), (None, 6))

    def test_compute(self):
        m = Map({1: 2})
        self.assertEqual((m.compute(1, lambda n: n and n + 1), m[1]), (3, 3))
        self.assertEqual((m.compute(1, lambda n: None), 1 in m), (None, False))
        self.assertEqual((m.compute(1, lambda n: 0 if n is None else 1), m[1]), (0, 0))
        self.assertEqual((m.compute(1, lambda n: m.put(1, 7) if n == 0 else n), m[1]), (7, 7))
        with self.assertRaises(ZeroDivisionError):
            m.compute(1, lambda n: 1 // 0)
        self.assertRaises(TypeError, m.compute, 1, lambda n: "a")
        self.assertRaises(OverflowError, m.compute, 1, lambda n: -1)
        self.assertEqual(m[1], 7)

    def test_extremes(self):
        for kind in KINDS:
            m = Map(keys=kind)
            for key in (0, KEY_MAX, KEY_MAX - 1, 2**63, 1):
                self.assertIsNone(m.put(key, VALUE_MAX))
                self.assertEqual((m[key], m.remove_if(key, VALUE_MAX), m.put(key, 0), m[key]), (VALUE_MAX, True, None, 0))
            self.assertEqual(sorted(m), [0, 1, 2**63, KEY_MAX - 1, KEY_MAX])
        self.assertEqual((KEY_MAX, VALUE_MAX), (2**64 - 3, 2**60 - 1))

    def test_contains(self):
        """What can't be a key isn't there, and what is unhashable is refused, as of a dict."""
        m: Any = Map({1: 2, 3: 4})
        for there in (m, m.keys()):
            self.assertTrue(1 in there and True in there and 2 not in there)
            for none in ("a", None, 1.0, b"1", (1,), object(), -1, KEY_MAX + 1, 2**64, -(10**30)):
                self.assertFalse(none in there)
            for wrong in ([], {}, m):
                self.assertRaisesRegex(TypeError, "unhashable type: ", there.__contains__, wrong)
                self.assertRaisesRegex(TypeError, "unhashable type: ", {}.__contains__, wrong)
        self.assertTrue((1, 2) in m.items() and ("a", 2) not in m.items() and (-1, 2) not in m.items() and (2, None) not in m.items())
        self.assertRaises(TypeError, m.items().__contains__, ([], 1))

    def test_what_is_a_whole_number(self):
        class Seven:
            def __index__(self):
                return 7

        class Broken:
            def __index__(self):
                raise ZeroDivisionError

        m = Map({Seven(): True})
        self.assertEqual((m[7], type(m[7]), m[Seven()], m.get(False), Seven() in m.keys()), (1, int, 1, None, True))
        self.assertRaises(ZeroDivisionError, m.get, Broken())
        self.assertRaises(ZeroDivisionError, m.__contains__, Broken())
        self.assertRaises(ZeroDivisionError, m.add_many, [1, Broken()])


class Refusals(unittest.TestCase):
    """What is refused, by which exception; and then nothing has changed."""

    def calls_of_a_key(self, m: Any) -> list[Callable[[Any], Any]]:
        return [
            m.get,
            m.remove,
            m.pop,
            m.add,
            m.setdefault,
            m.__getitem__,
            m.__delitem__,
            lambda key: m.get(key, 1),
            lambda key: m.pop(key, 1),
            lambda key: m.__setitem__(key, 1),
            lambda key: m.compute(key, lambda n: 1),
            lambda key: m.compare_exchange(key, None, 1),
            lambda key: m.replace_if(key, 1, 2),
            lambda key: m.remove_if(key, 1),
            *(lambda key, call=call: call(key, 1) for call in self.writes(m)),
            *(lambda key, call=call: call([3, key]) for call in (m.add_many, m.get_many)),
            lambda key: m.put_many([3, key], 1),
            lambda key: m.update([(3, 3), (key, 1)]),
            lambda key: m.fromkeys([key]),
            lambda key: Map({key: 1}),
        ]

    def writes(self, m: Any) -> list[Any]:
        return [m.put, m.put_if_absent, m.replace, m.add, m.fetch_max, m.fetch_min, m.setdefault]

    def test_keys(self):
        m = Map({1: 2})
        for call in self.calls_of_a_key(m):
            for key in (-1, KEY_MAX + 1, 2**64, -(10**30)):
                self.assertRaises(OverflowError, call, key)
            for wrong in (1.0, "a", None, b"1", (1,), m):
                self.assertRaises(TypeError, call, wrong)
            self.assertEqual(m.snapshot(), {1: 2})

    def test_numbers(self):
        m: Any = Map({1: 2})
        calls: list[Callable[[Any], Any]] = [
            *(lambda number, call=call: call(1, number) for call in self.writes(m)),
            *(lambda number, call=call: call(9, number) for call in self.writes(m)),
            lambda number: m.__setitem__(1, number),
            lambda number: m.replace_if(1, number, 3),
            lambda number: m.replace_if(1, 2, number),
            lambda number: m.remove_if(1, number),
            *(lambda number, call=call: call([1, 2], number) for call in (m.put_many, m.add_many)),
            *(lambda number, call=call: call([1, 2], [1, number]) for call in (m.put_many, m.add_many)),
            lambda number: m.update({1: 3, 2: number}),
            lambda number: Map({1: number}),
        ]
        for call in calls:
            for number in (-1, VALUE_MAX + 1, 2**64):
                self.assertRaises(OverflowError, call, number)
            for wrong in (2.0, "a", None, [None]):
                self.assertRaises(TypeError, call, wrong)
            self.assertEqual(m.snapshot(), {1: 2})
        for words in ((1, -1, 2), (1, 2, -1), (1, 2, VALUE_MAX + 1)):
            self.assertRaises(OverflowError, m.compare_exchange, *words)
        self.assertRaises(TypeError, m.compare_exchange, 1, 2, 3.0)

    def test_texts(self):
        m: Any = Map({1: VALUE_MAX})
        for call, text in [
            (lambda: m[-1], "a key is from 0 to 2**64 - 3, not -1"),
            (lambda: m.put(1, 2**60), "a value is from 0 to 2**60 - 1, not 1152921504606846976"),
            (lambda: m[1.5], "a key is a whole number, not float"),
            (lambda: m.add(1, "a"), "a value is a whole number, not str"),
            (lambda: m[10**5000], "a key is from 0 to 2**64 - 3"),
            (lambda: m.add(1), "the sum is past 2**60 - 1"),
            (lambda: m.add_many([2, 1, 3]), "keys[1] is 1: the sum is past 2**60 - 1; the 1 calls before it were made"),
            (lambda: m.add_many([3, -2]), "keys[1] is -2: a key is from 0 to 2**64 - 3"),
            (lambda: m.add_many([3, KEY_MAX + 1]), "keys[1] is 18446744073709551614: a key is from 0 to 2**64 - 3"),
            (lambda: m.add_many([10**5000]), "keys[0] is too long to be shown: a key is from 0 to 2**64 - 3"),
            (lambda: m.get_many(array("q", [3, -2])), "keys[1] is -2: a key is from 0 to 2**64 - 3"),
            (lambda: m.get_many(array("Q", [3, 2**64 - 2])), "keys[1] is 18446744073709551614: a key is from 0 to 2**64 - 3"),
            (lambda: m.add_many(array("i", [3, 4, -2])), "keys[2] is -2: a key is from 0 to 2**64 - 3"),
            (lambda: m.put_many([3, 4, "a"], 1), "keys[2] is of type str: a key is a whole number"),
            (lambda: m.put_many("34", 1), "keys[0] is of type str: a key is a whole number"),
            (lambda: m.add_many([3, 4], [1, 2.0]), "values[1] is of type float: a value is a whole number"),
            (lambda: m.add_many([3, 4], [1, 2**60]), "values[1] is 1152921504606846976: a value is from 0 to 2**60 - 1"),
            (lambda: m.add_many([3, 4], array("l", [1, -1])), "values[1] is -1: a value is from 0 to 2**60 - 1"),
            (lambda: m.add_many([3, 4], -1), "a value is from 0 to 2**60 - 1, not -1"),
            (lambda: m.update({3: 1, 4: -1}), "values[1] is -1: a value is from 0 to 2**60 - 1"),
            (lambda: m.update([(3, 1), (4, 1, 1)]), "pairs[1] isn't a key and a value: too many values to unpack (expected 2)"),
            (lambda: m.update([(3, 1), 4]), "pairs[1] isn't a key and a value: cannot unpack non-iterable int object"),
            (lambda: m.add_many(collections.Counter("a")), "keys[0] is of type str: a key is a whole number"),
            (lambda: m.put_many([3, 4], [1]), "there are 2 keys, and 1 values"),
            (lambda: m.put_many(memoryview(bytes(16)).cast("Q", (1, 2)), 1), "a buffer has one dimension, not 2"),
            (lambda: m.put(1), "put() takes 2 arguments, not 1"),
            (lambda: m.add(), "add() takes 1 or 2 arguments, not 0"),
            (lambda: Map(keys="hashed"), "keys are one of 'secret', 'mixed', 'as they are', not 'hashed'"),
            (lambda: Map(growth=1), "growth: from 2 to 64 times, not 1"),
            (lambda: Map(threads=1000), "threads: at most 240, not 1000"),
            (lambda: Map(threads=-1), "threads: at most 240, not -1"),
            (lambda: Map(threads=2**32), "threads: at most 240, not 4294967296"),
            (lambda: Map(threads=1.5), "threads is a whole number, not float"),  # type: ignore[arg-type]
            (lambda: Map(growth=-1), "growth: from 2 to 64 times, not -1"),
            (lambda: Map(room=2**28), "room: for at most 178956970 keys, not 268435456"),
            (lambda: Map(room=2**64), "room: for at most 178956970 keys, not 18446744073709551616"),
            (lambda: Map(memory=-1), "memory: from 0 to 2**64 - 1, not -1"),
            (lambda: Map(memory=65535), "memory: at least that of two first tables, so that a map can be cleared and renewed; "
             "with the default room 65536, not 65535"),
            (lambda: samvolip.Map.__new__(Map).get(1), "the map isn't open: its __init__ wasn't called"),
        ]:
            with self.assertRaises((OverflowError, TypeError, ValueError)) as raised:
                call()
            self.assertEqual(str(raised.exception), text)
        self.assertEqual(m.snapshot(), {1: VALUE_MAX, 2: 1})

    def test_arguments(self):
        m: Any = Map()
        for call in (m.get, m.put, m.put_if_absent, m.replace, m.add, m.fetch_max, m.fetch_min, m.setdefault, m.pop):
            self.assertRaises(TypeError, call)
            self.assertRaises(TypeError, call, 1, 2, 3)
        for call in (m.replace_if, m.remove_if, m.compare_exchange, m.remove, m.compute, m.put_many, m.get_many, m.add_many, m.renew):
            self.assertRaises(TypeError, call, *range(4))
        for call in (m.clear, m.size_estimate, m.snapshot, m.figures, m.leave, m.popitem, m.copy, m.snapshot_arrays):
            self.assertRaises(TypeError, call, 1)
        self.assertRaises(TypeError, m.put, 1)
        for wrong in (5, [1], [(1, 2, 3)]):
            self.assertRaises((TypeError, ValueError), m.update, wrong)

    def test_options(self):
        for name, number in [("room", 2**28), ("growth", 1), ("growth", 65), ("threads", 241)]:
            self.assertRaises(ValueError, Map, **{name: number})
        for name, number in [("room", 2**64), ("memory", -1), ("growth", 2**32), ("threads", -1)]:
            self.assertRaises(OverflowError, Map, **{name: number})
        self.assertRaises(TypeError, Map, room=1.5)
        self.assertRaises(TypeError, Map, hello=1)
        self.assertRaises(ValueError, Map.__init__, Map())
        self.assertEqual(Map(room=10_000, memory=2**20, growth=2, threads=1, keys="mixed").figures().slots, 16384)

    def test_memory(self):
        m = Map(memory=2**16)
        with self.assertRaises(MemoryError) as raised:
            for key in range(100_000):
                m[key] = key
        text = "the map gets no memory: the system refuses it, or its option memory does"
        self.assertEqual(str(raised.exception), text)
        count = len(m)
        self.assertTrue(1000 < count < 4096)
        with self.assertRaises(MemoryError) as raised:
            m.put_many(range(100_000, 200_000), 5)
        made = int(re.search(r"the (\d+) calls before it were made", str(raised.exception))[1])  # type: ignore[index]
        self.assertEqual((len(m), m[0]), (count + made, 0))
        self.assertEqual(str(raised.exception), f"keys[{made}] is {100_000 + made}: {text}; the {made} calls before it were made")
        self.assertRaisesRegex(MemoryError, text, m.renew, 2**62)
        self.assertTrue(m.figures().refused > 0)
        while len(m) > 500:
            m.popitem()
        m.renew()
        m.update(dict.fromkeys(range(10**6, 10**6 + 500), 1))
        self.assertRaises(ValueError, Map, memory=1)


class Mapping(unittest.TestCase):
    """What is expected of any MutableMapping."""

    def test_kind(self):
        m = Map({1: 2})
        self.assertTrue(isinstance(m, MutableMapping))
        self.assertRaises(TypeError, hash, m)
        with self.assertRaises(AttributeError):
            m.other = 1  # type: ignore[attr-defined]
        match m:
            case {1: two}:
                self.assertEqual(two, 2)
            case _:
                self.fail()
        self.assertEqual(collections.ChainMap({3: 4}, m)[1], 2)
        self.assertTrue(weakref.ref(m)() is m)

    def test_equal(self):
        m = Map({1: 2, 3: 4})
        self.assertTrue(m == {3: 4, 1: 2} and {3: 4, 1: 2} == m and m == Map([(1, 2), (3, 4)]) and m != {1: 2} and m != {"a": 1})
        self.assertTrue(m != [(1, 2)] and Map() == {} and not Map() and m)
        self.assertTrue(m != {1: 2, 5: 4} and m != {1: 2, 3: 5} and m != Map({1: 2, 3: 5}) and m != Map({1: 2, 5: 4}) and m != Map({1: 2}))
        self.assertTrue(m == collections.OrderedDict({3: 4, 1: 2}) and m == collections.ChainMap({1: 2}, {3: 4}) and m == {1.0: 2.0, 3: 4})
        zeros, missing = Map({1: 0, 3: 0}), collections.defaultdict(int, {1: 0, 5: 0})
        self.assertTrue(zeros != collections.Counter({1: 0, 5: 0}) and zeros != missing and len(missing) == 2)
        for kind in (lambda: random.randrange(5000), lambda: random.randrange(KEY_MAX)):
            values = {kind(): random.randrange(VALUE_MAX) for _ in range(3000)}
            m, other = Map(values), Map(values, keys="as they are")
            self.assertTrue(m == other == values and values == m)
            key = random.choice(list(values))
            other.add(key)
            self.assertTrue(m != other and other != values)
            other.remove(key)
            other[KEY_MAX] = values[key]
            self.assertTrue(m != other and other != values)

    def test_update(self):
        class HasKeys:
            def keys(self):
                return [1, 2]

            def __getitem__(self, key: int) -> int:
                return key * 10

        m = Map()
        views = (Map({7: 8}), Map({9: 1}).items())
        for pairs in ({1: 2}, [(3, 4)], iter([[5, 6]]), HasKeys(), *views, zip([11], [12]), collections.Counter([13])):
            m.update(pairs)  # type: ignore[arg-type]
        self.assertEqual(m, {1: 10, 2: 20, 3: 4, 5: 6, 7: 8, 9: 1, 11: 12, 13: 1})
        m.update(m)
        m.update()
        self.assertEqual((len(m), Map.fromkeys([1, 2]), Map.fromkeys(range(2), 5)), (8, {1: 0, 2: 0}, {0: 5, 1: 5}))

    def test_or(self):
        m = Map({1: 2})
        self.assertEqual((m | {1: 3, 4: 5}, {1: 3, 4: 5} | m, m), ({1: 3, 4: 5}, {1: 2, 4: 5}, {1: 2}))
        self.assertTrue(type(m | {}) is type({} | m) is Map)
        before = m
        m |= {6: 7}
        m |= [(8, 9)]
        self.assertTrue(before is m and m == {1: 2, 6: 7, 8: 9})
        for wrong in (lambda: m | [(1, 2)], lambda: [(1, 2)] | m):  # type: ignore[operator]
            self.assertRaises(TypeError, wrong)

    def test_views(self):
        m = Map({1: 2, 3: 4})
        keys, items, values = m.keys(), m.items(), m.values()
        m[5] = 4
        self.assertEqual((keys, sorted(values), items), ({1, 3, 5}, [2, 4, 4], {(1, 2), (3, 4), (5, 4)}))
        self.assertEqual((len(keys), keys & {1, 9, "a"}, {1, 9} - keys, keys | {9}, keys ^ {1}), (3, {1}, {9}, {1, 3, 5, 9}, {3, 5}))
        self.assertTrue(1 in keys and 2 not in keys and "a" not in keys and -1 not in keys and 1.0 not in keys)
        self.assertTrue((1, 2) in items and (1, 3) not in items and (2, 2) not in items and (1,) not in items and 1 not in items)
        self.assertTrue(4 in values and 3 not in values and "a" not in values and keys.isdisjoint({2}))
        self.assertEqual((items & {(1, 2), (1, 5)}, dict(m), dict(m.items()), {**m}), ({(1, 2)}, m, m, m))

    def test_copies(self):
        class Named(Map):
            def __init__(self, name: str) -> None:
                super().__init__({1: 2}, keys="mixed")
                self.name = name

        for m in (Map(), Map({1: 2}), Map(zip(range(5000), range(5000)), keys="as they are", growth=2), Named("a")):
            for other in (m.copy(), copy.copy(m), copy.deepcopy(m), *(pickle.loads(pickle.dumps(m, p)) for p in (2, 5) if type(m) is Map)):
                self.assertTrue(other == m and other is not m and type(other) is type(m) and other._options == m._options)
                other[10**6] = 1
                self.assertNotIn(10**6, m)
        self.assertEqual(Named("a").copy().name, "a")

    def test_repr(self):
        many = {key * 3: key for key in range(20_000)}
        self.assertEqual(eval(repr(Map(many))), many)
        self.assertEqual((repr(Map()), repr(Map({1: 2})), eval(repr(Map({3: 4, 1: 2})))), ("Map({})", "Map({1: 2})", {1: 2, 3: 4}))

    def test_popitem(self):
        numbers = {random.randrange(KEY_MAX): number for number in range(20_000)}
        m = Map(numbers)
        self.assertEqual(dict(m.popitem() for _ in range(len(numbers))), numbers)
        self.assertEqual((len(m), m.get(1)), (0, None))
        m[1] = 1
        self.assertEqual(m.popitem(), (1, 1))

    def test_most_common(self):
        m = Map()
        m.add_many(b"mississippi")
        self.assertEqual(set(m.most_common(2)), {(ord("s"), 4), (ord("i"), 4)})
        self.assertEqual(([n for _, n in m.most_common()], m.most_common(0)), ([4, 4, 2, 1], []))
        for kind in (lambda: random.randrange(5), lambda: random.randrange(2**60), lambda: 1 << random.randrange(60)):
            values = {random.randrange(KEY_MAX): kind() for _ in range(2000)}
            m = Map(values)
            entries = m.snapshot().items()
            for n in (None, 3, 1000, 5000, -1, 2**70):
                most = sorted(entries, key=lambda entry: entry[1], reverse=True)  # as of a Counter, also of those that are the same
                self.assertEqual(m.most_common(n), most if n is None else most[: max(n, 0)])
        self.assertRaises(TypeError, m.most_common, 1.5)


class Signatures(unittest.TestCase):
    """help and inspect.signature tell the parameters of each call; those of the extension are those of its stub."""

    # of object and of Mapping, and what has operators
    public = [name for name in dir(Map) if not name.startswith("_")]

    def test_of_all(self):
        shown = {name: str(inspect.signature(getattr(Map, name))) for name in self.public}
        self.assertEqual(shown["put"], "(self, key, value, /)")
        self.assertEqual(shown["add"], "(self, key, value=1, /)")
        self.assertEqual(shown["get"], "(self, key, default=None, /)")
        self.assertEqual(shown["clear"], "(self, /)")
        self.assertEqual(shown["pop"], "(self, key, default=Ellipsis, /)")
        self.assertIn("= 1, /)", shown["add_many"])
        self.assertEqual(str(inspect.signature(Map().compare_exchange)), "(key, expected, next, /)")
        self.assertFalse([name for name, parameters in shown.items() if "number" in parameters])
        for name in self.public:
            text = pydoc.render_doc(getattr(Map, name), renderer=pydoc.plaintext)  # type: ignore[attr-defined]
            self.assertIn(f"{name}(", text)
            self.assertTrue(getattr(Map, name).__doc__)
            self.assertNotIn("number", text.split("\n", 2)[2])

    def test_of_the_stub(self):
        stub = os.path.join(os.path.dirname(os.path.abspath(__file__)), "../samvolip/_map.pyi")
        with open(stub) as file:
            base = next(one for one in ast.parse(file.read()).body if isinstance(one, ast.ClassDef) and one.name == "Base")
        calls = [one for one in base.body if isinstance(one, ast.FunctionDef) and not one.name.startswith("__")]
        self.assertEqual({call.name for call in calls}, {name for name, one in vars(samvolip.Map.__base__).items() if callable(one)
                                                         and not name.startswith("__")})
        for call in calls:
            parameters = list(inspect.signature(getattr(Map, call.name)).parameters.values())
            names = [argument.arg for argument in (*call.args.posonlyargs, *call.args.args)]
            with self.subTest(call.name):
                self.assertEqual([one.name for one in parameters][: len(names)], names)
                for one, default in zip(parameters[::-1], call.args.defaults[::-1]):
                    self.assertEqual(one.default, ast.literal_eval(default))


class Loops(unittest.TestCase):
    """Walks: nested, while the map changes, and across renewals."""

    def test_nested(self):
        for kind in KINDS:
            m = Map(zip(range(100), range(100)), keys=kind)
            trips = [(a, b, c[0]) for a in m for b in m.values() for c in m.items() if c[0] % 10 == 0]
            self.assertEqual((len(trips), len(set(trips))), (100_000, 100_000))

    def test_changes(self):
        m = Map({key: 0 for key in range(1000)})
        for key in m:
            if key < 1000:
                del m[key]
                m[10**6 + key] = 1
        self.assertEqual(sum(1 for key in m if key < 1000), 0)
        shown = []
        for key in m:  # it stays with the tables in which it began
            if key % 100 == 0:
                m.renew(50_000)
                m[2 * 10**6 + key] = 1
            shown.append(key)
        self.assertEqual(sorted(shown), sorted(set(shown)))
        self.assertTrue(set(range(10**6, 10**6 + 1000)) <= set(shown))

    def test_ends(self):
        m = Map({1: 2})
        walk = iter(m.items())
        self.assertEqual((iter(walk) is walk, list(walk), list(walk)), (True, [(1, 2)], []))
        walk = iter(m.items())
        del m
        gc.collect()
        self.assertEqual(list(walk), [(1, 2)])

    def test_many_at_a_time(self):
        m = Map(zip(range(200), range(200)))
        walks = [iter(m) for _ in range(500)]
        for walk in walks:
            next(walk)
        m.clear()
        self.assertEqual((len(m), {len(list(walk)) for walk in walks}), (0, {199}))

    def test_of_many_threads(self):
        """Threads that go on with one walk each have other keys."""
        m = Map(zip(range(20_000), range(20_000)))
        walk = iter(m)
        shown: list[list[int]] = [[] for _ in range(4)]
        run_all(4, lambda number: shown[number].extend(walk))
        self.assertEqual(sorted(sum(shown, [])), list(range(20_000)))

    def test_of_another_thread(self):
        m = Map(zip(range(1000), range(1000)))
        walk = iter(m)
        shown = [next(walk) for _ in range(500)]
        run_all(1, lambda _: shown.extend(walk))
        self.assertEqual(sorted(shown), list(range(1000)))


class Whole(unittest.TestCase):
    """Calls of the whole map, and how it lives and ends."""

    def test_whole(self):
        m = Map(zip(range(5000), range(5000)))
        keys, numbers = m.snapshot_arrays()
        self.assertEqual((dict(zip(keys, numbers)), m.snapshot()), (m, {key: key for key in range(5000)}))
        self.assertEqual((len(m), m.size_estimate()), (5000, 5000))
        before = m.figures()
        m.renew(20_000)
        after = m.figures()
        told = (after.renewals - before.renewals, after.slots, after.keys, after.own_threads, after.refused)
        self.assertEqual(told, (1, 32768, 5000, 1, 0))
        self.assertTrue(0 < after.read_stop <= after.write_stop <= after.all_stops)
        m.leave()
        self.assertEqual((m.figures().own_threads, m[1]), (1, 1))
        m.clear()
        m.clear()
        self.assertEqual((len(m), list(m), m.snapshot(), m.figures().slots), (0, [], {}, 2048))

    def test_nothing_is_left(self):
        def work():
            m = Map(zip(range(2000), range(2000)))
            m.add_many(range(2000))
            for _ in range(30):
                for call in (m.get, m.remove, m.__getitem__):
                    self.assertRaises(TypeError, call, "a")
                m.pop(-0, None), m.compute(1, lambda n: 5), m.copy(), next(iter(m.items())), m == {}, m.get_many([1])
            pickle.loads(pickle.dumps(m))

        def used():
            gc.collect()
            return resource.getrusage(resource.RUSAGE_SELF).ru_maxrss

        key, number = 10**18, 10**17
        m = Map({key: number})
        counts = sys.getrefcount(key), sys.getrefcount(number), sys.getrefcount(None)
        for _ in range(1000):
            m[key] = number
            m.get(key, number), m.add(key, 1), m.setdefault(key, number), m.pop(key, number), m.pop(key, number), m.put(key, number)
            key in m, m.replace_if(key, 1, number), m.compare_exchange(key, None, None), m.get_many([key]), list(m.items())
        self.assertEqual((sys.getrefcount(key), sys.getrefcount(number)), counts[:2])
        if sys.version_info < (3, 12):  # later on None has no count
            self.assertTrue(abs(sys.getrefcount(None) - counts[2]) < 100)
        for _ in range(20):
            work()
        before = used()
        for _ in range(60):
            work()
        self.assertTrue(used() - before < 4096)

    def test_cycle(self):
        class Node(Map):
            pass

        m: Any = Node({1: 2})
        m.walk = iter(m)
        gone = weakref.ref(m)
        del m
        gc.collect()
        self.assertIsNone(gone())

    def test_many_maps(self):
        maps = [Map({number: 1}) for number in range(100)]
        run_all(8, lambda _: [m.add(number) for number, m in enumerate(maps)])
        self.assertEqual([m[number] for number, m in enumerate(maps)], [9] * 100)


class Batches(unittest.TestCase):
    """add_many, put_many and get_many."""

    def test_kinds(self):
        for keys in (
            [1, 2, 2],
            (1, 2, 2),
            iter([1, 2, 2]),
            bytes([1, 2, 2]),
            bytearray([1, 2, 2]),
            *(array(code, [1, 2, 2]) for code in "bBhHiIlLqQ"),
            memoryview(array("Q", [1, 0, 2, 0, 2]))[::2],
        ):
            m = Map()
            m.add_many(keys)
            self.assertEqual(m, {1: 1, 2: 2})
        m = Map()
        m.add_many([1, 2, 2], [10, 20, 30])
        m.add_many([], [])
        m.put_many(array("Q", [3, 4]), 5)
        m.put_many(range(5, 7), array("i", [6, 7]))
        self.assertEqual(m, {1: 10, 2: 50, 3: 5, 4: 5, 5: 6, 6: 7})
        found = m.get_many([1, 9, 2])
        self.assertEqual((found, found.typecode), (array("Q", [10, 0, 50]), "Q"))
        self.assertEqual((m.get_many([9], 2**64 - 1)[0], m.get_many(b"")), (2**64 - 1, array("Q")))
        self.assertRaises(OverflowError, m.get_many, [1], -1)

    def test_mappings(self):
        """The values of a mapping are added, unless others are given."""
        m, counts = Map({1: 10}), collections.Counter([1, 1, 2])
        m.add_many(counts)
        self.assertEqual(m, {1: 12, 2: 1})
        m.add_many(m)
        m.add_many(collections.ChainMap({3: 5}))
        self.assertEqual(m, {1: 24, 2: 2, 3: 5})
        m.add_many(counts, 1)
        m.add_many(m, 0)
        m.add_many(counts.keys())
        m.add_many({4: 0})
        self.assertEqual((m, m.get_many(counts), m[4]), ({1: 26, 2: 4, 3: 5, 4: 0}, array("Q", [26, 4]), 0))
        m.put_many({1: 5, 2: 6}, 7)
        self.assertEqual((m[1], m[2]), (7, 7))

    def test_numpy(self):
        try:
            numpy: Any = importlib.import_module("numpy")
        except ImportError:
            self.skipTest("no numpy here")
        m = Map()
        m.add_many(numpy.arange(1000, dtype=numpy.uint64))
        m.add_many(numpy.arange(1000), numpy.int64(3))
        m.put_many(numpy.arange(2000)[::2], numpy.arange(1000, dtype=numpy.uint32))
        self.assertEqual((len(m), m[1], m[numpy.int64(998)]), (1500, 4, 499))
        self.assertEqual(numpy.frombuffer(m.get_many([1, 4]), dtype=numpy.uint64).tolist(), [4, 2])
        self.assertRaises(OverflowError, m.add_many, numpy.arange(-1, 3))
        self.assertRaises(TypeError, m.add_many, numpy.array([1.5]))

    def test_threads(self):
        """The sums are exact while tables grow, and the interpreter goes on meanwhile."""
        m, keys = Map(), array("Q", range(50_000))
        turns, goes_on = [0], [True]

        def count():
            while goes_on[0]:
                turns[0] += 1

        counting = threading.Thread(target=count)
        counting.start()
        run_all(4, lambda _: m.add_many(keys * 10))
        goes_on[0] = False
        counting.join()
        self.assertEqual((len(m), set(m.values())), (50_000, {40}))
        self.assertTrue(turns[0] > 1000)

    def test_beside_a_dict(self):
        """Four threads' batches are several times as fast as four threads with a dict behind a lock."""
        m, numbers, lock, keys = Map(), dict.fromkeys(range(1000), 0), threading.Lock(), array("Q", range(1000)) * 50

        def batch(_: int) -> None:
            m.add_many(keys)

        def one_by_one(_: int) -> None:
            for key in keys:
                with lock:
                    numbers[key] += 1

        def best_of_three(work: Callable[[int], None]) -> float:
            times = []
            for _ in range(3):
                begun = time.perf_counter()
                run_all(4, work)
                times.append(time.perf_counter() - begun)
            return min(times)

        self.assertTrue(best_of_three(one_by_one) > 4 * best_of_three(batch))
        self.assertEqual(m, numbers)

    def test_interrupted(self):
        """A signal's handler raises in the middle of a batch."""

        def handler(*_: object) -> None:
            raise ZeroDivisionError

        m, keys = Map(), array("Q", range(2000)) * 1000
        signal.signal(signal.SIGALRM, handler)
        try:
            with self.assertRaises(ZeroDivisionError):
                signal.setitimer(signal.ITIMER_REAL, 0.005)
                for _ in range(1000):
                    m.add_many(keys)
        finally:
            signal.setitimer(signal.ITIMER_REAL, 0)
            signal.signal(signal.SIGALRM, signal.SIG_DFL)
        self.assertTrue(sum(m.values()) < len(keys) * 1000)


class Threads(unittest.TestCase):
    """Many threads, and renewals beside them."""

    def test_three_hundred(self):
        m, begin = Map(threads=16), threading.Barrier(300)

        def work(number: int) -> None:
            begin.wait()
            for i in range(200):
                m.add((i * 7 + number) % 100)
                self.assertTrue(m[(i * 7 + number) % 100] >= 1)

        run_all(300, work)
        self.assertEqual((len(m), sum(m.values())), (100, 60_000))

    def test_come_and_go(self):
        m = Map(threads=4)
        for _ in range(100):
            run_all(6, lambda _: m.add(1))
        self.assertEqual(m[1], 600)

    def test_renewals(self):
        m, goes_on = Map(), [True]

        def renew():
            room = 0
            while goes_on[0]:
                room = (room + 7919) % 50_000
                m.renew(room)

        renewing = threading.Thread(target=renew)
        renewing.start()
        rounds = [0] * 6

        def work(number: int) -> None:
            mine = 1000 + number
            while m.figures().renewals < 50 or rounds[number] < 5:
                for i in range(500):
                    m.add(i)
                    self.assertEqual(m.put(mine, i), None if rounds[number] + i == 0 else (i - 1) % 500)
                m.add_many(range(500))
                rounds[number] += 1
                self.assertEqual(m[mine], 499)
                self.assertTrue(mine in set(m) and mine in m.snapshot() and len(m) >= 501)

        try:
            run_all(6, work)
        finally:
            goes_on[0] = False
            renewing.join()
        self.assertEqual((len(m), {m[key] for key in range(500)}), (506, {2 * sum(rounds)}))

    @unittest.skipUnless(HAS_LOCK, "there is no interpreter's lock")
    def test_lets_go(self):
        """A put that makes the map anew, or waits for that, lets go of the interpreter's lock, and no other call of a key does."""
        m, turns, goes_on = Map(threads=2), [0], [True]

        def count():
            while goes_on[0]:
                turns[0] += 1
                time.sleep(0)

        interval, counting = sys.getswitchinterval(), threading.Thread(target=count)
        sys.setswitchinterval(1000)  # only who lets go of it gives a turn to others
        try:
            counting.start()
            while turns[0] == 0:
                time.sleep(0)
            before = turns[0]
            for key in range(200):
                m[key] = key
                m.add(key)
            self.assertEqual((turns[0], m.figures().renewals), (before, 0))
            before = turns[0]
            while turns[0] == before and key < 3_000_000:  # at the first renewal, unless the machine is busy
                key += 1
                m[key] = key
            self.assertTrue(turns[0] > before)
        finally:
            sys.setswitchinterval(interval)
            goes_on[0] = False
            counting.join()
        self.assertEqual(len(m), key + 1)

        # who puts by one key waits for who renews by another: none of them keeps the lock from the others
        m = Map(growth=2, threads=2)
        run_all(6, lambda number: [m.put(number + 6 * i, i) for i in range(30_000)])
        self.assertEqual((len(m), sum(m.values())), (180_000, 6 * sum(range(30_000))))

    def test_exit(self):
        """The interpreter ends while threads renew a map, wait for that, and are in batches."""
        program = """if True:
            import threading, time
            from samvolip import Map
            m = Map(growth=2)
            def put(key):
                while True:
                    m[key] = key
                    key += 8
                    if key % 4096 < 8:
                        m.clear()
            def add():
                while True:
                    m.add_many(range(20_000))
            works = [threading.Thread(target=put, args=(key,), daemon=True) for key in range(4)]
            for work in [*works, threading.Thread(target=add, daemon=True)]:
                work.start()
            time.sleep(0.1)"""
        paths = {**os.environ, "PYTHONPATH": os.path.dirname(os.path.dirname(samvolip.__file__))}
        for _ in range(3):
            ran = subprocess.run([sys.executable, "-c", program], capture_output=True, text=True, env=paths, cwd="/", timeout=60)
            self.assertEqual((ran.returncode, ran.stdout, ran.stderr), (0, "", ""))

    def test_contended(self):
        m = Map()
        interval = sys.getswitchinterval()
        sys.setswitchinterval(1e-5)
        try:
            run_all(4, lambda _: [m.compute(1, lambda n: (n or 0) + 1) for _ in range(2000)])
            run_all(4, lambda number: [m.fetch_max(2, i * 4 + number) for i in range(2000)])
        finally:
            sys.setswitchinterval(interval)
        self.assertEqual((m[1], m[2]), (8000, 7999))

    def test_popitem(self):
        """Each key is taken once."""
        m, taken = Map(zip(range(20_000), range(20_000))), []

        def work(_: int) -> None:
            try:
                while True:
                    taken.append(m.popitem())
            except KeyError:
                pass

        run_all(8, work)
        self.assertEqual((len(taken), len(dict(taken)), len(m)), (20_000, 20_000, 0))

    def test_signals(self):
        """A handler that comes between two calls calls the same map."""
        m, came = Map(), []
        signal.signal(signal.SIGALRM, lambda *_: came.append(m.add(2) or 0))
        signal.setitimer(signal.ITIMER_REAL, 0.0002, 0.0002)
        for i in range(20_000):
            self.assertEqual((m.add(1) or 0, m[1]), (i, i + 1))
        signal.setitimer(signal.ITIMER_REAL, 0)
        signal.signal(signal.SIGALRM, signal.SIG_DFL)
        self.assertEqual((sorted(came), m.get(2, 0)), (list(range(len(came))), len(came)))


def child(m: Map, number: int) -> dict[int, int]:
    """What another process makes of a map that it was sent, or has of its own since a fork."""
    m.add(number)
    run_all(3, lambda _: m.add(number))
    m.renew()
    return m.snapshot()


class Forks(unittest.TestCase):
    """The child has a map of its own, as it was at the fork."""

    def test_fork_under_load(self):
        m, goes_on = Map(zip(range(1000), range(1000))), [True]

        def work(number: int) -> None:
            while goes_on[0]:
                m.add_many(range(2000, 2300))
                m.add(10**6 + number)
                len(m)

        threads = [threading.Thread(target=work, args=(number,)) for number in range(4)]
        for thread in threads:
            thread.start()
        statuses = []
        for _ in range(10):
            pid = os.fork()
            if pid == 0:
                signal.alarm(60)
                count = len(m)
                well = all(m[key] == key for key in range(1000)) and child(m, 5)[5] == 9 and len(m) == len(set(m)) == count
                m.update({key: 1 for key in range(10_000)})
                os._exit(0 if well and len(m) >= 10_000 else 1)
            statuses.append(os.waitpid(pid, 0)[1])
        goes_on[0] = False
        for thread in threads:
            thread.join()
        self.assertEqual(statuses, [0] * 10)
        self.assertEqual((m[5], len(m)), (5, 1304))

    def test_others_go_on_while_a_fork_waits(self):
        m, goes_on, ticks = Map(room=1_500_000), [True], [0]
        made: list[int] = []  # ticks during the forks that have waited for a renewal
        m.put_many(range(1_500_000), 1)

        def renew() -> None:
            while goes_on[0]:
                m.renew()
                time.sleep(0.05)

        def tick() -> None:
            while goes_on[0]:
                ticks[0] += 1
                time.sleep(0.001)

        threads = [threading.Thread(target=work, daemon=True) for work in (renew, tick)]
        for thread in threads:
            thread.start()
        for _ in range(20):
            before, began = ticks[0], time.monotonic()
            pid = os.fork()
            if pid == 0:
                os._exit(0)
            if time.monotonic() - began > 0.1:
                made.append(ticks[0] - before)
            self.assertEqual(os.waitpid(pid, 0)[1], 0)
            if len(made) == 3:
                break
            time.sleep(0.02)
        goes_on[0] = False
        for thread in threads:
            thread.join()
        self.assertGreater(max(made, default=4), 3)

    def test_multiprocessing(self):
        m = Map({1: 2})
        for method in ("fork", "spawn"):
            with multiprocessing.get_context(method).Pool(2) as pool:
                self.assertEqual(pool.starmap(child, [(m, 1), (m, 7)]), [{1: 6}, {1: 2, 7: 4}])
        self.assertEqual(m, {1: 2})


class Page(unittest.TestCase):
    """The programs of the page print what it says."""

    def test_page(self):
        with open(PAGE) as file:
            blocks = re.findall(r"(?:^    .*\n|^\n(?=    ))+", file.read(), re.M)
        blocks = [re.sub(r"^    ", "", block, flags=re.M).strip("\n") for block in blocks]
        programs = [number for number, block in enumerate(blocks) if re.match(r"# \w+\.py: ", block)]
        self.assertEqual(len(programs), 2)
        with tempfile.TemporaryDirectory() as folder:
            for number in programs:
                path = f"{folder}/program.py"
                with open(path, "w") as file:
                    file.write(blocks[number])
                paths = {**os.environ, "PYTHONPATH": os.path.dirname(os.path.dirname(samvolip.__file__))}
                ran = subprocess.run([sys.executable, path], capture_output=True, text=True, env=paths)
                self.assertEqual((ran.stderr, ran.stdout.strip("\n")), ("", blocks[number + 1]))


if __name__ == "__main__":
    unittest.main()
