"""A concurrent map from whole numbers to whole numbers, for any thread. docs/python.md tells how to use it.

    from samvolip import Map

    counts = Map()
    counts.add(7)  # from any thread
    print(counts[7])

The calls of a key are those of src/_map.c. Here is what a MutableMapping has beside them.
"""

from __future__ import annotations

import copy
import itertools
import os
import weakref
from array import array
from collections.abc import Callable, ItemsView, Iterable, Iterator, KeysView, Mapping, MutableMapping, ValuesView
from typing import Any, NamedTuple, Protocol, SupportsIndex, TypeVar

from ._map import KEY_MAX, VALUE_MAX, VERSION, Base, Walk, are_equal, check_signs, column, dict_of, most_common, read_words

__all__ = ["KEY_MAX", "VALUE_MAX", "Figures", "Map"]
__version__ = f"{VERSION >> 16}.{VERSION >> 8 & 255}.{VERSION & 255}"

_KINDS = {"secret": 0, "mixed": 1, "as they are": 2}  # what becomes of keys, as SAMVOLIP_KEYS_SECRET and so on
_KEYS, _VALUES, _ITEMS = range(3)  # what a Walk shows; the first two also say what numbers are
_SOME = 1 << 13  # what is copied or shown by pieces of so many, so that other threads go on between them, and signals are answered

_Self = TypeVar("_Self", bound="Map")


class _HasKeys(Protocol):
    """What dict.update takes, beside pairs."""

    def keys(self) -> Iterable[Any]: ...

    def __getitem__(self, key: Any) -> SupportsIndex: ...


class Figures(NamedTuple):
    """What happened to a map so far, and how large it is. Times are in nanoseconds."""

    renewals: int  # how often it was made anew
    refused: int  # renewals that were refused memory
    write_stop: int  # the longest time that writes had to wait for a renewal or the like
    read_stop: int  # the same of reads
    all_stops: int  # all those times of writes together
    slots: int  # of the table in use; each takes 16 bytes
    keys: int  # about how many there are
    own_threads: int  # threads that have a way of their own into the map


class _One(int):
    """A 1 that is told from the caller's: it stands for the values of a mapping where a mapping is given."""


_ONE_EACH = _One(1)


def _pieces(of: Any, size: int = _SOME) -> Iterator[Any]:
    """What is in a memoryview or the like, by pieces."""
    return (of[at : at + size] for at in range(0, len(of), size))


def _words(numbers: Any, kind: int) -> bytearray:
    """Whole numbers as words of 64 bits, one after another: a copy, so that nobody changes them meanwhile. kind: _KEYS or _VALUES."""
    try:
        view = memoryview(numbers)
    except TypeError:
        return read_words(numbers, kind)
    with view:
        if view.ndim != 1:
            raise TypeError(f"a buffer has one dimension, not {view.ndim}")
        form = view.format.lstrip("@=<")
        if view.itemsize != 8 or form not in ("Q", "L", "N", "q", "l", "n"):
            return read_words(itertools.chain.from_iterable(piece.tolist() for piece in _pieces(view)), kind)
        made = bytearray()
        for piece in _pieces(view):
            made += piece.tobytes()
    if form.islower():
        check_signs(made, kind)
    return made


def _value_or_words(values: SupportsIndex | Iterable[SupportsIndex]) -> SupportsIndex | bytearray:
    """One value for all keys, or as many as there are keys."""
    return _words(values, _VALUES) if isinstance(values, Iterable) else values


def _array(words: bytearray) -> array[int]:
    made = array("Q")
    for piece in _pieces(words, 8 * _SOME):
        made.frombytes(piece)
    return made


def _columns(pairs: Iterable[Any]) -> tuple[list[Any], list[Any]]:
    """The keys and the values of pairs."""
    keys, values = [], []
    for place, pair in enumerate(pairs):
        try:
            key, value = pair
        except (TypeError, ValueError) as error:
            raise type(error)(f"pairs[{place}] isn't a key and a value: {error}") from None
        keys.append(key)
        values.append(value)
    return keys, values


class _Keys(KeysView[int]):
    _mapping: Map

    def __contains__(self, key: object) -> bool:
        return key in self._mapping

    def __iter__(self) -> Iterator[int]:
        return Walk(self._mapping, _KEYS)


class _Items(ItemsView[int, int]):
    _mapping: Map

    def __contains__(self, item: object) -> bool:
        if not isinstance(item, tuple) or len(item) != 2 or item[0] not in self._mapping:
            return False
        value = self._mapping.get(item[0])
        return value is not None and value == item[1]

    def __iter__(self) -> Iterator[tuple[int, int]]:
        return Walk(self._mapping, _ITEMS)


class _Values(ValuesView[int]):
    _mapping: Map

    def __contains__(self, value: object) -> bool:
        return any(value == one for one in self)

    def __iter__(self) -> Iterator[int]:
        return Walk(self._mapping, _VALUES)


_maps: weakref.WeakValueDictionary[int, Map] = weakref.WeakValueDictionary()
_LARGE = 1 << 17  # slots of a table, from which on a renewal takes milliseconds


def _before_fork() -> None:
    """A fork waits for renewals, and has the interpreter's lock. So those of large maps are waited for here, without it."""
    for map_of in _maps.valuerefs():
        one = map_of()
        if one is not None and one.figures().slots >= _LARGE:
            len(one)


if hasattr(os, "register_at_fork"):
    os.register_at_fork(before=_before_fork)


class Map(Base, MutableMapping[int, int]):  # type: ignore[misc]
    """A map that any thread may call. Keys go from 0 to KEY_MAX, values to VALUE_MAX.

    Each call is one step for all threads, but for those that docs/python.md names. What isn't a whole number is refused by
    TypeError, a key or a value out of range by OverflowError, and a write that gets no memory by MemoryError; it has changed nothing then.

    Loops may lie in one another, and the map may change meanwhile: no key comes twice, and each that stays in the map comes.
    """

    __slots__ = ("__weakref__", "_options", "_shown")
    _options: tuple[SupportsIndex, ...]
    _shown: list[int]  # keys for popitem to try, which the map had

    def __init__(
        self,
        pairs: _HasKeys | Iterable[tuple[SupportsIndex, SupportsIndex]] = (),
        /,
        *,
        room: SupportsIndex = 0,
        memory: SupportsIndex = 0,
        growth: SupportsIndex = 0,
        threads: SupportsIndex = 0,
        keys: str = "secret",
    ) -> None:
        """A map of these entries. 0 stands for the default.

        room: for how many keys there is room at first, and at least: 1000.
        memory: how many bytes tables take at most, old and new ones together: any number. At least two first tables: 65536 with
            the default room.
        growth: a renewal makes room for so many times the keys that there are, 2 to 64: 4.
        threads: how many threads have a way of their own into the map, up to 240: 64. Others share six.
        keys: "secret", they are mixed with a secret of the map; "mixed", they are mixed; "as they are", nothing.
        """
        if keys not in _KINDS:
            raise ValueError(f"keys are one of {', '.join(map(repr, _KINDS))}, not {keys!r}")
        self._open((room, memory, growth, threads, _KINDS[keys]))
        self.update(pairs)

    def _open(self, options: tuple[SupportsIndex, ...]) -> None:
        super().__init__(*options)
        self._options, self._shown = options, []
        _maps[id(self)] = self

    @classmethod
    def fromkeys(cls: type[_Self], keys: Iterable[SupportsIndex], value: SupportsIndex = 0, /) -> _Self:
        """A map with this value at each of the keys."""
        made = cls()
        made.put_many(keys, value)
        return made

    def compute(self, key: SupportsIndex, function: Callable[[int | None], int | None], /) -> int | None:
        """Puts at a key what the function makes of the value there. None is no value, before and after. What it made.

        If others write the key meanwhile, the function is called again, with what is there then. It may call the map.
        """
        before = self.get(key)
        while True:
            after = function(before)
            found = self.compare_exchange(key, before, after)
            if found == before:
                return after
            before = found

    def popitem(self) -> tuple[int, int]:
        """Takes some key out, with its value. KeyError if there is none."""
        while True:
            try:
                key = self._shown.pop()
            except IndexError:
                shown = list(itertools.islice(self, max(1000, self.size_estimate() // 64)))
                if not shown:
                    raise KeyError("popitem(): the map is empty") from None
                self._shown = shown
                continue
            value = self.remove(key)
            if value is not None:
                return key, value

    # walks

    def __iter__(self) -> Iterator[int]:
        return Walk(self, _KEYS)

    def keys(self) -> KeysView[int]:
        """The keys: a set, of which a loop is a walk."""
        return _Keys(self)

    def values(self) -> ValuesView[int]:
        """The values, of which a loop is a walk."""
        return _Values(self)

    def items(self) -> ItemsView[int, int]:
        """The keys with their values: a set, of which a loop is a walk."""
        return _Items(self)

    # many keys. While a batch runs, other threads of the interpreter go on

    def put_many(self, keys: Iterable[SupportsIndex], values: SupportsIndex | Iterable[SupportsIndex], /) -> None:
        """Puts a value at each key: one for all, or as many as there are keys. Each put is a step of its own."""
        self._put_words(_words(keys, _KEYS), _value_or_words(values))

    def add_many(
        self,
        keys: Mapping[SupportsIndex, SupportsIndex] | Iterable[SupportsIndex],
        values: SupportsIndex | Iterable[SupportsIndex] = _ONE_EACH,
        /,
    ) -> None:
        """Adds a value at each key: one for all, or as many as there are keys. Each add is a step of its own.

        Of a mapping alone, as a Counter, the values are added, each at its key.
        """
        given: Any = keys
        if values is _ONE_EACH and isinstance(given, Mapping):
            given, values = given.snapshot_arrays() if isinstance(given, Map) else _columns(given.items())
        self._add_words(_words(given, _KEYS), _value_or_words(values))

    def get_many(self, keys: Iterable[SupportsIndex], default: SupportsIndex = 0, /) -> array[int]:
        """The value at each key, or the default, which is a word of 64 bits."""
        return _array(self._get_words(_words(keys, _KEYS), default))

    def update(self, pairs: _HasKeys | Iterable[tuple[SupportsIndex, SupportsIndex]] = (), /) -> None:  # type: ignore[override]
        """Puts the values of another mapping, or of pairs. All are read first; then each put is a step of its own."""
        given: Any = pairs
        if isinstance(given, Map):
            self.put_many(*given.snapshot_arrays())
            return
        if isinstance(given, Mapping):
            given = given.items()
        elif hasattr(given, "keys"):
            given = [(key, given[key]) for key in given.keys()]
        self.put_many(*_columns(given))

    # the whole map. Meanwhile other threads of the interpreter go on, too, and signals are answered

    def snapshot(self) -> dict[int, int]:
        """All entries of one moment."""
        return dict_of(self._snapshot_words())

    def snapshot_arrays(self) -> tuple[array[int], array[int]]:
        """The keys of one moment, and their values."""
        entries = self._snapshot_words()
        return _array(column(entries, _KEYS)), _array(column(entries, _VALUES))

    def __eq__(self, other: object) -> bool:
        if isinstance(other, Map):
            return are_equal(self._snapshot_words(), other._snapshot_words())
        if not isinstance(other, Mapping):
            return NotImplemented
        return are_equal(self._snapshot_words(), other if isinstance(other, dict) else dict(other.items()))

    def __or__(self: _Self, other: Mapping[int, int]) -> _Self:
        if not isinstance(other, Mapping):
            return NotImplemented
        made = self.copy()
        made.update(other)
        return made

    def __ror__(self: _Self, other: Mapping[int, int]) -> _Self:
        if not isinstance(other, Mapping):
            return NotImplemented
        made = _made(type(self), self._options)
        made.update(other)
        made.update(self)
        return made

    def __ior__(self: _Self, pairs: _HasKeys | Iterable[tuple[SupportsIndex, SupportsIndex]]) -> _Self:  # type: ignore[misc]
        self.update(pairs)
        return self

    def __repr__(self) -> str:
        entries = self._snapshot_words()
        shown = (repr(dict_of(piece))[1:-1] for piece in _pieces(entries, 16 * _SOME))
        return f"{type(self).__name__}({{{', '.join(shown)}}})"

    def copy(self: _Self) -> _Self:
        """A map of its own, with the entries of one moment and the same options."""
        return copy.copy(self)

    def __reduce__(self) -> tuple[Any, ...]:
        return _made, (type(self), self._options, *self.snapshot_arrays()), getattr(self, "__dict__", None)

    def most_common(self, n: SupportsIndex | None = None, /) -> list[tuple[int, int]]:
        """The n keys with the greatest values, or all, of one moment: the greatest first."""
        return most_common(self._snapshot_words(), n)

    def figures(self) -> Figures:
        """What happened so far, and how large the map is."""
        return Figures(*self._look())


def _made(cls: type[_Self], options: tuple[SupportsIndex, ...], keys: Iterable[int] = (), values: Iterable[int] = ()) -> _Self:
    """A map by its options, without a call of the class's own __init__."""
    made = cls.__new__(cls)
    made._open(options)
    made.put_many(keys, values)
    return made
