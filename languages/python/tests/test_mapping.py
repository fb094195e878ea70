"""CPython's own tests of a mapping (test.mapping_tests) over Map, with whole numbers for keys and numbers.

Those that every mapping has to pass run as they are. Those of dicts have strings in them: they run with a number in the place of
each string, but for LEFT_OUT, which says why.
"""

from __future__ import annotations

import ast
import inspect
import sys
import types
import unittest
from typing import Any

from samvolip import Map

try:
    from test import mapping_tests  # type: ignore[import]
except ImportError:
    print("python: test.mapping_tests isn't here: CPython's tests of a mapping were left out")
    sys.exit()

LEFT_OUT = {
    "test_constructor": "keywords are keys there",
    "test_update": "keywords are keys there",
    "test_fromkeys": "None is a number there",
    "test_setdefault": "None and lists are numbers there",
    "test_popitem": "two dicts with the same keys have the same order there; a map has a secret",
    "test_eq": "an object with a strange == is a key there",
    "test_mutatingiteration": "a loop goes on there only if the map stays as it is",
    "test_repr": "a dict shows no name, and may be in itself",
    "test_repr_deep": "a dict is a number there",
}
# these make the calls of the class below and then have objects with a strange hash for keys
BELOW = {"test_getitem", "test_pop"}


class Numbers(ast.NodeTransformer):
    """Puts a number in the place of each string that isn't the name of an attribute."""

    def __init__(self) -> None:
        self.numbers: dict[str, int] = {}

    def visit_Constant(self, node: ast.Constant) -> ast.Constant:
        if isinstance(node.value, str) and not node.value.startswith("__"):
            number = self.numbers.setdefault(node.value, 1000 + len(self.numbers))
            return ast.copy_location(ast.Constant(number), node)
        return node


def with_numbers() -> Any:
    """The module, with numbers for strings."""
    tree = Numbers().visit(ast.parse(inspect.getsource(mapping_tests)))
    made = types.ModuleType("mapping_tests_of_numbers")
    exec(compile(ast.fix_missing_locations(tree), "mapping_tests_of_numbers", "exec"), made.__dict__)
    return made


class OfAnyMapping(mapping_tests.BasicTestMappingProtocol):
    type2test = Map

    def _reference(self):
        return {1: 2, 2**64 - 3: 2**60 - 1, 0: 0}


class OfDicts(with_numbers().TestHashMappingProtocol):  # type: ignore[misc]
    type2test = Map

    def _reference(self):
        return {1: 2, 2**64 - 3: 2**60 - 1, 0: 0}


def skipped(reason: str) -> Any:
    return unittest.skip(reason)(lambda self: None)


for name, reason in LEFT_OUT.items():
    setattr(OfDicts, name, skipped(reason))
for name in BELOW:
    setattr(OfDicts, name, getattr(OfDicts.__mro__[2], name))

if __name__ == "__main__":
    tests = unittest.defaultTestLoader.loadTestsFromModule(sys.modules["__main__"])
    count = tests.countTestCases() - len(LEFT_OUT)
    if not unittest.TextTestRunner().run(tests).wasSuccessful():
        sys.exit(1)
    print(f"python: {count} of CPython's tests of a mapping pass, {len(LEFT_OUT)} don't fit")
