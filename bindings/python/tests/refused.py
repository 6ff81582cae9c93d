"""The native library's requests for memory refused in turn, below the calls of a cache. bindings/tests runs it with an
extension that is linked with refused.c."""

from __future__ import annotations

import contextlib
import ctypes
import unittest
from typing import Callable

from luffapricot import Cache, _luffapricot
from support import POLICIES

grants = ctypes.c_int.in_dll(ctypes.CDLL(_luffapricot.__file__), "luffa_grants")


class Item:
    """A key or a value. They are counted."""

    count = 0

    def __init__(self, number: int) -> None:
        self.number = number
        Item.count += 1

    def __del__(self) -> None:
        Item.count -= 1

    def __hash__(self) -> int:
        return self.number

    def __eq__(self, other: Item) -> bool:
        return self.number == other.number


def two_calls(cache: Cache) -> None:
    """Takes a key out after others left of which nobody could be told."""
    with contextlib.suppress(MemoryError):
        cache.insert(Item(-2), Item(0), weight=60)
    cache.popitem()


CALLS: dict[str, Callable[[Cache], object]] = {
    "insert": lambda cache: cache.update({Item(number): Item(0) for number in range(50, 90)}),
    "heavy": lambda cache: cache.insert(Item(-2), Item(0), weight=60),
    "replace": lambda cache: cache.__setitem__(Item(3), Item(0)),
    "get": lambda cache: cache.get(Item(3)),
    "touch": lambda cache: [cache.touch(Item(number), 5) for number in range(50)],
    "make": lambda cache: cache.get_or_insert(Item(-3), lambda _: Item(0)),
    "setdefault": lambda cache: cache.setdefault(Item(-4), Item(0)),
    "pop": lambda cache: cache.pop(Item(3), None),
    "popitem": lambda cache: cache.popitem(),
    "two": two_calls,
    "items": lambda cache: list(cache.items()),
    "resize": lambda cache: cache.resize(5),
    "expire": lambda cache: cache.expire(),
    "clear": lambda cache: cache.clear(),
    "close": lambda cache: cache.close(),
}


class Refused(unittest.TestCase):
    def tearDown(self) -> None:
        grants.value = -1

    def filled(self, policy: str) -> Cache:
        cache = Cache(60, policy, shards=2)
        cache.update({Item(number): Item(number) for number in range(50)})
        return cache

    def test_calls(self) -> None:
        refusals = dict.fromkeys(CALLS, 0)
        for policy in POLICIES:
            for name, call in CALLS.items():
                for granted in range(12):
                    cache = self.filled(policy)
                    grants.value = granted
                    try:
                        call(cache)
                    except MemoryError:
                        refusals[name] += 1
                    finally:
                        grants.value = -1
                    if name != "close":
                        self.assertEqual(len(cache), len(list(cache)), (policy, name, granted))
                        cache[Item(-5)] = Item(0)
                        self.assertIn(Item(-5), cache)
                        cache.close()
                    self.assertEqual(Item.count, 0, (policy, name, granted))
        self.assertTrue(all(refusals[name] for name in ("insert", "replace", "touch", "two", "resize", "clear")), refusals)

    def test_the_end(self) -> None:
        for policy in POLICIES:
            cache = self.filled(policy)
            grants.value = 0
            del cache
            grants.value = -1
            self.assertEqual(Item.count, 0)


if __name__ == "__main__":
    unittest.main()
