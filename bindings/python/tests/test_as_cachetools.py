"""A cache beside that of cachetools, if it is installed."""

from __future__ import annotations

import random
import unittest

from luffapricot import Cache, cached

try:
    import cachetools
except ImportError:
    cachetools = None


@unittest.skipIf(cachetools is None, "cachetools is not installed")
class AsCachetools(unittest.TestCase):
    def test_calls(self) -> None:
        random.seed(3)
        ours, theirs = Cache(64, "lru"), cachetools.LRUCache(64)
        # A key that is there is removed first: cachetools makes no room for the value that replaces one of its size.
        calls = [
            lambda it, key: it[key] if key in it else None,
            lambda it, key: (it.pop(key, "missing"), it.__setitem__(key, -key)),
            lambda it, key: it.get(key, "missing"),
            lambda it, key: it.pop(key, "missing") if key % 5 == 0 else None,
            lambda it, key: it.setdefault(key, str(key)),
            lambda it, key: (key in it, len(it)),
            lambda it, key: set(it),
        ]
        for _ in range(20000):
            call, key = random.choice(calls), random.randrange(100)
            self.assertEqual(call(ours, key), call(theirs, key))
        self.assertEqual(dict(ours.items()), dict(theirs.items()))
        for it in (ours, theirs):
            with self.assertRaises(KeyError):
                it[1000]
            with self.assertRaises(KeyError):
                it.pop(1000)
            with self.assertRaises(KeyError):
                del it[1000]
            it.clear()
            self.assertEqual(len(it), 0)

    def test_weights(self) -> None:
        random.seed(4)
        ours = Cache(100, "lru", weigher=lambda _, value: len(value))
        theirs = cachetools.LRUCache(100, getsizeof=len)
        for _ in range(20000):
            key = random.randrange(60)
            value = "x" * (key % 11)
            self.assertEqual(ours.get(key), theirs.get(key))
            self.assertEqual(ours.pop(key, None), theirs.pop(key, None))
            ours[key] = theirs[key] = value
            self.assertEqual(ours.stats().usage, theirs.currsize)
            self.assertEqual(set(ours), set(theirs))

    def test_decorator(self) -> None:
        random.seed(5)
        made: list = [[], []]
        ours = cached(64, policy="lru")(lambda *args, **words: made[0].append((args, words)))
        theirs = cachetools.cached(cachetools.LRUCache(64))(lambda *args, **words: made[1].append((args, words)))
        for _ in range(20000):
            args = random.choices(range(10), k=random.randrange(3))
            words = {name: random.randrange(3) for name in random.sample("xyz", random.randrange(2))}
            ours(*args, **words)
            theirs(*args, **words)
            self.assertEqual(made[0], made[1])
            made = [[], []]


if __name__ == "__main__":
    unittest.main()
