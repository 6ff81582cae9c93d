"""A cache as a mapping."""

from __future__ import annotations

import copy
import pickle
import random
import time
import unittest
import weakref

import luffapricot
from luffapricot import Cache, S3Fifo, cached
from support import POLICIES, Value


class Mapping(unittest.TestCase):
    def test_mapping(self) -> None:
        for policy in POLICIES:
            cache = Cache(10, policy)
            self.assertEqual((len(cache), list(cache), cache.get("a"), cache.get("a", 1)), (0, [], None, 1))
            cache["a"] = 1
            cache["b"] = [2]
            cache["a"] = 3
            self.assertEqual((cache["a"], cache["b"], len(cache), sorted(cache)), (3, [2], 2, ["a", "b"]))
            self.assertEqual(sorted(cache.items(), key=str), [("a", 3), ("b", [2])])
            self.assertTrue("a" in cache and "c" not in cache)
            self.assertEqual((cache.pop("a"), cache.pop("a", None)), (3, None))
            with self.assertRaises(KeyError):
                cache["a"]
            with self.assertRaises(KeyError):
                del cache["a"]
            with self.assertRaises(KeyError):
                cache.pop("a")
            self.assertEqual(cache.setdefault("d", 4), 4)
            cache.update(e=5)
            del cache["e"]
            self.assertEqual(sorted(cache), ["b", "d"])
            cache.clear()
            self.assertEqual((len(cache), list(cache)), (0, []))

    def test_iteration(self) -> None:
        cache: Cache[int, int] = Cache(10, "lru")
        for key in range(10):
            cache[key] = -key
        seen = []
        for key, value in cache.items():  # what leaves meanwhile is still seen
            seen.append((key, value))
            cache[key + 100] = 0
        self.assertEqual(seen, [(key, -key) for key in range(10)])
        self.assertEqual((list(cache), list(cache.values())), (list(range(100, 110)), [0] * 10))
        self.assertTrue(0 in cache.values() and 1 not in cache.values() and (100, 0) in cache.items())
        cache[1] = 1
        self.assertNotIn(101, cache)  # the look of the items was a use of 100 alone
        self.assertIn(100, cache)

    def test_popitem(self) -> None:
        for policy in POLICIES:
            cache = Cache(100, policy)
            cache.update(zip("abc", range(3)))
            cache["a"], cache["b"]
            cache["a"] = 3
            order = [("b", 1), ("c", 2), ("a", 3)] if policy != "lru" else [("c", 2), ("b", 1), ("a", 3)]
            self.assertEqual(list(cache.items()), order)
            self.assertEqual([cache.popitem() for _ in range(3)], order)
            with self.assertRaises(KeyError):
                cache.popitem()
            self.assertEqual((len(cache), cache.stats().usage, list(cache)), (0, 0, []))

    def test_popitem_of_many(self) -> None:
        took = []
        for size in (1000, 16000):
            cache = Cache(size, "lru", shards=2)
            cache.update(zip(range(size), range(size)))
            begun = time.thread_time()
            taken = [cache.popitem() for _ in range(len(cache))]
            took.append(time.thread_time() - begun)
            self.assertEqual((taken, len(cache)), ([(key, key) for key, _ in taken], 0))
        self.assertLess(took[1], 100 * took[0])  # 256 if each took as long as there are keys

    def test_the_first_of_an_iteration_is_evicted_next(self) -> None:
        random.seed(7)
        for policy in ("fifo", "lru"):
            cache = Cache(20, policy)
            for _ in range(2000):
                key, before = random.randrange(40), list(cache)
                if key in cache:
                    self.assertEqual(cache.get(key), key)
                    continue
                cache[key] = key
                self.assertEqual([it for it in before if it not in cache], before[:1] if len(before) == 20 else [])

    def test_keys_are_hashed_once(self) -> None:
        class Counted:
            hashes = 0

            def __init__(self, name: str) -> None:
                self.name = name

            def __hash__(self) -> int:
                Counted.hashes += 1
                return 7

            def __eq__(self, other: Counted) -> bool:
                return self.name == other.name

        for call in (
            lambda cache, key: cache.get(key),
            lambda cache, key: cache.__setitem__(key, 1),
            lambda cache, key: cache.get_or_insert(key, lambda _: 1),
            lambda cache, key: key in cache,
            lambda cache, key: cache.pop(key, None),
            lambda cache, key: cache.peek(key),
            lambda cache, key: cache.setdefault(key, 1),
            lambda cache, key: cache.insert(key, 1),
            lambda cache, key: cached(5)(lambda _: 1)(key),
        ):
            cache = Cache(5, "lru")
            for key in ("missing", "missing", "a", "b"):
                cache[Counted("a")] = 0
                Counted.hashes = 0
                call(cache, Counted(key))
                self.assertEqual(Counted.hashes, 1)
            Counted.hashes = 0
            cache.update(zip(range(20), range(20)))  # what is evicted isn't hashed again
            self.assertEqual(Counted.hashes, 0)

    def test_words(self) -> None:
        cache = Cache(capacity=10)
        cache.insert(key="a", value=1, weight=2, ttl=None)
        cache.insert("b", value=2)
        found = cache.get(key="a", default=0), cache.get("c", default=3), cache.peek("c", default=4)
        self.assertEqual(found, (1, 3, 4))
        self.assertEqual((cache.setdefault(key="c", default=5), cache.pop(key="c", default=6)), (5, 5))
        self.assertEqual(cache.get_or_insert(make=str, key=7), "7")
        wrong: list = [lambda: cache.get(), lambda: cache.get("a", 1, 2), lambda: cache.get("a", key="a")]
        wrong += [lambda: cache.get("a", other=1), lambda: cache.insert("a"), lambda: cache.pop(default=1)]
        for call in wrong:
            with self.assertRaises(TypeError):
                call()

    def test_peek_is_no_use(self) -> None:
        cache = Cache(2, "lru")
        cache.update(a=1, b=2)
        self.assertEqual((cache.peek("a"), cache.peek("c"), cache.peek("c", 3)), (1, None, 3))
        self.assertEqual(cache.stats()[:2], (0, 0))
        cache["c"] = 3
        self.assertEqual(list(cache), ["b", "c"])

    def test_missing(self) -> None:
        class Doubling(Cache):
            def __missing__(self, key: int) -> int:
                if key < 0:
                    raise LookupError(key)
                self[key] = 2 * key
                return self[key]

        cache = Doubling(10)
        self.assertEqual((cache[1], cache.get(2), cache.pop(2, None)), (2, None, None))
        self.assertEqual(list(cache), [1])
        self.assertEqual((cache.setdefault(3, 4), cache[3]), (4, 4))
        with self.assertRaises(LookupError):
            cache[-1]

    def test_missing_keys_are_told(self) -> None:
        cache = Cache(10)
        for key in ("a", (1, 2), ()):
            for call in (lambda: cache[key], lambda: cache.pop(key), lambda: cache.__delitem__(key)):
                with self.assertRaises(KeyError) as raised:
                    call()
                self.assertEqual(raised.exception.args, (key,))

    def test_keys_are_compared_as_in_a_dict(self) -> None:
        cache = Cache(10)
        cache[1] = "int"
        self.assertEqual((cache[1.0], cache[True]), ("int", "int"))
        cache[(1, "x")] = "tuple"
        self.assertEqual(cache[(1, "x")], "tuple")
        for unhashable in ([], {}):
            with self.assertRaises(TypeError):
                cache[unhashable] = 1
            with self.assertRaises(TypeError):
                cache.get(unhashable)

    def test_equal_keys_of_other_hashes(self) -> None:
        class Equal:
            def __init__(self, number: int) -> None:
                self.number = number

            def __hash__(self) -> int:
                return self.number

            def __eq__(self, other: object) -> bool:
                return True

        for shift in (0, 32, 56):  # as in a dict, they are other keys
            cache, keys = Cache(100), [Equal(number << shift) for number in range(1, 30)]
            cache.update(zip(keys, range(29)))
            self.assertEqual([cache.get(Equal(key.number)) for key in keys], [*range(29)])

    def test_bad_arguments(self) -> None:
        for words in ((-1,), ("x",), (1, "unknown"), (1, "lru", 0), (1, "lru", 1, 0), (1, "lru", 1, float("nan"))):
            with self.assertRaises((ValueError, TypeError, OverflowError)):
                Cache(*words)
        cache = Cache(1)
        for call in (cache.get, cache.pop, cache.get_or_insert):
            with self.assertRaises(TypeError):
                call()
        with self.assertRaises(RuntimeError):
            cache.__init__(5)

    def test_hashes_that_differ_above_bit_32(self) -> None:
        for policy in POLICIES:
            cache = Cache(5000, policy, shards=17)
            keys = [number << 40 for number in range(1, 1001)]
            cache.update(zip(keys, keys))
            self.assertEqual([cache.get(key) for key in keys], keys)
            self.assertEqual([cache.get(key + 1) for key in keys], [None] * len(keys))
            same = [number * (2**61 - 1) for number in range(50)]  # equal hashes
            cache.update(zip(same, same))
            self.assertEqual([cache.pop(key, None) for key in reversed(same)], same[::-1])

    def test_copies(self) -> None:
        cache = Cache(10, S3Fifo(small=0.5), weigher=max, ttl=60)
        cache.update({3: 1, 2: 2})
        for it in (pickle.loads(pickle.dumps(cache)), copy.copy(cache), copy.deepcopy(cache)):
            self.assertEqual((list(it.items()), it.stats(), type(it)), ([(3, 1), (2, 2)], (0, 0, 5, 2, 10), Cache))
            it[1] = 1
        self.assertEqual(len(cache), 2)
        cache = Cache(100, "fifo", shards=70)
        for it in (pickle.loads(pickle.dumps(cache)), copy.deepcopy(cache)):
            it.update(zip(range(1000), range(1000)))
            cache.update(zip(range(1000), range(1000)))
            self.assertEqual([*it], [*cache])  # each shard has its own part of the capacity
            cache.clear()

    def test_close(self) -> None:
        value = Value()
        watched = weakref.ref(value)
        with Cache(10) as cache:
            cache["a"] = value
            del value
            self.assertIsNotNone(watched())
        self.assertIsNone(watched())
        for call in (lambda: cache["a"], lambda: len(cache), lambda: "a" in cache, cache.clear, lambda: cache.get("a")):
            with self.assertRaises(ValueError):
                call()
        cache.close()

    def test_stats(self) -> None:
        cache = Cache(10)
        cache["a"] = 1
        cache.get("a"), cache.get("b")
        self.assertEqual(cache.stats(), (1, 1, 1, 1, 10))
        self.assertIn("proved", luffapricot.version)
