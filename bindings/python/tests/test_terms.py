"""Capacity, weights, times to live, and the parameters of policies."""

from __future__ import annotations

import copy
import pickle
import random
import sys
import time
import unittest

from luffapricot import Cache, Fifo, Lfu, Lru, Policy, S3Fifo, Sieve
from support import POLICIES, run_alone


class Terms(unittest.TestCase):
    def test_large_numbers(self) -> None:
        cache = Cache(2**64 - 1, "lru")
        cache.insert("a", 1, weight=2**64 - 1, ttl=float("inf"))
        self.assertEqual((cache["a"], cache.stats()), (1, (1, 0, 2**64 - 1, 1, 2**64 - 1)))
        cache = Cache(2**64 - 1, "lru", weigher=lambda _, value: value)
        cache["a"], cache["b"] = 2**40 + 1, 2**63 + 1  # the last has more bits than a float
        cache.get_or_insert("c", lambda _: 2**35 + 1)
        cache.setdefault("d", 2**54 + 1)
        self.assertEqual(cache.stats().usage, 2**40 + 2**63 + 2**35 + 2**54 + 4)
        cache = Cache(2**64 - 1, "lru", shards=2)
        for key in range(20):  # each shard has one, whose sum is too much
            cache.insert(key, key, weight=2**64 - 1)
        self.assertEqual((cache.stats().usage, len(cache)), (2**64 - 1, 2))
        for call in (lambda: Cache(2**64), lambda: cache.insert("b", 1, weight=2**64), lambda: cache.resize(-1)):
            with self.assertRaises(OverflowError):
                call()

    def test_capacity(self) -> None:
        for policy in POLICIES:
            cache = Cache(10, policy)
            for key in range(1000):
                cache[key] = key
                self.assertLessEqual(len(cache), 10)
                self.assertEqual(cache[key], key)
            self.assertEqual(len(list(cache)), len(cache))
            cache.resize(3)
            self.assertLessEqual(len(cache), 3)
            cache.insert("heavy", 1, weight=3)
            self.assertEqual((list(cache), cache.stats().usage), (["heavy"], 3))

    def test_weigher(self) -> None:
        asked: list = []

        def weigher(key: str, value: str) -> int:
            asked.append((key, value))
            return len(value) if value else cache.close()

        before = sys.getrefcount(weigher)
        cache = Cache(10, "lru", weigher=weigher)
        cache["a"] = "xxx"
        self.assertEqual((cache.get_or_insert("b", lambda _: "xxxxx"), cache.stats().usage), ("xxxxx", 8))
        cache.insert("c", "", weight=1)
        self.assertEqual((cache.stats().usage, asked), (9, [("a", "xxx"), ("b", "xxxxx")]))
        cache["d"] = "xxxxxx"
        self.assertEqual(list(cache), ["c", "d"])
        for call in (lambda: cache.get_or_insert("e", lambda _: ""), lambda: cache.__setitem__("e", "")):
            with self.assertRaises((RuntimeError, TypeError)):
                call()  # a weigher that closes the cache, and returns no number
        with self.assertRaises(TypeError):
            Cache(1, weigher=3)
        del cache
        self.assertEqual(sys.getrefcount(weigher), before)

    def test_values_that_weigh_nothing(self) -> None:
        for policy in POLICIES:
            cache = Cache(3, policy, weigher=lambda _, value: value)
            cache.update(a=1, b=2)
            cache.update(zip(range(1000), [0] * 1000))
            self.assertEqual((cache.get_or_insert("c", lambda _: 0), cache.setdefault("d", 0)), (0, 0))
            cache.insert("e", 5, weight=0)
            self.assertEqual((cache["a"], cache["b"], len(cache), cache.stats().usage), (1, 2, 1005, 3))

    def test_is_lru(self) -> None:
        cache = Cache(100, "lru")
        model: dict = {}
        random.seed(1)
        for _ in range(20000):
            key = random.randrange(150)
            value = cache.get(key)
            self.assertEqual(value is not None, key in model)
            if value is None:
                cache[key] = key + 1
            else:
                del model[key]
            model[key] = True
            if len(model) > 100:
                del model[next(iter(model))]

    def test_time_to_live(self) -> None:
        cache = Cache(10, ttl=0.3)
        cache["a"] = 1
        cache.insert("b", 2, ttl=20)
        cache["c"] = 3
        self.assertEqual((cache["a"], cache["b"]), (1, 2))
        time.sleep(0.35)
        self.assertEqual((cache.get("a"), "a" in cache, cache["b"], list(cache)), (None, False, 2, ["b"]))
        self.assertEqual((len(cache), cache.pop("c", None), cache.pop("b"), len(cache)), (3, None, 2, 1))
        cache["a"] = 3
        self.assertEqual(cache["a"], 3)

    def test_timer(self) -> None:
        time_now = [5.0]
        cache = Cache(10, "lru", ttl=10, timer=lambda: time_now[0])
        cache.update(a=1, b=2)
        cache.insert("c", 3, ttl=1)
        for time_now[0], found in ((5.999, "abc"), (6, "ab"), (14.9, "ab"), (15, ""), (5, "abc")):
            self.assertEqual("".join(key for key in "abc" if key in cache), found)
        time_now[0] = 6.5
        self.assertEqual((list(cache), len(cache), cache.expire(), len(cache)), (["a", "b"], 3, None, 2))
        time_now[0] = 15
        self.assertEqual((cache.get_or_insert("a", lambda _: 4), cache.popitem(), len(cache)), (4, ("a", 4), 0))
        cache["a"] = 5
        for time_now[0] in (-1, float("nan"), "x"):
            with self.assertRaises((ValueError, TypeError)):
                cache.get("a")
        time_now[0] = 16
        self.assertEqual(cache["a"], 5)
        calls: list = [lambda: cache["a"], lambda: cache.get_or_insert("a", id), lambda: cache.insert("a", 1)]
        calls += [lambda: cache.popitem(), lambda: cache.expire(), lambda: list(cache), lambda: "a" in cache]
        for call in [*calls, lambda: cache.pop("a"), lambda: cache.resize(1)]:
            cache = Cache(10, ttl=10, timer=lambda: cache.close() or 1.0)
            with self.assertRaises(ValueError):
                call()

    def test_touch(self) -> None:
        for policy in POLICIES:
            now = 0.0
            cache = Cache(100, policy, ttl=10, timer=lambda: now)
            for key in range(60):
                cache.insert(key, str(key), weight=1)
            self.assertEqual((cache.touch("?"), len(cache)), (False, 60))
            now = 9
            for key in range(0, 60, 2):
                self.assertIs(cache.touch(key, ttl=[5, None, float("inf")][key % 3]), True)
            for now in (9, 10, 13.5, 14, 18.5, 19, 1e9):
                for key in range(60):
                    end = 10 if key % 2 else [14, 19, float("inf")][key % 3]
                    self.assertEqual(cache.peek(key), str(key) if now < end else None, (policy, key, now))
            cache.expire()
            self.assertEqual((len(cache), cache.stats().usage, cache.touch(1)), (10, 10, False))
            cache.clear()
            self.assertEqual((len(cache), list(cache), cache.touch(2)), (0, [], False))
            cache.close()
            with self.assertRaises(ValueError):
                cache.touch(2)
        cache = Cache(10, "fifo")
        cache["a"], cache["b"] = 1, 2
        self.assertEqual((cache.touch("a", 5), list(cache), cache.stats()), (True, ["b", "a"], (0, 0, 2, 2, 10)))
        for wrong in (0, -1, float("nan")):
            with self.assertRaises(ValueError):
                cache.touch("a", wrong)
        for policy in POLICIES:  # a full cache may lose another key, and no more than one
            cache = Cache(50, policy)
            values = [object() for _ in range(50)]
            before = [sys.getrefcount(value) for value in values]
            cache.update(enumerate(values))
            found = sum(cache.touch(key, 5) for key in range(50))
            self.assertTrue(found >= 48 and len(cache) == found, (policy, found, len(cache)))
            cache.close()
            self.assertEqual([sys.getrefcount(value) for value in values], before)

    def test_long_lives(self) -> None:
        for life in (2**50 / 1e9, 2**50 / 1e9 + 1, 2**53 / 1e9, 2**62 / 1e9, 9.2e9, 1.8e10):
            time_now = [1000.0]
            cache = Cache(10, timer=lambda: time_now[0])
            cache.insert("a", 1, ttl=life)
            for time_now[0], is_there in ((1000 + life * (1 - 1e-12), True), (1000 + life * (1 + 1e-12), False)):
                self.assertEqual("a" in cache, is_there or time_now[0] > 1.84e10, life)
        cache.insert("b", 1, ttl=float("inf"))
        time_now[0] = 1e12
        self.assertFalse("b" in cache or "a" in cache)  # the end of all times
        cache = Cache(10, ttl=1e300)
        cache["a"] = 1
        self.assertIn("a", cache)

    def test_late_times(self) -> None:
        looks: list = [lambda it: it.get("a"), lambda it: it.peek("a"), lambda it: "a" in it or None]
        looks += [lambda it: it.touch("a") or None, lambda it: it.setdefault("a"), lambda it: it.pop("a", None)]
        looks += [lambda it: it.get_or_insert("a", lambda _: None), lambda it: dict(it).get("a"), lambda it: it.popitem()[1]]
        calls: list = [lambda it: it.resize(9), lambda it: it.insert(10, 10), lambda it: it.touch(5, 100)]
        calls += [lambda it: it.setdefault(10), lambda it: it.get_or_insert(10, id)]
        for begun in (1e9, 2**33, 2**49 + 5, 2**56):  # in nanoseconds
            for look in looks:
                for later, wanted in ((4, 1), (6, None)):
                    time_now = [begun / 1e9]
                    cache = Cache(10, timer=lambda: time_now[0])
                    cache.insert("a", 1, ttl=5)
                    cache["b"] = None
                    time_now[0] += later
                    self.assertEqual(look(cache), wanted)
            for call in calls:  # what is expired leaves first
                time_now = [begun / 1e9]
                cache = Cache(10, "fifo", timer=lambda: time_now[0])
                for key in range(10):
                    cache.insert(key, key, ttl=5 if key == 9 else None)
                time_now[0] += 6
                call(cache)
                self.assertEqual({*range(9)} - {*cache}, set())

    def test_policies_are_values(self) -> None:
        policies = [Fifo(), Lru(), Lfu(), Lfu(0.2), Lfu(protected=0.2), S3Fifo(), S3Fifo(0.2), S3Fifo(ghost=0.2), Sieve()]
        self.assertEqual(len({*policies, *map(copy.deepcopy, policies), *pickle.loads(pickle.dumps(policies))}), len(policies))
        self.assertEqual(repr(S3Fifo(small=0.2)), "S3Fifo(small=0.2, ghost=None, small_to_main=None)")
        self.assertFalse(Fifo() == Lru() or Fifo() == "fifo" or S3Fifo(0.2) == (0.2, None, None))
        for change in (lambda: setattr(S3Fifo(), "small", 1), lambda: setattr(Fifo(), "a", 1), lambda: delattr(Lfu(), "window")):
            with self.assertRaises(AttributeError):
                change()
        for make in (lambda: Fifo(1), lambda: S3Fifo(large=1), lambda: S3Fifo(1, 1, 1, 1)):
            with self.assertRaises(TypeError):
                make()

    def test_the_import_is_quick(self) -> None:
        text = "import sys; there = {*sys.modules}; import luffapricot; luffapricot.cached(len)"
        text += "; print({'inspect', 'dataclasses', 'ast'} & {*sys.modules} - there)"
        self.assertEqual(run_alone(text), "set()\n")

    def test_policies_with_parameters(self) -> None:
        policies = [Fifo(), Lru(), Lfu(window=0.3, protected=0.5, sketch_rows=2, sketch_buckets=100), Sieve()]
        policies += [S3Fifo(), S3Fifo(small=0.5, ghost=2, small_to_main=3), Lfu()]
        policies += [S3Fifo(small=0.001), Lfu(window=0.001)]
        for policy in policies:
            cache = Cache(50, policy)
            cache.update(zip(range(200), range(200)))
            self.assertEqual((len(cache), Cache(1, policy=policy.name).stats().capacity), (50, 1))
        wrong: list = [S3Fifo(small=0), S3Fifo(small=1.5), Lfu(window=0.5, protected=0.5), Lfu(sketch_rows=0), "x"]
        wrong += [Lfu(sketch_rows=256), S3Fifo(ghost=1e9), S3Fifo(small="x"), 3, None, Lfu(sketch_buckets=-1)]
        for policy in wrong:
            with self.assertRaises((ValueError, TypeError, OverflowError)):
                Cache(10, policy)

        def hits(policy: Policy) -> int:
            cache = Cache(100, policy)
            random.seed(5)
            for _ in range(5000):
                cache.get_or_insert(int(random.paretovariate(0.5)), id)
            return cache.stats().hits

        self.assertEqual(hits(S3Fifo()), hits(S3Fifo(small=0.1, ghost=1.0, small_to_main=1)))
        self.assertEqual(hits(Lfu()), hits(Lfu(0.1, 0.8, 3, 2719)))
        for other in (S3Fifo(small=0.9), S3Fifo(ghost=0), S3Fifo(small_to_main=3)):
            self.assertNotEqual(hits(S3Fifo()), hits(other))
        for other in (Lfu(window=0.9, protected=0.05), Lfu(protected=0.1), Lfu(sketch_buckets=2), Lfu(sketch_rows=1)):
            self.assertNotEqual(hits(Lfu()), hits(other))
