"""Many shards, some of them empty, and thousands of keys that leave or are held."""

from __future__ import annotations

import random
import threading
import time
import unittest
import weakref

from luffapricot import Cache, Error
from support import POLICIES, Value

SHARDS = (1, 2, 16, 17, 64, 65, 100, 1000)


class Sizes(unittest.TestCase):
    def test_calls_over_all_shards(self) -> None:
        for shards in SHARDS:
            for policy in ("lru", "s3fifo"):
                for count in (0, 1, 7, 3000):  # with few keys most shards are empty
                    time_now = [1.0]
                    cache = Cache(100_000, policy, shards, timer=lambda: time_now[0])
                    for key in range(count):
                        cache.insert(key, -key, weight=2, ttl=10 if key % 3 == 0 else None)
                    lasting = [key for key in range(count) if key % 3]
                    self.assertEqual((list(cache), len(cache)), (list(range(count)), count))
                    self.assertEqual(cache.stats(), (0, 0, 2 * count, count, 100_000))
                    self.assertEqual(cache.get_or_insert("made", lambda _: 5), 5)
                    self.assertEqual((cache.pop("made"), cache.stats()[:2]), (5, (0, 1)))
                    time_now[0] = 11
                    self.assertEqual((list(cache), len(cache)), (lasting, count))
                    cache.expire()
                    self.assertEqual((len(cache), cache.stats().usage), (len(lasting), 2 * len(lasting)))
                    if lasting:
                        self.assertEqual(cache.popitem(), (1, -1))
                    cache.resize(4 * shards)
                    self.assertLessEqual(cache.stats().usage, 4 * shards)
                    self.assertEqual((len(list(cache)), cache.stats().capacity), (len(cache), 4 * shards))
                    cache.clear()
                    self.assertEqual((list(cache), len(cache), cache.stats().usage), ([], 0, 0))
                    cache.close()

    def test_shares(self) -> None:
        for shards in SHARDS:
            for capacity in (2**32 + 1, 2**48 + 17, 2**64 - 1):
                grown = Cache(1, "lru", shards)
                grown.resize(capacity)
                share = capacity // shards
                for cache in (Cache(capacity, "lru", shards), grown):
                    cache.insert("heavy", 1, weight=share)
                    self.assertEqual((cache.get("heavy"), cache.stats()[2:]), (1, (share, 1, capacity)))
                    cache.update(zip(range(20 * shards), range(20 * shards)))  # some come into its shard, which is full
                    self.assertNotIn("heavy", cache)
                    cache.resize(0)
                    self.assertEqual((len(cache), cache.stats().usage), (0, 0))

    def test_thousands_that_leave_by_one_call(self) -> None:
        for policy in POLICIES:
            for leave in (
                lambda cache: cache.clear(),
                lambda cache: cache.resize(0),
                lambda cache: cache.insert("heavy", 1, weight=5000),
                lambda cache: cache.close(),
                lambda cache: cache.expire(),
            ):
                time_now = [1.0]
                cache = Cache(5000, policy, ttl=5, timer=lambda: time_now[0])
                watched: weakref.WeakSet = weakref.WeakSet()
                for key in range(5000):
                    value = Value()
                    watched.add(value)
                    cache[key] = value
                del value
                self.assertEqual((len(watched), len(cache)), (5000, 5000))
                time_now[0] = 6
                leave(cache)
                self.assertEqual(len(watched), 0)

    def test_more_keys_than_16_bits_count(self) -> None:
        count, time_now = 70_000, [1.0]
        cache = Cache(2 * count, "fifo", ttl=5, timer=lambda: time_now[0])
        for key in range(count):
            cache[key] = -key
        cache.insert("lasting", 1, ttl=20)
        self.assertEqual((len(cache), cache.stats()), (count + 1, (0, 0, count + 1, count + 1, 2 * count)))
        self.assertEqual(list(cache.items()), [*((key, -key) for key in range(count)), ("lasting", 1)])
        self.assertEqual([*zip(cache, cache.values())], list(cache.items()))
        time_now[0] = 6
        cache.expire()
        self.assertEqual((list(cache), len(cache)), (["lasting"], 1))

    def test_thousands_that_are_held(self) -> None:
        for policy in POLICIES:
            cache = Cache(4000, policy, shards=17)
            for key in range(4000):
                cache[key] = [key]
            held = {key: cache.get(key) for key in list(cache)}
            self.assertGreater(len(held), 3000)
            for key in range(4000, 12000):
                cache[key] = [key]
            cache.clear()
            self.assertTrue(all(value == [key] for key, value in held.items()))

    def test_thousands_that_are_made_at_once(self) -> None:
        cache, may_end, found = Cache(1000, shards=65), threading.Event(), []

        def ask(key: int) -> None:
            try:
                found.append(cache.get_or_insert(key, lambda it: may_end.wait(20) and it // (it % 3)))
            except (ZeroDivisionError, Error) as error:
                found.append(type(error))

        threads = [threading.Thread(target=ask, args=[number // 2]) for number in range(300)]
        for it in threads:
            it.start()
        while cache.stats().misses < 150:
            time.sleep(0.01)
        time.sleep(0.1)
        cache[1] = "newer"
        may_end.set()
        for it in threads:
            it.join()
        self.assertEqual((found.count(ZeroDivisionError) + found.count(Error), found.count("newer")), (100, 2))
        self.assertEqual((len(cache), cache.stats().misses), (100, 200))  # a failed maker counts, and who waits for it

    def test_as_a_dict(self) -> None:
        random.seed(11)
        for shards in (1, 17, 65):
            cache, model = Cache(10**6, "s3fifo", shards), {}
            for _ in range(20_000):
                key = random.choice((1, 2**32, 2**61 - 1, "x")) * random.randrange(1, 500)
                if random.random() < 0.6:
                    cache[key] = model[key] = random.random()
                else:
                    self.assertEqual(cache.pop(key, None), model.pop(key, None))
            self.assertEqual(dict(cache), model)


if __name__ == "__main__":
    unittest.main()
