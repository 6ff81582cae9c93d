"""What a cache holds and gives back, also if keys and values run Python code."""

from __future__ import annotations

import functools
import gc
import os
import random
import resource
import sys
import threading
import unittest
import weakref

from luffapricot import Cache, cached
from support import POLICIES, Key, Value, in_threads


class References(unittest.TestCase):
    def test_each_reference_is_given_back(self) -> None:
        for policy in POLICIES:
            value, key = Value(), "key of this test " + policy
            before = sys.getrefcount(value), sys.getrefcount(key)
            cache = Cache(4, policy)
            for _ in range(100):
                cache[key] = value
                cache.get(key), cache.pop(key, None), cache.get_or_insert(key, lambda _: value)
                for other in range(20):
                    cache[other] = value
                    cache.get(other)
            self.assertEqual(sys.getrefcount(value), before[0] + len(cache) if key in cache else before[0] + len(cache))
            cache.clear()
            self.assertEqual((sys.getrefcount(value), sys.getrefcount(key)), before)
            cache[key] = value
            del cache
            self.assertEqual((sys.getrefcount(value), sys.getrefcount(key)), before)

    def test_a_failed_call_keeps_no_key(self) -> None:
        for ask in (cached(5)(lambda key: 1 // 0), lambda key: Cache(5).get_or_insert(key, lambda _: 1 // 0)):
            key = Value()
            watched = weakref.ref(key)
            for _ in range(3):
                with self.assertRaises(ZeroDivisionError):
                    ask(key)
            del key
            self.assertIsNone(watched())

    def test_cycles_are_collected(self) -> None:
        cache = Cache(10)
        value = Value()
        value.cache = cache
        watched = weakref.ref(value)
        cache["a"] = value
        del value, cache
        gc.collect()
        self.assertIsNone(watched())

        @cached(10)
        def function(_: int) -> object:
            return function

        function(1)
        watched = weakref.ref(function)
        del function
        gc.collect()
        self.assertIsNone(watched())

    def test_values_that_use_the_cache_when_they_go(self) -> None:
        cache = Cache(5, "lru")
        gone = []

        class Last:
            def __del__(self) -> None:
                gone.append(len(cache))
                cache.get(1)
                if len(gone) % 3 == 0:
                    cache["from del"] = 1

        for key in range(300):
            cache[key] = Last()
        cache.clear()
        self.assertEqual(len(gone), 300)

    def test_keys_whose_comparison_fails(self) -> None:
        class Bad:
            def __hash__(self) -> int:
                return 1

            def __eq__(self, other: object) -> bool:
                raise RuntimeError("not comparable")

        cache = Cache(10)
        cache[Bad()] = 1
        for call in (lambda: cache.get(Bad()), lambda: cache.pop(Bad(), 0), lambda: Bad() in cache):
            with self.assertRaises(RuntimeError):
                call()
        with self.assertRaises(RuntimeError):
            cache[Bad()] = 2
        cache.clear()
        self.assertEqual(len(cache), 0)

    def test_keys_whose_comparison_removes(self) -> None:
        class Removing:
            def __init__(self, name: str) -> None:
                self.name = name

            def __hash__(self) -> int:
                return 1

            def __eq__(self, other: Removing) -> bool:
                if is_armed:
                    is_armed.clear()
                    cache.pop(first)
                return self.name == other.name

        for name in "bc":
            cache, is_armed, first = Cache(10, "lru"), [], Removing("a")
            for key in (first, Removing("b"), Removing("c")):
                cache[key] = key.name
            is_armed.append(1)
            self.assertEqual((cache.get(Removing(name)), len(cache)), (name, 2))

    def test_keys_whose_comparison_closes(self) -> None:
        class Closing:
            def __hash__(self) -> int:
                return 1

            def __eq__(self, other: object) -> bool:
                cache.close()
                return False

        calls = ["cache.get(key)", "cache.pop(key, 0)", "key in cache"]
        calls += ["cache.get_or_insert(key, id)", "cache.insert(key, 1)"]
        for call in calls:
            cache = Cache(10)
            cache[Closing()] = 1
            try:
                eval(call, {"cache": cache, "key": Closing(), "id": id})
            except ValueError:
                pass
            with self.assertRaises(ValueError):
                len(cache)

    def test_keys_that_use_the_cache(self) -> None:
        calls = [
            lambda: cache.__setitem__(key, Value()),
            lambda: cache.pop(key, None),
            lambda: cache.get_or_insert(key, lambda _: Value()),
            lambda: cache.clear(),
            lambda: cache.resize(0),
        ]

        class Inserting:
            number = 0
            turn = 0

            def __hash__(self) -> int:
                Inserting.number += 1
                if Inserting.number == Inserting.turn:
                    inside()
                return 1

            def __eq__(self, other: object) -> bool:
                return self is other

        for inside in calls:
            for call in calls:
                for Inserting.turn in range(1, 9):
                    cache, key = Cache(10, "lru"), Inserting()
                    cache[key], Inserting.number = Value(), 0
                    call()
                    self.assertEqual(len(cache), len(list(cache)))
                    watched = [weakref.ref(it) for it in cache.values()]
                    cache.resize(2)
                    for other in range(3):
                        cache[other] = Value()
                    cache.clear()
                    self.assertEqual((len(cache), list(cache), [it() for it in watched if it()]), (0, [], []))

    def test_keys_of_python_code_in_threads(self) -> None:
        cache: Cache[Key, Value] = Cache(5, "lru")
        watched: weakref.WeakSet = weakref.WeakSet()

        def work() -> None:
            for number in random.choices(range(12), k=6000):
                value = Value()
                watched.add(value)
                if number % 3 == 0:
                    cache.get_or_insert(Key(number), lambda _: value)
                elif cache.get(Key(number)) is None:
                    cache[Key(number)] = value

        in_threads(*[work] * 6)
        self.assertEqual(len(cache), len(list(cache)))
        cache.clear()
        self.assertEqual((len(cache), list(cache), len(watched)), (0, [], 0))

    def test_keys_that_are_made_while_they_leave(self) -> None:
        class Starting:
            countdown = 0

            def __hash__(self) -> int:
                Starting.countdown -= 1
                if Starting.countdown == 0:
                    thread.start()
                    begun.wait(5)
                return 1

        for turn in range(1, 5):
            cache, key, begun, may_end = Cache(10), Starting(), threading.Event(), threading.Event()

            def ask() -> None:
                cache.get_or_insert(key, lambda _: (begun.set(), may_end.wait(5)))
                begun.set()

            thread = threading.Thread(target=ask)
            cache[key] = 1
            Starting.countdown = turn
            cache.pop(key, None)
            may_end.set()
            if thread.ident:
                thread.join()
            self.assertEqual(len(cache), len(list(cache)))

    def test_what_leaves_in_threads(self) -> None:
        cache: Cache[object, Value] = Cache(3, "fifo")
        watched: weakref.WeakSet = weakref.WeakSet()

        def make(_: object) -> Value:
            value = Value()
            watched.add(value)
            return value

        def work(seed: int) -> None:
            for number in range(4000):
                cache.get_or_insert((seed, number % 50), make)
                cache[seed] = make(seed)

        in_threads(*[functools.partial(work, seed) for seed in range(4)])
        self.assertLessEqual(len(watched), 3)
        cache.clear()
        self.assertEqual(len(watched), 0)

    def test_cycles_are_collected_in_any_order(self) -> None:
        cache, value = Cache(1000), Value()
        for _ in range(3):
            gc.collect()
        value.cache = cache
        watched = weakref.ref(value)
        cache["a"] = value
        for key in range(500):
            other = Value()
            other.cache = cache
            cache[Key(key)] = other
        gc.freeze()  # the dict comes before the cache now
        gc.unfreeze()
        del value, other, cache
        gc.collect()
        self.assertIsNone(watched())

    def test_a_cache_is_made_once(self) -> None:
        class Life:
            def __float__(self) -> float:
                cache.__init__(5)
                return 1.0

        cache, value = Cache.__new__(Cache), Value()
        watched = weakref.ref(value)
        with self.assertRaises(RuntimeError):
            cache.__init__(10, ttl=Life())
        cache["a"] = value
        del value
        self.assertEqual((cache.stats().capacity, cache.pop("a") is watched(), watched()), (5, True, None))

    def test_closing_by_the_collector(self) -> None:
        threshold = gc.get_threshold()
        for requests in range(1, 30):
            cache = Cache(100)
            cache.update(zip(range(9), range(9)))
            unused = [([], (number, number)) for number in range(300)]  # so that each list and pair needs memory
            gc.collect(0)
            gc.callbacks.append(lambda *_: cache.close())
            gc.set_threshold(requests, 1000, 1000)
            try:
                cache._item_list()
                cache["new"] = 1
            except ValueError:
                pass
            finally:
                gc.set_threshold(*threshold)
                gc.callbacks.pop()
            del unused

    @unittest.skipIf("ASAN_OPTIONS" in os.environ, "the sanitizer keeps what is freed")
    def test_memory_does_not_grow(self) -> None:
        cache, sizes = Cache(1000), []
        for turn in range(6):
            for key in range(60000):
                cache[key] = [key]
                cache.get(key // 2)
            sizes.append(resource.getrusage(resource.RUSAGE_SELF).ru_maxrss)
        self.assertLess(sizes[-1] - sizes[1], 4096)
