"""The decorator, beside that of functools."""

from __future__ import annotations

import contextlib
import copy
import functools
import pickle
import random
import unittest
import weakref
from typing import AsyncIterator

from luffapricot import S3Fifo, cached
from support import Value


@cached
def named(number: int) -> int:
    """A function that a pickle finds."""
    return number


class Named:
    @staticmethod
    @cached
    def inside(number: int) -> int:
        """A function that a pickle finds in its class."""
        return number


class Decorator(unittest.TestCase):
    def test_as_lru_cache(self) -> None:
        random.seed(2)
        values: list = [0, 1, 1.0, True, "1", None, (1, 2)]
        for typed in (False, True):
            ours = cached(64, policy="lru", typed=typed)(lambda *args, **words: repr((args, words)))
            theirs = functools.lru_cache(64, typed)(lambda *args, **words: repr((args, words)))
            for _ in range(20000):
                args = random.choices(values, k=random.randrange(3))
                words = {name: random.choice(values) for name in random.sample("xy", random.randrange(3))}
                self.assertEqual(ours(*args, **words), theirs(*args, **words))
                self.assertEqual(ours.cache_info(), theirs.cache_info())
            self.assertNotEqual(ours(1, x=2), ours(1, None, "x", 2))
            ours.cache_clear()
            self.assertEqual(ours.cache_info(), (0, 0, 64, 0))

    def test_attributes(self) -> None:
        @cached
        def function(number: int) -> int:
            """Doubles a number."""
            return 2 * number

        self.assertEqual((function(4), function(4)), (8, 8))
        self.assertEqual((function.__name__, function.__doc__), ("function", "Doubles a number."))
        self.assertEqual((function.__wrapped__(5), function.cache_info().hits), (10, 1))
        self.assertEqual(function.cache_parameters()["maxsize"], 128)
        with self.assertRaises(TypeError):
            function([])

        @cached(maxsize=None, policy="lfu")
        def unlimited(number: int) -> int:
            return number

        for number in range(5000):
            unlimited(number)
        self.assertEqual(unlimited.cache_info(), (0, 5000, None, 5000))

    def test_copies(self) -> None:
        for it in (named, Named.inside):
            self.assertEqual([pickle.loads(pickle.dumps(it)), copy.copy(it), copy.deepcopy([it])[0]], [it] * 3)

    def test_methods_and_exceptions(self) -> None:
        class Counter:
            count = 0

            @cached(10)
            def next(self, number: int) -> int:
                self.count += 1
                if number < 0:
                    raise ValueError(number)
                return self.count

        first, second = Counter(), Counter()
        self.assertEqual((first.next(1), first.next(1), first.next(2), second.next(1)), (1, 1, 2, 1))
        for _ in range(2):
            with self.assertRaises(ValueError):
                first.next(-1)
        self.assertEqual(first.count, 4)

    def test_failures_as_lru_cache(self) -> None:
        for size in (0, 3):
            ours, theirs = (it(size)(lambda number: 1 // number) for it in (cached, functools.lru_cache))
            for number in (0, 1, 0, 1, 0):
                for it in (ours, theirs):
                    with contextlib.suppress(ZeroDivisionError):
                        it(number)
                self.assertEqual(ours.cache_info(), theirs.cache_info())

    def test_no_room(self) -> None:
        for size in (0, -1, -(10**30)):
            calls: list = []
            function = cached(size)(calls.append)
            for _ in range(3):
                function(1)
            self.assertEqual((calls, function.cache_info()), ([1] * 3, (0, 3, 0, 0)))
            function.cache_clear()
            self.assertEqual((function.cache_info(), function.cache_parameters()["maxsize"]), ((0, 0, 0, 0), 0))

    def test_async_functions_are_refused(self) -> None:
        async def waits() -> int:
            return 1

        async def yields() -> AsyncIterator[int]:
            yield 1

        class Waits:
            async def __call__(self) -> int:
                return 1

            async def method(self) -> int:
                return 1

        for function in (waits, yields, functools.partial(functools.partial(waits)), Waits(), Waits().method):
            with self.assertRaisesRegex(TypeError, "async"):
                cached(function)
        self.assertIsInstance(cached(Waits)(), Waits)  # to make one isn't async

    def test_policy_and_timer(self) -> None:
        time_now = [1]
        function = cached(10, policy=S3Fifo(small=0.5), ttl=5, timer=lambda: time_now[0])(lambda number: [number])
        first = function(1)
        self.assertIs(function(1), first)
        time_now[0] = 6
        self.assertIsNot(function(1), first)
        self.assertEqual(function.cache_parameters()["policy"], S3Fifo(small=0.5))

    def test_shards(self) -> None:
        function = cached(100, shards=100)(lambda number: number)
        for number in range(1000):
            self.assertEqual(function(number), number)
        self.assertIn(function.cache_info().currsize, range(90, 101))
        few = cached(100, shards=100)(lambda number: number)
        for number in range(100):
            few(number)
        self.assertLess(few.cache_info().currsize, 90)  # some shards got two or more, and have room for one

    def test_the_same_call_meanwhile(self) -> None:
        @cached(3, policy="lru")
        def function(number: int) -> list:
            if number == 9 and not inner:
                inner.append(None)
                inner[0] = function(number)
            return [number]

        inner: list = []
        for number in range(3):
            function(number)
        self.assertEqual(function(9), [9])
        self.assertIs(function(9), inner[0])  # what was kept first stays, and no other result leaves for it
        self.assertEqual(function.cache_info(), (1, 5, 3, 3))

    def test_hundreds_of_the_same_call_at_once(self) -> None:
        @cached(3)
        def function(number: int) -> int:
            calls.append(number)
            if len(calls) == 300:
                raise LookupError
            return function(number) if len(calls) < 300 else 7

        calls: list = []
        with self.assertRaises(LookupError):
            function(1)
        self.assertEqual((function(1), function(1), function.cache_info()), (7, 7, (1, 301, 3, 1)))

    def test_results_go_when_they_are_forgotten(self) -> None:
        function = cached(None)(lambda _: Value())
        watched = weakref.WeakSet(map(function, range(5000)))
        self.assertEqual((len(watched), function.cache_info().currsize), (5000, 5000))
        function.cache_clear()
        self.assertEqual(len(watched), 0)

    def test_recursion(self) -> None:
        @cached(1000)
        def fibonacci(number: int) -> int:
            return number if number < 2 else fibonacci(number - 1) + fibonacci(number - 2)

        self.assertEqual(fibonacci(90), 2880067194370816120)
