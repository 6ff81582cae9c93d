"""get_or_insert, threads and interpreters."""

from __future__ import annotations

import functools
import random
import threading
import time
import unittest
import weakref
from typing import Callable

from luffapricot import Cache, Error
from support import POLICIES, Value, in_threads, run_alone


class Making(unittest.TestCase):
    def test_one_thread_makes(self) -> None:
        cache, runs = Cache(100), []

        def make(key: int) -> int:
            runs.append(key)
            time.sleep(0.05)
            return key * 2

        found: list = []
        in_threads(*[lambda: found.append(cache.get_or_insert(7, make))] * 8)
        self.assertEqual((runs, found), ([7], [14] * 8))
        self.assertEqual(cache.stats().hits, 7)

    def test_failures(self) -> None:
        cache = Cache(10)
        with self.assertRaises(ZeroDivisionError):
            cache.get_or_insert("a", lambda _: 1 // 0)
        self.assertEqual((cache.get("a"), len(cache), list(cache)), (None, 0, []))
        self.assertEqual(cache.stats().misses, 2)

    def test_a_weigher_that_fails(self) -> None:
        cache = Cache(10, weigher=lambda _, value: value)
        for _ in range(3):
            with self.assertRaises(TypeError):
                cache.get_or_insert("a", str)
        self.assertEqual((cache.get_or_insert("a", lambda _: 2), cache.stats()), (2, (0, 4, 2, 1, 10)))

    def test_keys_of_one_hash_at_once(self) -> None:
        cache, keys = Cache(10), (1, 2**61, 2**62 - 1)

        def make(key: int) -> list:
            below = keys[: keys.index(key)][-1:]
            return [key, *(cache.get_or_insert(it, make) for it in below)]

        self.assertEqual({*map(hash, keys)}, {1})
        self.assertEqual(cache.get_or_insert(keys[2], make), [2**62 - 1, [2**61, [1]]])
        self.assertEqual([cache[key][0] for key in keys], [*keys])

    def test_failures_are_told_to_those_who_wait(self) -> None:
        cache, begun, may_end = Cache(10), threading.Event(), threading.Event()

        def make(_: str) -> str:
            begun.set()
            may_end.wait(5)
            raise LookupError

        found: list = []

        def ask() -> None:
            try:
                cache.get_or_insert("a", make)
            except (LookupError, Error) as error:
                found.append(str(error))

        threads = [threading.Thread(target=ask) for _ in range(6)]
        for it in threads:
            it.start()
        begun.wait(5)
        while threading.active_count() < 7 or cache.stats().misses < 1:
            time.sleep(0.01)
        time.sleep(0.1)
        may_end.set()
        for it in threads:
            it.join()
        self.assertEqual(sorted(found), ["", *["no value was made (F15)"] * 5])
        self.assertEqual((cache.stats()[:2], len(cache), list(cache)), ((0, 6), 0, []))
        self.assertEqual(cache.get_or_insert("a", lambda _: "made"), "made")

    def make_slowly(self, cache: Cache, meanwhile: Callable[[], object], ends_it: bool = True) -> list:
        """What a thread that makes "made" gets for "a", and then those who wait, if this is done meanwhile."""
        begun, may_end, found = threading.Event(), threading.Event(), [None] * 3

        def make(_: str) -> str:
            begun.set()
            may_end.wait(5)
            return "made"

        def ask(index: int) -> None:
            found[index] = cache.get_or_insert("a", make)

        threads = [threading.Thread(target=ask, args=[index]) for index in range(3)]
        threads[0].start()
        begun.wait(5)
        for it in threads[1:]:
            it.start()
        time.sleep(0.05)
        meanwhile()
        if ends_it:
            for it in threads[1:]:
                it.join(4)  # they need not wait for the one who makes it
            self.assertNotIn(None, found[1:])
        may_end.set()
        for it in threads:
            it.join()
        return found

    def test_an_insert_meanwhile_is_the_result(self) -> None:
        for policy in POLICIES:
            time_now = [1]
            cache = Cache(100, policy, ttl=1000, timer=lambda: time_now[0])
            found = self.make_slowly(cache, lambda: cache.insert("a", "newer", weight=7, ttl=5))
            self.assertEqual((found, cache["a"], cache.stats().usage), (["newer"] * 3, "newer", 7))
            time_now[0] = 6
            self.assertNotIn("a", cache)  # its life is that of the insert
            cache["a"] = "other"
            self.assertEqual((cache["a"], cache.get_or_insert("a", id), len(cache)), ("other", "other", 1))

    def test_removals_meanwhile(self) -> None:
        cache = Cache(10)
        self.assertEqual(self.make_slowly(cache, cache.clear, ends_it=False), ["made"] * 3)
        self.assertEqual(cache["a"], "made")
        cache.clear()
        for remove in (cache.clear, lambda: cache.pop("a"), lambda: (cache.resize(0), cache.resize(10))):
            found = self.make_slowly(cache, lambda: (cache.insert("a", "newer"), remove()))
            self.assertEqual((found, cache.get("a"), len(cache)), (["newer"] * 3, None, 0))

    def test_a_second_value_while_the_first_is_made(self) -> None:
        cache = Cache(10)

        def meanwhile() -> None:
            cache["a"] = "newer"
            del cache["a"]
            self.assertEqual(cache.get_or_insert("a", lambda _: "second"), "second")

        self.assertEqual(self.make_slowly(cache, meanwhile), ["newer"] * 3)
        self.assertEqual(cache["a"], "second")

    def test_inserts_by_the_function_that_makes(self) -> None:
        cache = Cache(10)
        inserted, made = Value(), Value()
        watched = weakref.ref(inserted), weakref.ref(made)

        def make(key: str, *_: object) -> Value:
            cache[key] = inserted
            return made

        self.assertIs(cache.get_or_insert("a", make), inserted)
        self.assertIs(cache["a"], inserted)
        with self.assertRaises(ZeroDivisionError):
            cache.get_or_insert("b", lambda key: make(key, 1 // 0))
        with self.assertRaises(ZeroDivisionError):
            cache.get_or_insert("c", lambda key: (make(key), 1 // 0))
        self.assertIs(cache["c"], inserted)
        del inserted, made, make
        cache.clear()
        self.assertEqual((watched[0](), watched[1](), len(cache)), (None, None, 0))

    def test_an_insert_by_the_weigher(self) -> None:
        def weigher(key: str, value: str) -> int:
            if value == "made":
                cache.insert(key, "newer", weight=2)
            return 1

        cache = Cache(10, weigher=weigher)
        self.assertEqual((cache.get_or_insert("a", lambda _: "made"), cache["a"]), ("newer", "newer"))
        self.assertEqual(cache.stats().usage, 2)

    def test_what_is_not_inserted_is_not_weighed(self) -> None:
        weighed: list = []
        cache = Cache(10, weigher=lambda _, value: weighed.append(value) or 1)
        self.assertEqual(cache.get_or_insert("a", lambda key: cache.insert(key, "newer") or "made"), "newer")
        self.assertEqual(weighed, ["newer"])

    def test_setdefault_beside_an_insert(self) -> None:
        cache = Cache(10, weigher=lambda key, value: 1 if value != "default" else cache.insert(key, "newer", 3) or 1)
        self.assertEqual((cache.setdefault("a", "default"), cache["a"], cache.stats().usage), ("newer", "newer", 3))
        self.assertEqual((cache.setdefault("a"), cache.setdefault("b"), cache.stats()[:2]), ("newer", None, (2, 2)))

    def test_signals_end_the_wait(self) -> None:
        lines = [
            "import os, signal, threading, luffapricot",
            "signal.signal(signal.SIGINT, signal.default_int_handler)",  # a job in the background ignores it
            "cache, begun, may_end = luffapricot.Cache(5), threading.Event(), threading.Event()",
            "make = lambda _: (begun.set(), may_end.wait(20))",
            "interrupt = lambda: threading.Timer(0.1, lambda: os.kill(os.getpid(), signal.SIGINT)).start()",
            "threading.Thread(target=cache.get_or_insert, args=(1, make)).start()",
            "begun.wait(); interrupt()",
            "try: cache.get_or_insert(1, make)",
            "except KeyboardInterrupt: print('interrupted', may_end.is_set())",
            "signal.signal(signal.SIGINT, lambda *_: (print('handled'), may_end.set()))",
            "interrupt(); print(cache.get_or_insert(1, make))",
        ]
        self.assertEqual(run_alone("\n".join(lines)), "interrupted False\nhandled\n(None, True)\n")

    def test_its_own_key(self) -> None:
        cache = Cache(10)
        with self.assertRaises(RuntimeError):
            cache.get_or_insert("a", lambda key: cache.get_or_insert(key, id))
        self.assertEqual(cache.get_or_insert("a", lambda _: cache.get_or_insert("b", lambda _: 2)), 2)

    def test_subinterpreters(self) -> None:
        inner = "from luffapricot import Cache; cache = Cache(5); cache.update(zip(range(99), range(99)))"
        inner += "; print(len(cache), cache.get_or_insert('a', ord), flush=True)"
        lines = [
            "try: import _interpreters as them",
            "except ImportError: import _xxsubinterpreters as them",
            "import luffapricot",
            f"for _ in range(2): made = them.create(); them.run_string(made, {inner!r}); them.destroy(made)",
            "print(luffapricot.Cache(1))",
        ]
        self.assertEqual(run_alone("\n".join(lines)), "5 97\n5 97\n<Cache of 0 entries>\n")

    def test_threads_that_wait_at_the_end(self) -> None:
        lines = [
            "import threading, time, luffapricot",
            "cache, begun = luffapricot.Cache(5), threading.Event()",
            "make = lambda _: (begun.set(), time.sleep(9))",
            "for _ in range(3): threading.Thread(target=cache.get_or_insert, args=(1, make), daemon=True).start()",
            "begun.wait(); print('ends')",
        ]
        self.assertEqual(run_alone("\n".join(lines)), "ends\n")

    def test_closing_waits_for_nobody(self) -> None:
        cache = Cache(10)
        with self.assertRaises(RuntimeError):
            cache.get_or_insert("a", lambda _: cache.close())
        self.assertEqual(cache.get_or_insert("a", lambda _: 1), 1)
        cache.close()

    def test_threads(self) -> None:
        cache, wrong = Cache(50, "lru", 2), []

        def work(seed: int) -> None:
            numbers = random.Random(seed)
            for _ in range(4000):
                key = numbers.randrange(100)
                if numbers.random() < 0.5:
                    value = cache.get_or_insert(key, lambda it: [it])
                else:
                    value = cache.get(key, [key])
                    cache[key] = [key]
                if value != [key]:
                    wrong.append((key, value))

        in_threads(*[functools.partial(work, seed) for seed in range(8)])
        self.assertEqual(wrong, [])
        self.assertLessEqual(len(cache), 50)
