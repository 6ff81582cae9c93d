#!/usr/bin/env python3
"""decorators.py [--instructions]: a hit and a miss of @cached beside functools.lru_cache, and beside cachetools if it
is installed, in the least nanoseconds of many short turns; with --instructions in instructions of the whole
interpreter, by valgrind's callgrind.
decorators.py --memory: the bytes that an entry takes."""

from __future__ import annotations

import functools
import os
import re
import subprocess
import sys
from time import perf_counter
from typing import Callable

from luffapricot import cached

try:
    import cachetools
except ImportError:
    cachetools = None

CAPACITY, KEYS, TURNS, PAIRS = 1000, 500, 40, 25
POLICIES = ("fifo", "lru", "lfu", "s3fifo", "sieve")
BASE = "functools.lru_cache"


def double(number: int) -> int:
    """What is cached."""
    return 2 * number


def decorators(capacity: int = CAPACITY) -> dict[str, Callable]:
    """What is compared, by name."""
    made: dict[str, Callable] = {BASE: functools.lru_cache(capacity)}
    made |= {policy: cached(capacity, policy=policy) for policy in POLICIES}
    if cachetools is not None:
        made["cachetools.LRUCache"] = cachetools.cached(cachetools.LRUCache(capacity))
    return made


def calls(function: Callable[[int], int], kind: str, turns: int) -> float:
    """Calls a function with keys that its cache has, or hasn't while it is full. Returns the least seconds of a turn."""
    for key in range(CAPACITY if kind == "miss" else KEYS):
        function(key)
    took = float("inf")
    for turn in range(turns):
        first = CAPACITY + turn * KEYS if kind == "miss" else 0
        keys = list(range(first, first + KEYS))
        begun = perf_counter()
        for key in keys:
            function(key)
        took = min(took, perf_counter() - begun)
    return took


def instructions(name: str, kind: str, turns: int) -> int:
    """Those of a program that makes so many turns of calls."""
    words = [sys.executable, __file__, "--calls", name, kind, str(turns)]
    env = {**os.environ, "PYTHONHASHSEED": "0"}
    tool = ["valgrind", "--tool=callgrind", "--callgrind-out-file=/dev/null", *words]
    done = subprocess.run(tool, capture_output=True, text=True, check=True, env=env)
    return int(re.search(r"Collected : (\d+)", done.stderr).group(1))


def count() -> None:
    for kind in ("hit", "miss"):
        found = {}
        for name in decorators():
            found[name] = (instructions(name, kind, 15) - instructions(name, kind, 5)) / (10 * KEYS)
            print(f"{kind:5} {name:20} {found[name]:6.0f}, {found[name] / found[BASE]:.2f}", flush=True)


def time() -> None:
    for kind in ("hit", "miss"):
        times: dict[str, float] = {}
        for _ in range(PAIRS):
            for name, decorate in decorators().items():
                took = calls(decorate(double), kind, TURNS) / KEYS * 1e9
                times[name] = min(took, times.get(name, took))
        for name, took in times.items():
            print(f"{kind:5} {name:20} {took:6.0f} ns, {took / times[BASE]:.2f}")


def resident() -> int:
    with open("/proc/self/statm", encoding="ascii") as file:
        return int(file.read().split()[1]) * os.sysconf("SC_PAGE_SIZE")


def memory(name: str, entries: int) -> None:
    """Prints the bytes of an entry beside its key and value, which are there before."""
    keys = list(range(entries))
    function = decorators(entries)[name](lambda key: key)
    before = resident()
    for key in keys:
        function(key)
    print(f"{name:20} {entries:8} {(resident() - before) / entries:6.0f} bytes", flush=True)


def main(words: list[str]) -> None:
    if words[:1] == ["--calls"]:
        calls(decorators()[words[1]](double), words[2], int(words[3]))
    elif words[:1] == ["--entry"]:
        memory(words[1], int(words[2]))
    elif words == ["--memory"]:
        for entries in (100_000, 130_000, 200_000):
            for name in decorators():
                subprocess.run([sys.executable, __file__, "--entry", name, str(entries)], check=True)
    elif words == ["--instructions"]:
        count()
    elif not words:
        time()
    else:
        sys.exit(__doc__)


if __name__ == "__main__":
    main(sys.argv[1:])
