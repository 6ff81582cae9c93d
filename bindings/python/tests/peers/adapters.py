"""This package's caches under the names of its peers."""

from __future__ import annotations

import functools
from typing import Any, Callable

import luffapricot


class Functools:
    """The module functools with this package's lru_cache."""

    _CacheInfo = luffapricot.CacheInfo
    WRAPPER_ASSIGNMENTS = functools.WRAPPER_ASSIGNMENTS
    partial = functools.partial

    @staticmethod
    def lru_cache(maxsize: Any = 128, typed: bool = False) -> Any:
        if callable(maxsize):
            return luffapricot.cached(policy="lru")(maxsize)
        return luffapricot.cached(maxsize, policy="lru", typed=typed)


class LRUCache(luffapricot.Cache):
    """As cachetools.LRUCache."""

    policy = "lru"

    def __init__(self, maxsize: int, getsizeof: Callable[[Any], int] | None = None, **words: Any) -> None:
        if getsizeof is not None:
            self.getsizeof = getsizeof
        super().__init__(maxsize, self.policy, weigher=lambda _, value: self.getsizeof(value), **words)

    def getsizeof(self, _: Any) -> int:
        return 1

    @property
    def maxsize(self) -> int:
        return self.stats().capacity

    @property
    def currsize(self) -> int:
        return self.stats().usage

    def __repr__(self) -> str:
        return f"{type(self).__name__}({dict(self)})"

    def __reduce__(self) -> tuple[Any, ...]:
        return type(self), (self.maxsize,), None, None, iter(self.items())


class FIFOCache(LRUCache):
    """As cachetools.FIFOCache."""

    policy = "fifo"


class TTLCache(LRUCache):
    """As cachetools.TTLCache."""

    def __init__(self, maxsize: int, ttl: float, timer: Callable[[], float] | None = None, **words: Any) -> None:
        self.ttl, self.timer = ttl, timer
        super().__init__(maxsize, ttl=ttl, timer=timer, **words)

    def __len__(self) -> int:
        self.expire()
        return super().__len__()
