"""An in-memory cache of Python objects, with the policies FIFO, LRU, w-TinyLFU, S3-FIFO and Sieve.

>>> from luffapricot import Cache, cached
>>> cache = Cache(1000, policy="s3fifo")
>>> cache["key"] = "value"
>>> cache.get("key")
'value'
"""

from __future__ import annotations

import functools
import sys
from collections.abc import ItemsView, MutableMapping, ValuesView
from typing import Any, Callable, Iterator, NamedTuple, TypeVar, overload

from ._luffapricot import Error, _Cache, _Cached, version
from ._policies import Fifo, Lfu, Lru, Policy, S3Fifo, Sieve, split

__all__ = ["Cache", "CacheInfo", "Error", "Stats", "cached", "version"]
__all__ += ["Fifo", "Lfu", "Lru", "Policy", "S3Fifo", "Sieve"]

K = TypeVar("K")
V = TypeVar("V")
T = TypeVar("T")


class Stats(NamedTuple):
    """What a cache holds, and how its lookups ended."""

    hits: int
    misses: int
    usage: int
    entries: int
    capacity: int


class CacheInfo(NamedTuple):
    """What ``functools.lru_cache`` tells of its cache."""

    hits: int
    misses: int
    maxsize: int | None
    currsize: int


class _Items(ItemsView):
    def __iter__(self) -> Iterator[tuple[Any, Any]]:
        return iter(self._mapping._item_list())


class _Values(ValuesView):
    def __iter__(self) -> Iterator[Any]:
        return iter([value for _, value in self._mapping._item_list()])

    def __contains__(self, value: object) -> bool:
        return value in list(self)


# Of what a function's code returns: a coroutine, an async generator. `inspect` has names for them, and takes longer to
# import than this package.
_ASYNC = 0x80 | 0x200


def _is_async(function: Any) -> bool:
    while isinstance(function, functools.partial):
        function = function.func
    function = getattr(function, "__func__", function)
    flags = getattr(getattr(function, "__code__", None), "co_flags", 0)
    return bool(flags & _ASYNC) or hasattr(function, "_is_coroutine_mark")  # by inspect.markcoroutinefunction


def _made_anew(kind: type[Cache], capacity: int, parameters: tuple[Any, ...], attributes: dict[str, Any]) -> Cache:
    cache = kind.__new__(kind)
    Cache.__init__(cache, capacity, *parameters)
    vars(cache).update(attributes)
    return cache


class Cache(_Cache, MutableMapping[K, V]):
    """A mapping that holds at most ``capacity``: values weigh 1, ``weigher(key, value)`` or what ``insert`` says.

    ``policy`` decides what is evicted: "fifo", "lru", "lfu" (w-TinyLFU), "s3fifo" or "sieve", or one with parameters,
    such as ``S3Fifo(small=0.2)``. Room for a value is made before it replaces that of its key, so in a full cache
    another key may leave. A value expires ``ttl`` seconds after it was inserted, or never; it is found no more, but counts in
    ``len`` until it leaves, at the latest by ``expire()``. ``timer`` says the seconds, by default those of
    ``time.monotonic``.

    Keys need a hash, as in a dict. An iteration goes over the keys that were there when it began, and counts as no use
    of them: with "fifo" and "lru" from the next that is evicted on, with the others from the oldest insert on.
    ``popitem()`` takes the first of them. A subclass may have ``__missing__``, as one of a dict. Any thread may use a
    cache. A child of a fork may use one that no other thread was using.

    Each of several ``shards`` gets its part of the capacity. Under the interpreter's lock more than one gains nothing.
    """

    def __init__(
        self,
        capacity: int,
        policy: str | Policy = "s3fifo",
        shards: int = 1,
        ttl: float | None = None,
        weigher: Callable[[Any, Any], int] | None = None,
        timer: Callable[[], float] | None = None,
    ) -> None:
        super().__init__(capacity, *split(policy), shards, ttl, weigher, timer)
        self._parameters = (policy, shards, ttl, weigher, timer)

    def __reduce__(self) -> tuple[Any, ...]:
        """A copy or a pickle has what a lookup finds, inserted anew: weights are the weigher's, and lives begin."""
        attributes = {name: value for name, value in vars(self).items() if name != "_parameters"}
        made = (type(self), self.stats().capacity, self._parameters, attributes)
        return _made_anew, made, None, None, iter(self.items())

    def __iter__(self) -> Iterator[Any]:
        return iter([key for key, _ in self._item_list()])

    def items(self) -> ItemsView[K, V]:
        return _Items(self)

    def values(self) -> ValuesView[V]:
        return _Values(self)

    def stats(self) -> Stats:
        """Hits, misses, usage, entries and capacity."""
        return Stats(*self._counts())

    def __enter__(self) -> Cache:
        return self

    def __exit__(self, *_: object) -> None:
        self.close()

    def __repr__(self) -> str:
        return f"<{type(self).__name__} of {len(self)} entries>"

    # The mixin's are slower, and look a key up twice.
    get = _Cache.get
    pop = _Cache.pop
    popitem = _Cache.popitem
    setdefault = _Cache.setdefault
    clear = _Cache.clear
    __getitem__ = _Cache.__getitem__
    __setitem__ = _Cache.__setitem__
    __delitem__ = _Cache.__delitem__
    __contains__ = _Cache.__contains__
    __len__ = _Cache.__len__


@overload
def cached(maxsize: Callable[..., T]) -> _Cached[T]: ...


@overload
def cached(
    maxsize: int | None = 128,
    policy: str | Policy = "s3fifo",
    typed: bool = False,
    ttl: float | None = None,
    shards: int = 1,
    timer: Callable[[], float] | None = None,
) -> Callable[[Callable[..., T]], _Cached[T]]: ...


def cached(
    maxsize: Any = 128,
    policy: str | Policy = "s3fifo",
    typed: bool = False,
    ttl: float | None = None,
    shards: int = 1,
    timer: Callable[[], float] | None = None,
) -> Any:
    """Keeps the results of a function, as ``functools.lru_cache`` does, with a choice of policy and a time to live.

    The function gets ``cache_info()``, ``cache_clear()``, ``cache_parameters()`` and ``__wrapped__``. With the
    ``maxsize`` None nothing is evicted, and with 0 or less nothing is kept. Threads that miss the same arguments at the
    same time all call the function: ``Cache.get_or_insert`` lets one make a value. The function can't be ``async``.
    """
    if callable(maxsize):
        return cached()(maxsize)
    size = None if maxsize is None else max(maxsize, 0)

    def decorate(function: Callable[..., T]) -> _Cached[T]:
        if any(map(_is_async, (function, getattr(type(function), "__call__", None)))):
            raise TypeError("cached() is for functions that return their result, and not for async ones")
        cache: Cache[Any, T] = Cache(sys.maxsize if size is None else size, policy, shards, ttl, timer=timer)
        parameters = {"maxsize": size, "typed": typed, "policy": policy, "ttl": ttl}
        wrapper = _Cached(function, cache, CacheInfo, parameters, typed, size == 0)
        return functools.update_wrapper(wrapper, function)

    return decorate
