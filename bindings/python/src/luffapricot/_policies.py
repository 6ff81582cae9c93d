"""The policies with their parameters."""

from __future__ import annotations

from typing import Any, ClassVar, NoReturn

# A share is given to the library as a number of these parts.
_PARTS = 1_000_000
_SHARES = ("window", "protected", "small", "ghost")


# No dataclass: their module takes longer to import than all else here.
class Policy:
    """What decides which keys are evicted. A parameter that is None has its default."""

    __slots__: tuple[str, ...] = ()
    name: ClassVar[str] = ""

    def __init__(self, *values: float | None) -> None:
        for name, value in zip(self.__slots__, values):
            object.__setattr__(self, name, value)

    def _values(self) -> tuple[Any, ...]:
        return tuple(getattr(self, it) for it in self.__slots__)

    def __eq__(self, other: object) -> bool:
        return type(self) is type(other) and self._values() == other._values()

    def __hash__(self) -> int:
        return hash((type(self), self._values()))

    def __repr__(self) -> str:
        values = ", ".join(f"{name}={value!r}" for name, value in zip(self.__slots__, self._values()))
        return f"{type(self).__qualname__}({values})"

    def __reduce__(self) -> tuple[Any, ...]:
        return type(self), self._values()

    def __setattr__(self, name: str, value: object) -> NoReturn:
        raise AttributeError(f"a policy can't be changed, nor its {name}")

    def __delattr__(self, name: str) -> NoReturn:
        raise AttributeError(f"a policy can't be changed, nor its {name}")


class Fifo(Policy):
    """Evicts the key that was inserted first."""

    __slots__ = ()
    name = "fifo"

    def __init__(self) -> None: ...


class Lru(Policy):
    """Evicts the key that was used least recently."""

    __slots__ = ()
    name = "lru"

    def __init__(self) -> None: ...


class Lfu(Policy):
    """w-TinyLFU: shares of the capacity for its window (0.1) and its protected segment (0.8), above 0 and together
    below 1, and the rows (3) and buckets (2719) of the sketch that counts uses."""

    __slots__ = ("window", "protected", "sketch_rows", "sketch_buckets")
    name = "lfu"
    window: float | None
    protected: float | None
    sketch_rows: int | None
    sketch_buckets: int | None

    def __init__(
        self,
        window: float | None = None,
        protected: float | None = None,
        sketch_rows: int | None = None,
        sketch_buckets: int | None = None,
    ) -> None:
        super().__init__(window, protected, sketch_rows, sketch_buckets)


class S3Fifo(Policy):
    """Shares of the capacity for the small queue (0.1), above 0 and below 1, and for the ghost queue (1), and how many
    uses (1) move a key from the small queue to the main one."""

    __slots__ = ("small", "ghost", "small_to_main")
    name = "s3fifo"
    small: float | None
    ghost: float | None
    small_to_main: int | None

    def __init__(self, small: float | None = None, ghost: float | None = None, small_to_main: int | None = None) -> None:
        super().__init__(small, ghost, small_to_main)


class Sieve(Policy):
    """Evicts the first key, from a hand that goes round, that was not used since the hand passed it."""

    __slots__ = ()
    name = "sieve"

    def __init__(self) -> None: ...


def split(policy: str | Policy) -> tuple[str, dict[str, Any]]:
    """The name of a policy, and what differs from its defaults."""
    if isinstance(policy, str):
        return policy, {}
    if not isinstance(policy, Policy):
        raise TypeError(f"a policy is a name or a {Policy.__name__}, not {policy!r}")
    changes: dict[str, Any] = {}
    for name, value in zip(policy.__slots__, policy._values()):
        if value is not None:
            changes[name] = (round(value * _PARTS), _PARTS) if name in _SHARES else value
    return policy.name, changes
