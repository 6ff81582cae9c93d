"""What the tests share."""

from __future__ import annotations

import dataclasses
import subprocess
import sys
import threading
from typing import Callable

POLICIES = ["fifo", "lru", "lfu", "s3fifo", "sieve"]


class Value:
    """An object that can be watched."""


@dataclasses.dataclass(frozen=True)
class Key:
    """A key whose hash and comparison are Python code, in which other threads may run."""

    number: int


def in_threads(*calls: Callable[[], object]) -> None:
    """Runs the calls in a thread each, which take turns as often as they can."""
    threads = [threading.Thread(target=it) for it in calls]
    interval = sys.getswitchinterval()
    sys.setswitchinterval(1e-6)
    try:
        for it in threads:
            it.start()
        for it in threads:
            it.join()
    finally:
        sys.setswitchinterval(interval)


def run_alone(text: str) -> str:
    """What a program writes."""
    done = subprocess.run([sys.executable, "-c", text], capture_output=True, text=True, timeout=60, check=True)
    return done.stdout
