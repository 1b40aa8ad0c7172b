"""How the trials wait: for a state and never for a time, and a bound in seconds is one of a machine that has nothing else to do."""

from __future__ import annotations

import time
from collections.abc import Callable
from typing import TypeVar

Value = TypeVar("Value")
# Seconds of one processor for which the machine is tried.
WORK = 0.2
# A state is waited for so long before it counts as missing.
PATIENCE = 60


def stretch() -> float:
    """How many times as long as on an idle machine work takes here now."""
    begun, used = time.monotonic(), time.process_time()
    while time.process_time() - used < WORK:
        pass
    return max(1.0, (time.monotonic() - begun) / WORK)


def is_within(seconds: float, bound: float) -> bool:
    """Whether something took no longer than it may. Where by the clock it did, the bound is stretched as the machine's other work stretches
    everything."""
    return seconds <= bound or seconds <= bound * stretch()


def waited(found: Callable[[], Value], holds: Callable[[Value], object], seconds: float = PATIENCE, pause: float = 0.05) -> Value:
    """What is found once it holds, or what was found last. Where the machine has other work it is waited for longer, as everything takes longer."""
    begun, value = time.monotonic(), found()
    until, is_stretched = begun + seconds, False
    while not holds(value):
        if time.monotonic() > until and is_stretched:
            break
        if time.monotonic() > until:
            until, is_stretched = begun + seconds * stretch(), True
        time.sleep(pause)
        value = found()
    return value
