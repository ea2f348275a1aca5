"""Runs that seeds determine: what one is given, and several at a time, each in a process of its
own."""

from __future__ import annotations

import argparse
import multiprocessing
import random
import traceback
from collections.abc import Callable, Iterable, Iterator, Sequence
from concurrent.futures import ProcessPoolExecutor, ThreadPoolExecutor, as_completed
from dataclasses import dataclass
from pathlib import Path

from service.parent import stop_with_parent
from service.tally import Outcome

# Of a faulty replica (`host/deeds/src/deed.rs`): what a seed draws in any session, and besides over
# changes of session; and all that --deeds takes.
DEEDS = (
    "two_heads", "forge", "half", "mute", "reorder", "garbage", "stale", "leap", "climb", "flood",
    "front_run", "split",
)
SESSION_DEEDS = ("early_marker", "two_keys", "false_history")
ALL_DEEDS = (*DEEDS, "waste", "boast", *SESSION_DEEDS, "others_keys")


@dataclass(frozen=True)
class Weather:
    """What a run is given."""

    seed: int
    seconds: float = 10.0
    rate: float = 30.0                          # transactions a second, of all clients
    faults: tuple[str, ...] | None = None       # each once, in this order; None: the seed draws
    deeds: tuple[str, ...] | None = None        # None: the seed draws them
    burst: int | None = None                    # transactions at once; None: the seed draws it
    forget: bool = False
    is_over_sessions: bool = False

    def draw_deeds(self, drawn: random.Random) -> tuple[str, ...]:
        """What the faulty replica does, if there is one."""
        if self.deeds is not None:
            return self.deeds
        known = (*DEEDS, *SESSION_DEEDS) if self.is_over_sessions else DEEDS
        return tuple(drawn.sample(known, drawn.choice((0, 1, 1, 2, 3))))


Perform = Callable[[Path, Weather], Outcome]


def perform_apart(perform: Perform, folder: Path, weather: Weather) -> Outcome:
    """A run in a process of its own. Where it ends by a fault, the outcome says by which."""
    spawn = multiprocessing.get_context("spawn")
    try:
        with ProcessPoolExecutor(1, spawn, stop_with_parent) as pool:
            return pool.submit(perform, folder, weather).result()
    except Exception as fault:      # of any kind: the other runs go on
        lines = "".join(traceback.format_exception(fault)).splitlines()
        return Outcome(weather.seed, details=tuple(lines))


def perform_all(
    perform: Perform, folder: Path, weathers: Sequence[Weather], jobs: int,
) -> Iterator[Outcome]:
    """The runs, several at a time, as they end."""
    pool = ThreadPoolExecutor(jobs)
    try:
        runs = [pool.submit(perform_apart, perform, folder / str(it.seed), it) for it in weathers]
        for done in as_completed(runs):
            yield done.result()
    finally:
        pool.shutdown(cancel_futures=True)


def names_of(known: Iterable[str]) -> Callable[[str], tuple[str, ...]]:
    """A reader of names that commas separate, or of "none"."""
    def read(text: str) -> tuple[str, ...]:
        names = () if text == "none" else tuple(text.split(","))
        if unknown := set(names) - set(known):
            raise argparse.ArgumentTypeError(f"unknown: {', '.join(sorted(unknown))}")
        return names
    return read
