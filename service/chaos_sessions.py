"""A chaos run over sessions that follow one another: a short soak, whose faults and deeds a seed
draws.

The sessions are short, so that they change every few seconds. Who is hit by which fault, and what
is checked, says `service.soak`; times are not checked, as several runs share a machine.
"""

from __future__ import annotations

import random
import shutil
from pathlib import Path

from service.runs import Weather
from service.session_faults import FAULTS
from service.soak import Given, Soak, make
from service.tally import Outcome

VIEWS, HEIGHT = 120, 505
VIEW_FLOOR = 0.1            # seconds: a session of that many views lasts some six seconds
SESSIONS = 3                # at least so many end
MAX_DETAILS = 20


def given_of(weather: Weather) -> Given:
    """What a soak is given for a seed."""
    return Given(
        minutes=weather.seconds / 60, rate=weather.rate, seed=weather.seed,
        faults=FAULTS if weather.faults is None else weather.faults,
        deeds=weather.draw_deeds(random.Random(weather.seed)),
        views=VIEWS, height=HEIGHT, sessions=SESSIONS, view_floor=VIEW_FLOOR,
        max_gap=0.0, max_start=0.0, keeps_logs=True,
    )


def perform(folder: Path, weather: Weather) -> Outcome:
    """One run and its audits. The folder stays where something was broken."""
    outcome = outcome_of(weather.seed, *make(folder, given_of(weather), lambda _: None))
    if outcome.has_passed:
        shutil.rmtree(folder)
    return outcome


def outcome_of(seed: int, soak: Soak, is_final: bool, wrong: list[str]) -> Outcome:
    """What a soak showed."""
    times = sorted(soak.client.latency.values())
    median, p99 = (times[int(len(times) * part)] for part in (0.5, 0.99)) if times else (0.0, 0.0)
    reports = soak.reports
    bad = [it.verdict.split()[0].strip(":") for it in reports if it.verdict != "yes"]
    return Outcome(
        seed=seed, faulty=soak.faulty if soak.deeds else None, deeds=soak.deeds,
        faults=dict(soak.made()), final=len(times), median=median, p99=p99,
        is_settled=is_final, pairs=sum(it.promised_pairs for it in reports),
        seals=sum(it.compared_seals for it in reports),
        equivocations=sum(it.equivocations for it in reports),
        verdict=bad[0] if bad else "yes" if reports else "none", broken=len(wrong),
        sessions=len(reports), without=sum(bool(it.unusable) for it in reports),
        has_passed=is_final and not wrong, details=tuple(wrong[:MAX_DETAILS]),
    )
