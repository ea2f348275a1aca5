"""How the session that runs is ended, where sessions follow one another."""

from __future__ import annotations

import asyncio
import unittest
from dataclasses import dataclass, field
from pathlib import Path
from types import SimpleNamespace
from typing import Any
from unittest.mock import patch

from service.ending import end_running
from service.ports import UNKNOWN, Port
from service.status import Exit, ServiceError

Found = list[dict[str, Any] | None]


def at_stage(session: int, stage: str = "running") -> dict[str, Any]:
    """The status of a replica; each session has ten batches."""
    return {"session": session, "stage": stage, "first": 10 * session}


@dataclass(frozen=True)
class Played(Port):
    """The port of a replica that is played here. It notes what it is ordered."""

    answers: dict[str, str] = field(default_factory=dict)
    ordered: list[str] = field(default_factory=list)

    async def order(self, line: str) -> str:
        self.ordered.append(line)
        return self.answers.get(line, UNKNOWN)


class EndRunning(unittest.TestCase):
    """Who is asked for the end of a session, and when the next one runs."""

    def play(
        self, found: list[Found], answers: dict[str, str], wait: float = 600.0,
    ) -> tuple[tuple[int, int, bool], list[list[str]]]:
        """What comes of it where these are the statuses of five replicas, one list after the other,
        the last one again and again; and what each replica was ordered."""
        ports = [Played("", 0, Path(), None, Path(), answers) for _ in range(5)]
        following = iter(found)
        setup = SimpleNamespace(cluster=SimpleNamespace(n=5, f=1))

        async def statuses(_: Path) -> Found:
            return next(following, found[-1])
        with (patch("service.ending.statuses", statuses), patch("service.ending.ASK_EVERY", 0.0),
              patch("service.ending.replica_ports", lambda _: ports),
              patch("service.ending.setups", lambda _: [setup])):
            ended = asyncio.run(end_running(Path("replicas"), wait))
        return ended, [it.ordered for it in ports]

    def test_who_has_left_the_session_is_not_asked_again(self) -> None:
        old, new, opening = at_stage(3), at_stage(4), at_stage(4, "opening")
        ended, ordered = self.play([
            [old, old, old, old, at_stage(2)],
            [new, old, opening, None, new],
            [new, new, opening, None, new],
            [new, new, new, at_stage(4, "out"), new],
        ], {"close 3": "ok"})
        self.assertEqual(ended, (3, 40, True))
        self.assertEqual(ordered, [["close 3"], ["close 3"] * 2, ["close 3"], ["close 3"], []])

    def test_a_replica_that_takes_no_number(self) -> None:
        found: list[Found] = [[at_stage(0)] * 5, [at_stage(1)] * 5]
        ended, ordered = self.play(found, {"close": "ok"})
        self.assertEqual((ended, ordered), ((0, 10, True), [["close 0", "close"]] * 5))

    def test_the_last_one_ends_where_a_quorum_opens_none(self) -> None:
        end = at_stage(1, "ended")
        found: list[Found] = [
            [at_stage(0)] * 5, [end, end, at_stage(1, "storing"), end, end],
            [end, end, end, at_stage(1, "opening"), end], [end, end, end, at_stage(1), end],
        ]
        ended, _ = self.play(found, {"close 0": "ok"})
        self.assertEqual(ended, (0, 10, False))

    def test_the_next_one_has_to_run(self) -> None:
        new = at_stage(1)
        lacking: list[Found] = [
            [at_stage(1, "marking"), new, new, new, new],
            [new, new, new, None, None],
            [at_stage(0), new, new, new, new],
            [at_stage(1, "ended"), at_stage(1, "ended"), new, new, new],    # operators disagree
        ]
        for found in lacking:
            with self.assertRaises(ServiceError) as refused:
                self.play([[at_stage(0)] * 5, found], {"close 0": "ok"}, 0.05)
            self.assertEqual(refused.exception.status, Exit.NOT_FINAL)
            self.assertIn("the session after 0 does not run", str(refused.exception))


if __name__ == "__main__":
    unittest.main()
