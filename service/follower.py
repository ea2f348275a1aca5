"""A client of sessions that follow one another, which notes when each batch was final."""

from __future__ import annotations

import time
from dataclasses import dataclass, field
from typing import Any

from service.client import Client


@dataclass
class Watch:
    """What a client hears, and when."""

    times: list[float] = field(default_factory=list)            # of each final batch
    cuts: dict[int, int] = field(default_factory=dict)          # session, batch with its marker

    def take(self, batches: list[list[str]], now: float) -> None:
        for txs in batches:
            for tx in txs:
                client, number, payload = tx.split(".")
                if client == "0" and payload == "0":
                    self.cuts[int(number)] = len(self.times)
            self.times.append(now)

    def gap_at(self, session: int) -> float | None:
        """The longest time without a batch right before and after the end of a session."""
        at = self.cuts[session]
        if at == 0 or at + 1 >= len(self.times):
            return None
        around = self.times[at - 1:at + 2]
        return max(around[1] - around[0], around[2] - around[1])


class Follower(Client):
    """A client that notes when each batch was final."""

    def __init__(self, *words: Any) -> None:
        super().__init__(*words)
        self.watch = Watch()

    def _hear(self, replica: int, line: str) -> None:
        known = len(self.final)
        super()._hear(replica, line)
        self.watch.take(self.final[known:], time.monotonic())
