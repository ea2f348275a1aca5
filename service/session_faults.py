"""Faults of replicas whose sessions follow one another: one after the other, each at one replica.

f is 1. Where a replica is faulty, all that may keep another one out of a session is done to that
one alone: an honest replica that is down while a session ends could lack its key in the next one,
and would be a second faulty one. Cuts and slow disks, which end after two seconds, hit any
replica. Where none is faulty, all of them hit any.
"""

from __future__ import annotations

import asyncio
import random
import signal
import time
from collections.abc import AsyncIterator, Awaitable, Callable
from contextlib import asynccontextmanager
from dataclasses import dataclass

from service.endless import ASK_AFTER, Endless
from service.folder import config_path
from service.status import Exit

STEPS = ("ended", "stored", "made", "marked")
BRIEF = ("cut", "one_way", "slow")
FAULTS = ("kill", "change", "step", "tear", "full", "away", "lost", *BRIEF)
MAX_TEAR = 1 << 16


@dataclass
class Fault:
    """A fault that was made."""

    name: str
    replica: int
    start: float
    end: float = 0.0
    up: float = 0.0             # seconds from the start of the process until its log is open


class Faults:
    """What is done to a cluster."""

    def __init__(self, cluster: Endless, drawn: random.Random, names: tuple[str, ...]) -> None:
        self.cluster, self.random, self.names = cluster, drawn, names
        self.made: list[Fault] = []
        self.makers: dict[str, Callable[[int], Awaitable[None]]] = {
            "kill": self._kill, "change": self._change, "step": self._step, "tear": self._tear,
            "full": self._full, "away": self._away, "lost": self._lost, "cut": self._cut,
            "one_way": self._one_way, "slow": self._slow,
        }

    async def make(self, until: float) -> None:
        """Makes one fault after the other, each kind once before any comes again."""
        names: list[str] = []
        while self.names and time.monotonic() < until:
            names = names or self.random.sample(self.names, len(self.names))
            await asyncio.sleep(self.random.uniform(0.5, 4.0))
            name = names.pop()
            fault = Fault(name, self._draw_replica(name), time.monotonic())
            self.made.append(fault)
            await self.makers[name](fault.replica)
            await self.cluster.until_level(f"all are back after `{name}` of {fault.replica}")
            fault.end = time.monotonic()

    def _draw_replica(self, name: str) -> int:
        faulty = sorted(self.cluster.faulty)
        return self.random.choice(faulty if faulty and name not in BRIEF
                                  else range(self.cluster.n))

    async def _restart(self, replica: int) -> None:
        await asyncio.sleep(self.random.uniform(0.1, 1.5))
        begun = time.monotonic()
        self.cluster.start(replica)
        if await self.cluster.until_open(replica):
            self.made[-1].up = time.monotonic() - begun

    # ---- processes that end

    async def _kill(self, replica: int) -> None:
        self.cluster.kill(replica)
        await self._restart(replica)

    async def _change(self, replica: int) -> None:
        async with self._ending(replica) as session:
            await self.cluster.until(
                lambda all_: (it := all_[replica]) is None or it["stage"] != "running"
                or it["session"] > session, f"session {session} ends")
        await asyncio.sleep(self.random.uniform(0.0, 0.3))
        await self._kill(replica)

    async def _step(self, replica: int) -> None:
        step = self.random.choice(STEPS)
        await self._end_by(replica, f"fault die {step}", -signal.SIGKILL)

    async def _tear(self, replica: int) -> None:
        size = self.random.randrange(MAX_TEAR)
        await self._end_by(replica, f"fault tear {size}", -signal.SIGKILL)

    async def _full(self, replica: int) -> None:
        await self._end_by(replica, "fault full", Exit.DISK)

    async def _end_by(self, replica: int, order: str, status: int) -> None:
        """The process ends with this status, by a fault that it meets at the end of the session at
        the latest: without load nothing is written before."""
        self.cluster.expected.add(replica)
        await self.cluster.order(replica, order)
        async with self._ending(replica):
            await self.cluster.until_ended(replica, status)
        await self._restart(replica)

    async def _away(self, replica: int) -> None:
        known = await self.cluster.last_session()
        self.cluster.kill(replica)
        await self.cluster.end_sessions(known + 1)
        await self._restart(replica)

    async def _lost(self, replica: int) -> None:
        found = (await self.cluster.status())[replica]
        self.cluster.kill(replica)
        number = found["session"] if found else await self.cluster.last_session()
        own = config_path(self.cluster.session, replica).parent
        (own / f"{replica}-{number}.log").unlink(missing_ok=True)
        await self._restart(replica)

    @asynccontextmanager
    async def _ending(self, replica: int) -> AsyncIterator[int]:
        """Meanwhile the session that a replica runs ends: half of the times operators ask for it at
        once, and otherwise where it does not end by itself."""
        found = (await self.cluster.status())[replica]
        session = found["session"] if found else 0
        after = self.random.choice((0.0, ASK_AFTER))
        asking = asyncio.create_task(self.cluster.end_sessions(session, after))
        try:
            yield session
        finally:
            asking.cancel()

    # ---- links and disks

    async def _cut(self, replica: int) -> None:
        await self._cut_off(replica, self.cluster.n - 1)

    async def _one_way(self, replica: int) -> None:
        await self._cut_off(replica, 2)

    async def _cut_off(self, replica: int, count: int) -> None:
        """Nothing goes to so many peers, also while a session ends."""
        others = [i for i in range(self.cluster.n) if i != replica]
        peers = " ".join(map(str, self.random.sample(others, count)))
        async with self._ending(replica):
            await self.cluster.order(replica, f"fault cut {peers}")
            await asyncio.sleep(self.random.uniform(0.5, 2))
            await self.cluster.order(replica, "fault heal")

    async def _slow(self, replica: int) -> None:
        await self.cluster.order(replica, "fault slow 0.1")
        await asyncio.sleep(1)
        await self.cluster.order(replica, "fault slow 0")
