"""A cluster whose sessions follow one another, as processes of this machine that a test starts,
kills and waits for. One of its replicas may be faulty: it runs `themisd-faulty`."""

from __future__ import annotations

import asyncio
import shutil
import subprocess
import time
from collections.abc import Callable
from concurrent.futures import ThreadPoolExecutor
from contextlib import suppress
from dataclasses import replace
from pathlib import Path
from typing import Any

from service.folder import config_path, replica_ports
from service.making import Plan, held_ports, make_endless, ports_of
from service.processes import WITH_PARENT, start, status_of, statuses, wait_up
from service.program import call
from service.status import ServiceError

Statuses = list[dict[str, Any] | None]

OPEN = ("running", "out")       # stages in which a replica has done what a start takes
FAR = 10                        # views; a replica that is further behind fetches blocks
POLL_EVERY = 0.05
BACK_WITHIN = 900.0             # a replica that is not back after that does not come back
DONE_WITHIN = 20.0              # a faulty replica may have nothing to do that a fault meets
ASK_AFTER = 10.0                # seconds until operators end a session that has to end
ASK_EVERY = 0.5
STOP_WITHIN = 300.0             # a process that runs then hangs


class Endless:
    """Its processes, and where they stand."""

    def __init__(self, folder: Path, plan: Plan) -> None:
        """Makes the cluster anew in a folder."""
        shutil.rmtree(folder, ignore_errors=True)
        self.held = held_ports(2 * plan.n)      # so that runs at the same time have others
        self.session = make_endless(folder, replace(plan, ports=ports_of(self.held)))
        self.ports = replica_ports(self.session)
        self.n, self.faulty = plan.n, set(plan.deeds)
        self.honest = [i for i in range(plan.n) if i not in self.faulty]
        self.processes: dict[int, subprocess.Popen[bytes]] = {}
        self.expected: set[int] = set()         # replicas that are down on purpose
        self.broken: list[str] = []             # what may not be

    # ---- processes

    async def start_all(self) -> None:
        for i in range(self.n):
            self.start(i)
        await asyncio.to_thread(wait_up, self.session, self.processes)
        await self.until_level("all replicas run")

    def start(self, replica: int) -> None:
        self.processes[replica] = start(self.session, replica, WITH_PARENT)
        self.expected.discard(replica)

    def kill(self, replica: int) -> None:
        self.expected.add(replica)
        self.processes[replica].kill()
        self.processes[replica].wait()

    def stop(self) -> None:
        for process in self.processes.values():
            process.terminate()
        for i, process in self.processes.items():
            try:
                process.wait(STOP_WITHIN)
            except subprocess.TimeoutExpired:
                self.broken.append(f"replica {i} did not end by SIGTERM")
                process.kill()
        for it in self.held:
            it.close()

    def note_ended(self) -> None:
        """Notes processes that have ended by themselves."""
        for i, process in self.processes.items():
            if process.poll() is not None and i not in self.expected:
                self.broken.append(f"replica {i} ended by itself: {process.poll()}")
                self.expected.add(i)

    def write_accounts(self, last: int) -> None:
        """The accounts of all sessions up to this one, from logs that stayed; no replica runs."""
        with ThreadPoolExecutor(self.n) as pool:
            list(pool.map(lambda i: self._write_accounts_of(i, last), range(self.n)))

    def _write_accounts_of(self, replica: int, last: int) -> None:
        own = config_path(self.session, replica)
        for session in range(last + 1):
            if own.with_name(f"{replica}-{session}.log").exists():
                try:
                    text = call("account", own, "--session", str(session))
                except ServiceError as fault:
                    self._expect_honest(replica, f"no account of session {session}: {fault}")
                    continue
                own.with_name(f"{replica}-{session}.account").write_text(text)

    def _expect_honest(self, replica: int, what: str) -> None:
        """Notes what only a faulty replica may do."""
        if replica in self.honest:
            self.broken.append(f"replica {replica}: {what}")

    # ---- what operators do

    async def order(self, replica: int, line: str) -> None:
        """An order to a replica, which may end before it answers."""
        with suppress(OSError, TimeoutError):
            await self.ports[replica].order(line)

    async def end_sessions(self, last: int, after: float = 0.0) -> bool:
        """Has sessions end until all honest replicas that answer are past this one; from `after`
        seconds on. Operators ask again and again: while a session changes there is none that
        could end, and without load none ends by itself."""
        await asyncio.sleep(after)

        def lag(found: Statuses) -> dict[int, int]:
            """The sessions of those that are not past it."""
            return {i: it["session"] for i in self.honest
                    if (it := found[i]) is not None and it["session"] <= last}
        end = time.monotonic() + BACK_WITHIN
        while behind := lag(found := await self.status()):
            if time.monotonic() > end:
                self._note(f"session {last} ends", found)
                return False
            for i, session in behind.items():
                await self.ports[i].end_session(session)
            await asyncio.sleep(ASK_EVERY)
        return True

    # ---- where they stand

    async def status(self) -> Statuses:
        return await statuses(self.session)

    async def last_session(self) -> int:
        return last_session(await self.status())

    def is_level(self, found: Statuses) -> bool:
        """Whether all honest replicas run the same session, hear each other, and have caught up."""
        up = [it for i in self.honest if (it := found[i]) is not None]
        if len(up) < len(self.honest) or len({it["session"] for it in up}) > 1:
            return False
        commits = [it["commit"] for it in up]
        return max(commits) <= min(commits) + FAR and all(
            it["stage"] == "running" and it["heard"] >= len(up) for it in up
        )

    async def until(self, is_so: Callable[[Statuses], bool], what: str,
                    within: float = BACK_WITHIN) -> bool:
        """Waits for that, and notes where it does not come."""
        end = time.monotonic() + within
        while not is_so(found := await self.status()):
            if time.monotonic() > end:
                self._note(what, found)
                return False
            await asyncio.sleep(POLL_EVERY)
        return True

    async def until_open(self, replica: int) -> bool:
        """Waits until a replica has opened its log. No other one is asked: an answer may take long
        where much is to be done."""
        end = time.monotonic() + BACK_WITHIN
        while (found := await status_of(self.ports[replica])) is None or found["stage"] not in OPEN:
            if time.monotonic() > end:
                self.broken.append(f"replica {replica} has not started")
                return False
            await asyncio.sleep(POLL_EVERY)
        return True

    def _note(self, what: str, found: Statuses) -> None:
        """Notes what does not come."""
        states = [it and (it["session"], it["stage"], it["heard"]) for it in found]
        self.broken.append(f"does not come: {what}: {states}")

    async def until_level(self, what: str) -> None:
        """Waits until all honest replicas run. One that has no part in a session waits for its end,
        which does not come while nothing is submitted: then an operator asks for it."""
        asked = time.monotonic()
        end = asked + BACK_WITHIN
        while not self.is_level(found := await self.status()):
            if time.monotonic() > end:
                self._note(what, found)
                return
            out = [it["session"] for i in self.honest
                   if (it := found[i]) is not None and it["stage"] == "out"]
            if out and time.monotonic() - asked > ASK_AFTER:
                await self.end_sessions(min(out))
                asked = time.monotonic()
            await asyncio.sleep(POLL_EVERY)

    async def until_ended(self, replica: int, status: int) -> None:
        """Waits until a process has ended by what it was ordered, with that status. A faulty one
        that writes nothing, as it is out of the session, is killed after a while."""
        is_honest = replica in self.honest
        process = self.processes[replica]
        end = time.monotonic() + (BACK_WITHIN if is_honest else DONE_WITHIN)
        while process.poll() is None and time.monotonic() < end:
            await asyncio.sleep(POLL_EVERY)
        if process.poll() != status and (is_honest or process.poll() is not None):
            self.broken.append(f"replica {replica} ended with {process.poll()}, not {status}")
        if process.poll() is None:
            self.kill(replica)

    async def lists(self) -> list[list[str]]:
        """The list of each honest replica, as it shows it to a client, up to where all are."""
        found = await self.status()
        count = min((it["batches"] for i in self.honest if (it := found[i]) is not None), default=0)
        out = []
        for i in self.honest:
            reader, writer = await self.ports[i].open()
            writer.write(b"follow 0\n")
            out.append([(await reader.readline()).decode().strip() for _ in range(count)])
            writer.close()
        return out


def last_session(found: Statuses) -> int:
    return max((it["session"] for it in found if it is not None), default=0)
