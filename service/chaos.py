"""Five replicas and clients under faults that a seed gives; then the audit.

usage: python3 -m service.chaos FOLDER [--sessions] [--seed S] [--runs N] [--jobs J] [--seconds T]
                                [--faults F,..] [--deeds D,..] [--burst N] [--forget]
       python3 -m service.chaos --table FILE ..

Replicas are killed by SIGKILL, also within a write; links are cut, both ways or one way; disks
are slow or full. At a drawn moment a client submits many transactions at once. A crash that
recovers is no fault, so these hit any replica, also while another one is faulty: that one runs
`themisd-faulty` (`host/deeds`). In half of the runs with a faulty replica they hit that one
alone. --forget breaks the law of the log on purpose at honest replicas, so that the audit has
something to find; such a run passes where the audit finds all that it has to
(`service/forgetting.py`).

With --sessions each run is over short sessions that follow one another: a soak with drawn faults
and deeds (`service/chaos_sessions.py`), in which a crash may be a fault.

Each run has a process of its own, and prints a line as it ends. The folder of a run that fails is
kept. A table of all runs is printed at the end; --table makes one from the lines in files.
"""

from __future__ import annotations

import argparse
import asyncio
import random
import shutil
import signal
import sys
import time
from collections import Counter, deque
from collections.abc import Iterable, Iterator, Sequence
from contextlib import suppress
from dataclasses import replace
from itertools import islice
from pathlib import Path
from subprocess import Popen, TimeoutExpired

from service import chaos_sessions
from service.account import Account
from service.audit import Report, accounts_of, audit, is_promised, proposals
from service.client import Client, Load
from service.config import Cluster
from service.core import tx_text
from service.ending import settle
from service.folder import replica_ports, setups
from service.forgetting import earlier_accounts, forget, reuse_of
from service.making import Plan, held_ports, make, ports_of
from service.processes import START_WITHIN, WITH_PARENT, is_up, last_line, start, wait_up
from service.receipts import heard_in, passed
from service.runs import ALL_DEEDS, SESSION_DEEDS, Weather, names_of, perform_all
from service.status import Exit, ServiceError
from service.tally import FAULT_NAMES, Outcome, outcomes_of, table

FAULTS = ("kill", "kill", "tear", "cut", "one_way", "slow", "full")
MAX_TEAR = 100_000
CLIENTS = 3
BURST_CLIENT = 500
BURSTS = (0, 0, 300, 1000, 3000)
# What takes longer hangs.
SETTLE_WITHIN = 900.0
STOP_WITHIN = 300.0
WRITE_WITHIN = 3.0
MAX_DETAILS = 20
N = 5


class Run:
    """One run: a cluster, what breaks it, and what was seen."""

    def __init__(self, folder: Path, weather: Weather) -> None:
        self.weather, self.random = weather, random.Random(weather.seed)
        self.faulty = self.random.randrange(N)
        self.deeds = weather.draw_deeds(self.random)
        is_alone = bool(self.deeds) and self.random.random() < 0.5
        self.honest = [i for i in range(N) if not self.deeds or i != self.faulty]
        self.targets = [self.faulty] if is_alone else list(range(N))
        if weather.forget:
            self.targets = self.honest      # a faulty replica's log proves nothing
        self.held = held_ports(2 * N)
        plan = Plan(
            views=2600, ports=ports_of(self.held),
            more={"allow_faults": True, "log_receipts": True},
            deeds={self.faulty: list(self.deeds)} if self.deeds else {},
        )
        shutil.rmtree(folder, ignore_errors=True)
        self.session = make(folder, plan)
        self.ports = replica_ports(self.session)
        self.processes: dict[int, Popen[bytes]] = {}
        self.faults: Counter[str] = Counter()
        self.host_faults: list[str] = []
        self.dropped = 0
        self.clients: list[Client] = []
        self.bursts = 0

    # ---- processes

    async def start(self, replica: int) -> None:
        self.processes[replica] = process = start(self.session, replica, WITH_PARENT)
        end = time.monotonic() + START_WITHIN
        while not is_up(self.ports[replica]):
            if process.poll() is not None or time.monotonic() > end:
                text = f"replica {replica}: {last_line(self.session, replica)}"
                raise ServiceError(Exit.NETWORK, text)
            await asyncio.sleep(0.05)

    def stop(self, replicas: Iterable[int]) -> None:
        """Ends replicas by SIGTERM; one that does not end by it is at fault."""
        ends = [(i, self.processes[i]) for i in replicas if i in self.processes]
        for _, process in ends:
            process.terminate()
        for i, process in ends:
            try:
                process.wait(STOP_WITHIN)
            except TimeoutExpired:
                process.kill()
                process.wait(STOP_WITHIN)
                self.host_faults.append(f"replica {i} did not end by SIGTERM")

    def look_at_hosts(self) -> None:
        """Notes what no honest replica may do: end by itself, or meet a fault of its program."""
        for i in self.honest:
            if self.processes[i].poll() is not None:
                text = f"replica {i} ended by itself: {last_line(self.session, i)}"
                self.host_faults.append(text)
            if "panicked at" in (self.session / f"{i}.out").read_text():
                self.host_faults.append(f"replica {i} met a fault of its program: see {i}.out")

    # ---- faults

    async def break_things(self) -> None:
        """One fault after the other: those that were asked for, or drawn ones until the time is
        over."""
        end = time.monotonic() + self.weather.seconds
        wanted = deque(self.weather.faults or ())
        while wanted or self.weather.faults is None and time.monotonic() < end:
            await asyncio.sleep(self.random.uniform(0.3, 1.2))
            replica, drawn = self.random.choice(self.targets), self.random.choice(FAULTS)
            fault = wanted.popleft() if wanted else "kill" if self.weather.forget else drawn
            self.faults[await self._perform(fault, replica)] += 1

    async def _perform(self, fault: str, replica: int) -> str:
        """Returns the fault that came about."""
        others = [i for i in range(N) if i != replica]
        match fault:
            case "kill":
                await self._restart(replica)
            case "tear":
                size = self.random.randrange(1, MAX_TEAR)
                return await self._end_by_write(replica, fault, f"tear {size}", -signal.SIGKILL)
            case "full":
                return await self._end_by_write(replica, fault, fault, Exit.DISK)
            case "cut" | "one_way":
                cut = others if fault == "cut" else self.random.sample(others, 2)
                await self.order(replica, "cut " + " ".join(map(str, cut)))
                await asyncio.sleep(self.random.uniform(0.5, 2))
                await self.order(replica, "heal")
            case "slow":
                await self.order(replica, "slow 0.1")
                await asyncio.sleep(1)
                await self.order(replica, "slow 0")
        return fault

    async def _end_by_write(self, replica: int, fault: str, order: str, status: int) -> str:
        """Orders a fault of the disk, which the next write meets and the process ends by. Where
        nothing is written for a while, the process is killed."""
        process = self.processes[replica]
        with suppress(OSError):     # the process may end before it answers
            await self.order(replica, order)
        end = time.monotonic() + WRITE_WITHIN
        while process.poll() is None and time.monotonic() < end:
            await asyncio.sleep(0.05)
        ended = process.poll()
        if ended not in (None, status):
            self.host_faults.append(f"replica {replica} ended with {ended} by the fault {order}")
        await self._restart(replica)
        return fault if ended is not None else "kill"

    async def order(self, replica: int, what: str) -> None:
        await self.ports[replica].order(f"fault {what}")

    async def _restart(self, replica: int) -> None:
        self.processes[replica].kill()
        self.processes[replica].wait(STOP_WITHIN)
        if self.weather.forget:
            self.dropped += forget(self.session / f"{replica}.log")
        await asyncio.sleep(self.random.uniform(0, 1))
        await self.start(replica)

    # ---- the run

    async def run(self) -> bool:
        """Runs the clients among the faults; whether all was final and level in the end."""
        for i in range(N):
            self.processes[i] = start(self.session, i, WITH_PARENT)
        wait_up(self.session, self.processes)
        count = int(self.weather.seconds * self.weather.rate / CLIENTS)
        rate = self.weather.rate / CLIENTS
        self.clients = [
            Client(self.ports, 1, Load([f"{c}.{k}.{k * k}" for k in range(count)], rate, 0.05))
            for c in range(1, CLIENTS + 1)
        ]
        wait = self.weather.seconds + SETTLE_WITHIN
        loads = [client.run(wait) for client in self.clients]
        work = asyncio.gather(*loads, self._burst(wait))
        await self.break_things()
        is_final = all(await work)
        return await self._settle() and is_final

    async def _burst(self, wait: float) -> bool:
        """Many transactions at once, at a moment that the seed draws."""
        drawn = self.random.choice(BURSTS)
        count = self.weather.burst if self.weather.burst is not None else drawn
        self.bursts = count
        await asyncio.sleep(self.random.uniform(0, self.weather.seconds / 2))
        if count == 0:
            return True
        texts = [f"{BURST_CLIENT}.{k}.0" for k in range(count)]
        self.clients.append(client := Client(self.ports, 1, Load(texts, 1e6)))
        return await client.run(wait)

    async def _settle(self) -> bool:
        """Until all honest replicas have the same list. A faulty one's is its own affair."""
        faulty = set(range(N)) - set(self.honest)
        self.stop(faulty)
        is_settled = await settle(self.session, SETTLE_WITHIN, faulty)
        self.look_at_hosts()
        return is_settled

    # ---- what it showed

    def outcome(self, is_settled: bool) -> Outcome:
        """Audits the logs of a run that has ended."""
        found = setups(self.session)
        faulty = set(range(N)) - set(self.honest)
        accounts = accounts_of(found, faulty)
        report, _ = audit(found[0].cluster, accounts, faulty, is_settled)
        broken = [*self.host_faults, *report.broken, *self._passed(found[0].cluster, accounts)]
        is_well = is_settled and report.verdict == "yes" and not broken
        reuse, details = None, [] if report.verdict == "yes" else [report.verdict]
        if self.weather.forget:
            honest = [accounts[i] for i in self.honest]
            reuse = reuse_of(
                earlier_accounts(found[i] for i in self.honest), honest,
                found[0].cluster.height, report.reused_leaves, self.dropped,
            )
            is_well = not reuse.missed and (is_well or bool(report.reused_leaves))
            details.append(reuse.text())
        return replace(
            self._measured(report), is_settled=is_settled, broken=len(broken), reuse=reuse,
            has_passed=is_well, details=(*details, *broken[:MAX_DETAILS]),
        )

    def _passed(self, cluster: Cluster, accounts: Sequence[Account]) -> Iterator[str]:
        """Transactions that passed others which every honest replica received before them."""
        longest = max((accounts[i] for i in self.honest), key=lambda it: len(it.batches))
        position = {tx: at for at, batch in enumerate(longest.batches) for tx in batch}
        known = proposals(cluster, longest)
        pairs = passed(
            heard_in(self.session, self.honest), position,
            lambda a, b: b in known and is_promised(known, a, b),
        )
        for a, b in islice(pairs, MAX_DETAILS):
            yield f"passed: {tx_text(b)} is final before {tx_text(a)}, which all received first"

    def _measured(self, report: Report) -> Outcome:
        times = sorted(it for client in self.clients for it in client.latency.values())
        median, p99 = (times[int(len(times) * part)] for part in (0.5, 0.99)) if times else (0, 0)
        return Outcome(
            seed=self.weather.seed, faulty=self.faulty if self.deeds else None, deeds=self.deeds,
            faults=dict(self.faults), final=len(times), median=median, p99=p99,
            pairs=report.promised_pairs, seals=report.compared_seals, burst=self.bursts,
            equivocations=report.equivocations, verdict=report.verdict.split()[0].strip(":"),
        )


def perform(folder: Path, weather: Weather) -> Outcome:
    """One run and its audit. The folder stays where something was broken."""
    run = Run(folder, weather)
    try:
        is_settled = asyncio.run(run.run())
    finally:
        run.stop(range(N))
    outcome = run.outcome(is_settled)
    if outcome.has_passed:
        shutil.rmtree(folder)
    return outcome


# ---- command


def arguments() -> argparse.Namespace:
    parser = argparse.ArgumentParser(description="Replicas under faults that a seed gives.")
    parser.add_argument("folder", type=Path, nargs="?", help="a folder for the runs")
    parser.add_argument("--sessions", action="store_true", help="sessions follow one another")
    parser.add_argument("--seed", type=int, default=1, help="of the first run")
    parser.add_argument("--runs", type=int, default=1, help="runs, each with the next seed")
    parser.add_argument("--jobs", type=int, default=1, help="runs at a time")
    parser.add_argument("--seconds", type=float, default=10.0, help="of faults in a run")
    parser.add_argument("--rate", type=float, default=30.0, help="transactions a second")
    parser.add_argument("--faults", type=names_of(FAULT_NAMES), metavar="F,..",
                        help="each once, instead of drawn ones: "
                        f"{', '.join(sorted(set(FAULTS)))}; or none. With --sessions those that are"
                        f" drawn: {', '.join(chaos_sessions.FAULTS)}")
    parser.add_argument("--deeds", type=names_of(ALL_DEEDS), metavar="D,..",
                        help=f"of a faulty replica: {', '.join(ALL_DEEDS)}; or none")
    parser.add_argument("--burst", type=int, help="transactions at once, instead of a drawn number")
    parser.add_argument("--forget", action="store_true", help="drop records that were acted on")
    parser.add_argument("--table", type=Path, nargs="+", metavar="FILE",
                        help="run nothing; print the table of the runs whose lines are in files")
    given = parser.parse_args()
    if (given.folder is None) == (given.table is None):
        parser.error("one of FOLDER and --table is needed")
    if given.sessions and (given.forget or given.burst is not None):
        parser.error("--forget and --burst are of one session")
    if not given.sessions:
        unknown = {*(given.faults or ())} - {*FAULTS} | {*(given.deeds or ())} & {*SESSION_DEEDS}
        if unknown:
            parser.error(f"only with --sessions: {', '.join(sorted(unknown))}")
    return given


def main() -> int:
    given = arguments()
    if given.table:
        texts = (path.read_text() for path in given.table)
        print(table(outcomes_of(line for text in texts for line in text.splitlines())))
        return Exit.STOPPED
    weathers = [
        Weather(
            seed, given.seconds, given.rate, given.faults, given.deeds, given.burst, given.forget,
            given.sessions,
        )
        for seed in range(given.seed, given.seed + given.runs)
    ]
    outcomes = []
    of_one = chaos_sessions.perform if given.sessions else perform
    for outcome in perform_all(of_one, given.folder.resolve(), weathers, given.jobs):
        print(outcome.text(), flush=True)
        outcomes.append(outcome)
    print(table(outcomes))
    return Exit.STOPPED if all(it.has_passed for it in outcomes) else Exit.CHECK_FAILED


if __name__ == "__main__":
    sys.exit(main())
