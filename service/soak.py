"""Runs sessions that follow one another, under load and faults, and checks what came of it.

usage: python3 -m service.soak FOLDER [--minutes M] [--rate R] [--seed S] [--faults F,..]
                               [--deeds D,..] [--views V] [--height H] [--sessions N] [--short]

Five `themisd` with TLS, durable logs and stores run in FOLDER/run. Clients submit R transactions
a second in all, each to all replicas, and follow the one list. The views of a session are few, so
that sessions change often. One replica is faulty all the time: it runs `themisd-faulty`, and does
what --deeds names, or what the seed draws: one deed about changes of session, and another one
(`--deeds none`: no replica is faulty). Meanwhile one fault comes after the other, each at one
replica:

| Fault | What happens |
|---|---|
| kill | SIGKILL at a moment that the seed draws |
| change | SIGKILL at such a moment close to a change of session |
| step | the process dies right after a step of a change that the seed draws |
| tear | it dies within a write to its log |
| full | the disk of its log is full: it ends, with status 6 (`themisd` makes the fault itself) |
| away | it is down over two changes of session |
| lost | its log of the session that runs is lost: it has no part in that session |
| cut, one_way | for up to two seconds nothing goes to any peer, or to two of them |
| slow | for a second each write takes 0.1 s more |

f is 1, so with a faulty replica all but the last three hit that one alone: an honest replica that
is down while a session ends could lack its key in the next one, and count as a second faulty one.
With `--deeds none` they hit any.

The next fault waits until all honest replicas run the same session, hear each other and have caught
up: one that fetches blocks can't vote, and f is 1. In the end it is checked that each submitted
transaction is final and none is twice; that all honest replicas have the same list, which is the
one that clients heard; that the audit of each session says yes, and with a faulty replica lacks at
most its account; that no process ended by itself; that, from minute 5 on, the memory of no honest
replica grows by more than 20 %; that a killed honest replica had opened its log within 5 seconds;
and that no change of session without a fault left the list without a batch for more than a second.
--short checks neither of the last two.

Ends with 0 if all of that holds, with 9 if not, and with 10 if not all was final.
"""

from __future__ import annotations

import argparse
import asyncio
import random
import subprocess
import sys
import time
from collections import Counter
from collections.abc import Callable, Iterator
from contextlib import suppress
from dataclasses import dataclass
from functools import partial
from pathlib import Path

from service.chain import SessionReport
from service.chain_audit import Audits, line_of_report
from service.client import Load
from service.endless import BACK_WITHIN, Endless
from service.follower import Follower
from service.making import Plan
from service.processes import start_behind_others
from service.runs import ALL_DEEDS, DEEDS, SESSION_DEEDS, names_of
from service.session_faults import FAULTS, Faults
from service.status import Exit, ServiceError

N, F = 5, 1
CLIENTS = 8                     # each numbers its transactions 1, 2, 3 and so on
SHORT_FAULTS = ("step", "kill")
SAMPLE_EVERY = 2.0              # seconds, of memory
EXPORTED_WITHIN = 1800.0        # it waits while others want the processors
LEVEL_FROM, LEVEL_BY = 5, 1.2   # minutes; the growth of a replica's memory
QUIET = 3.0                     # seconds around a change in which no fault may be
BACKGROUND_FROM = 3.0           # minutes; a shorter run is audited once it is over
ACCOUNTS = 60                   # of ended sessions; the audit may fall that far back


@dataclass(frozen=True)
class Given:
    """What a soak is asked for."""

    minutes: float
    rate: float
    seed: int
    faults: tuple[str, ...]
    deeds: tuple[str, ...] | None       # None: the seed draws them
    views: int
    height: int
    sessions: int               # at least so many have to end
    view_floor: float
    max_gap: float              # seconds, as the next; 0: not checked
    max_start: float
    # Accounts are made in the end, from logs that stay: that takes less than to wait for what
    # replicas export, which they do with what the processors have left.
    keeps_logs: bool = False


class Soak:
    """One run."""

    def __init__(self, folder: Path, given: Given, say: Callable[[str], None]) -> None:
        """`say` takes lines for a reader, while it goes on."""
        self.given, self.folder, self.say = given, folder, say
        drawn = random.Random(given.seed)
        self.faulty, deeds = drawn.randrange(N), given.deeds
        if deeds is None:
            deeds = (drawn.choice(SESSION_DEEDS), drawn.choice(DEEDS))
        self.deeds: tuple[str, ...] = deeds
        more = {"allow_faults": True, "accounts": ACCOUNTS, "view_floor": given.view_floor,
                "keep_logs": given.keeps_logs}
        self.cluster = Endless(folder, Plan(
            n=N, f=F, views=given.views, height=given.height, more=more,
            deeds={self.faulty: list(self.deeds)} if self.deeds else {},
        ))
        self.faults = Faults(self.cluster, drawn, given.faults)
        self.memory: dict[int, dict[int, float]] = {}       # minute, replica, megabytes at most
        count = int(given.minutes * 60 * given.rate)
        txs = [f"{1 + k % CLIENTS}.{1 + k // CLIENTS}.{k}" for k in range(count)]
        self.client = Follower(self.cluster.ports, F, Load(txs, given.rate))
        self.began, self.last = 0.0, 0      # the last session that ends
        self.audits = Audits.of_folder(folder, patience=0.0)
        self.lists: list[list[str]] = []
        self.reports: list[SessionReport] = []

    # ---- what is seen meanwhile

    async def look(self) -> None:
        """Samples memory, and notes processes that end by themselves; prints a line a minute."""
        last_minute = 0
        while True:
            minute = int((time.monotonic() - self.began) / 60)
            self.cluster.note_ended()
            peaks = self.memory.setdefault(minute, {})
            for i, process in self.cluster.processes.items():
                peaks[i] = max(peaks.get(i, 0.0), megabytes(process.pid))
            if minute > last_minute:
                self._print_minute(last_minute)
                last_minute = minute
            await asyncio.sleep(SAMPLE_EVERY)

    def _print_minute(self, minute: int) -> None:
        at = self.began + 60 * (minute + 1)
        times = [it for it in self.client.watch.times if at - 60 <= it < at]
        gaps = [b - a for a, b in zip(times, times[1:])]
        memory = " ".join(f"{self.memory.get(minute, {}).get(i, 0):.0f}" for i in range(N))
        self.say(f"| {minute + 1} | {len(self.client.watch.cuts)} | {len(self.client.latency)} |"
                 f" {len(times)} | {max(gaps, default=0.0):.2f} | {memory} |"
                 f" {sum(it.start < at for it in self.faults.made)} |")

    def start_auditor(self) -> subprocess.Popen[bytes]:
        """Audits each session soon after it has ended, with what the processors have left."""
        words = [sys.executable, "-B", "-m", "service.audit", "--watch", self.folder]
        return start_behind_others(words, self.folder / "audit.out")

    # ---- the run

    async def run(self) -> bool:
        """Whether all became final."""
        await self.cluster.start_all()
        self.say("| Minute | Sessions ended | Final | Batches | Longest gap, s | Memory, MB |"
                 " Faults |\n|---|---|---|---|---|---|---|")
        self.began = time.monotonic()
        seconds = self.given.minutes * 60
        looking = asyncio.create_task(self.look())
        breaking = asyncio.create_task(self.faults.make(self.began + seconds))
        is_final = await self.client.run(seconds + BACK_WITHIN)
        await breaking
        await self.cluster.until_level("all replicas run in the end")
        await self._end_rest()
        looking.cancel()
        return is_final

    async def _end_rest(self) -> None:
        """Has the last sessions end, and waits until no replica needs their logs."""
        cluster = self.cluster
        self.last = max(await cluster.last_session(), self.given.sessions - 1)
        await cluster.end_sessions(self.last)
        if not self.given.keeps_logs:
            await cluster.until(lambda _: self._are_exported(self.last), "accounts are exported",
                                EXPORTED_WITHIN)
        await cluster.until_level("all replicas run once the last session has ended")
        self.lists = await cluster.lists()

    def _are_exported(self, last: int) -> bool:
        """Whether each session up to the last one was audited, or can be. With a faulty replica no
        honest one may lack its account."""
        done = {it.session for it in self.audits.reports()}
        needed = set(self.cluster.honest) if self.cluster.faulty else set()

        def can_be(session: int) -> bool:
            paths = self.audits.paths(session)
            return len(paths) >= N - F and needed <= set(paths)
        return all(it in done or can_be(it) for it in range(last + 1))

    # ---- checks

    def check(self, is_final: bool) -> Iterator[str]:
        """What does not hold."""
        yield from self.cluster.broken
        client = self.client
        if not is_final:
            yield f"{len(client.missing)} submitted transactions are not final"
        txs = [tx for batch in client.final for tx in batch]
        if len(set(txs)) != len(txs):
            yield "a transaction is twice in the list"
        lost = set(client.load.txs).difference(txs)
        if is_final and lost:
            yield f"{len(lost)} transactions are in no batch that clients heard"
        yield from self._check_lists()
        yield from self._check_audits()
        for it in self.faults.made:
            is_honest = it.replica in self.cluster.honest
            if is_honest and self.given.max_start and it.up > self.given.max_start:
                yield f"replica {it.replica} took {it.up:.1f} s to start after `{it.name}`"
        yield from self._check_memory()
        gaps = [it for it in self.quiet_gaps() if self.given.max_gap and it > self.given.max_gap]
        if gaps:
            yield f"{len(gaps)} changes without a fault left no batch for up to {max(gaps):.2f} s"

    def _check_lists(self) -> Iterator[str]:
        first = self.lists[0] if self.lists else []
        if not self.lists or any(it != first for it in self.lists):
            yield "the lists of the honest replicas are not equal"
        heard = [f"batch {at} {' '.join(txs)}" for at, txs in enumerate(self.client.final)]
        if first[:len(heard)] != heard:
            yield "the list that clients heard is not the replicas' list"
        for at, line in enumerate(first):
            if not line.startswith(f"batch {at} "):
                yield f"position {at} is missing"
                break

    def _check_audits(self) -> Iterator[str]:
        """Audits what was not audited meanwhile: each session up to the last one that ended."""
        for report in self.audits.ended():
            self.say(line_of_report(report))
        self.reports = self.audits.reports()
        if [it.session for it in self.reports] != list(range(len(self.reports))):
            yield f"not all sessions were audited: {[it.session for it in self.reports]}"
        if len(self.reports) < max(self.given.sessions, len(self.client.watch.cuts)):
            yield f"only {len(self.reports)} sessions were audited"
        position = 0
        for it in self.reports:
            if not it.is_well() or self.cluster.faulty and set(it.unusable) - self.cluster.faulty:
                yield line_of_report(it)
            if it.position != position:
                yield f"session {it.session} begins at {it.position}, not at {position}"
            position += it.batches

    def _check_memory(self) -> Iterator[str]:
        before = [self.memory.get(it, {}) for it in range(LEVEL_FROM - 2, LEVEL_FROM)]
        base = max((peak for it in before for peak in it.values()), default=0.0)
        for minute, peaks in self.memory.items():
            for i, peak in peaks.items():
                is_checked = minute >= LEVEL_FROM and i in self.cluster.honest
                if is_checked and peak > LEVEL_BY * base:
                    yield (f"replica {i} has {peak:.0f} MB in minute {minute + 1}, and none had"
                           f" more than {base:.0f} MB in the two before minute {LEVEL_FROM + 1}")

    def quiet_gaps(self) -> list[float]:
        """The gaps at changes of session under load with no fault around them."""
        watch, end = self.client.watch, self.began + 60 * self.given.minutes
        out = []
        for session, at in watch.cuts.items():
            when, gap = watch.times[at], watch.gap_at(session)
            is_loaded = self.began + QUIET < when < end - QUIET
            is_quiet = all(when + QUIET < it.start or (it.end or end) + QUIET < when
                           for it in self.faults.made)
            if gap is not None and is_loaded and is_quiet:
                out.append(gap)
        return out

    # ---- table

    def made(self) -> Counter[str]:
        """How often each fault was made."""
        return Counter(it.name for it in self.faults.made)

    def table(self) -> str:
        """What was seen, in figures."""
        client, gaps = self.client, self.quiet_gaps()
        made = self.made()
        times = client.watch.times
        longest = max((b - a for a, b in zip(times, times[1:])), default=0.0)
        late = sorted(client.latency.values()) or [0.0]
        memory = [max((it.get(i, 0.0) for it in self.memory.values()), default=0.0)
                  for i in range(N)]
        without = sum(bool(it.unusable) for it in self.reports)
        rows = {
            "faulty replica": f"{self.faulty}: {', '.join(self.deeds)}" if self.deeds
            else "none",
            "submitted, final": f"{len(client.load.txs)}, {len(client.latency)}",
            "sessions that ended, and batches": f"{len(self.reports)}, {len(self.lists[0])}"
            if self.lists else "none",
            "audits that say yes": f"{sum(it.is_well() for it in self.reports)}"
            f" ({without} without one replica's account)",
            "promised pairs that were checked": str(sum(it.promised_pairs for it in self.reports)),
            "faults": ", ".join(f"{made[it]} {it}" for it in FAULTS if made[it]) or "none",
            "start after a kill, longest":
            f"{max((it.up for it in self.faults.made), default=0.0):.1f} s",
            "latency median, p99":
            f"{late[len(late) // 2]:.2f}, {late[int(len(late) * 0.99)]:.2f} s",
            "longest gap between batches": f"{longest:.2f} s",
            "longest gap at a change without faults": f"{max(gaps):.2f} s ({len(gaps)} changes)"
            if gaps else "no such change",
            "memory of the replicas, greatest": " ".join(f"{it:.0f}" for it in memory) + " MB",
        }
        return "\n".join(["| | |", "|---|---|", *(f"| {k} | {v} |" for k, v in rows.items())])


def megabytes(pid: int) -> float:
    """The memory of a process."""
    with suppress(OSError):
        for line in Path(f"/proc/{pid}/status").read_text().splitlines():
            if line.startswith("VmRSS:"):
                return int(line.split()[1]) / 1024
    return 0.0


def make(
    folder: Path, given: Given, say: Callable[[str], None],
) -> tuple[Soak, bool, list[str]]:
    """A soak that is over; whether all was final; and what does not hold."""
    soak = Soak(folder, given, say)
    auditor = soak.start_auditor() if given.minutes >= BACKGROUND_FROM else None
    try:
        is_final = asyncio.run(soak.run())
    finally:
        soak.cluster.stop()
        if auditor is not None:
            auditor.terminate()
            auditor.wait()
    if given.keeps_logs:
        soak.cluster.write_accounts(soak.last)
    return soak, is_final, list(soak.check(is_final))


def perform(folder: Path, given: Given) -> Exit:
    """Runs a soak, and prints what was seen."""
    soak, is_final, wrong = make(folder / "run", given, partial(print, flush=True))
    print(soak.table())
    print(*(f"WRONG: {it}" for it in wrong), sep="\n", end="\n" if wrong else "")
    if wrong:
        return Exit.CHECK_FAILED if is_final else Exit.NOT_FINAL
    print("all of this holds")
    return Exit.STOPPED


def arguments() -> argparse.Namespace:
    parser = argparse.ArgumentParser(description="Sessions without end under load and faults.")
    parser.add_argument("folder", type=Path, help="FOLDER/run is made anew")
    parser.add_argument("--minutes", type=float, default=5.0, help="of load")
    parser.add_argument("--rate", type=float, default=300.0, help="transactions a second")
    parser.add_argument("--seed", type=int, default=1, help="draws faults and their moments")
    parser.add_argument("--faults", type=names_of(FAULTS), default=FAULTS, metavar="F,..",
                        help=f"{', '.join(FAULTS)}; or none")
    parser.add_argument("--deeds", type=names_of(ALL_DEEDS), metavar="D,..",
                        help=f"of a faulty replica, instead of two that the seed draws:"
                        f" {', '.join(ALL_DEEDS)}; or none")
    parser.add_argument("--views", type=int, default=400, help="of a session")
    parser.add_argument("--height", type=int, default=510, help="of the keys")
    parser.add_argument("--sessions", type=int, default=0, help="at least so many have to end")
    parser.add_argument("--view-floor", type=float, default=0.1,
                        help="seconds between views; more make the audits fall back")
    parser.add_argument("--max-gap", type=float, default=1.0, help="seconds without a batch at a"
                        " change of session without faults; 0: not checked, as on a busy machine")
    parser.add_argument("--max-start", type=float, default=5.0,
                        help="seconds until a killed replica has opened its log; 0: not checked")
    parser.add_argument("--short", action="store_true",
                        help="three sessions, half a minute of a little load, two faults, and no"
                        " faulty replica unless --deeds names some")
    given = parser.parse_args()
    if given.short:
        given.deeds = given.deeds or ()
        given.minutes, given.rate, given.faults, given.sessions = 0.5, 20.0, SHORT_FAULTS, 3
        given.views, given.height = 120, 505
        given.max_gap = given.max_start = 0.0       # nothing may depend on how long something takes
    return given


def main() -> int:
    given = arguments()
    try:
        words = {it: getattr(given, it) for it in Given.__dataclass_fields__ if it in given}
        return perform(given.folder.resolve(), Given(**words))
    except ServiceError as fault:
        print(f"soak: {fault}", file=sys.stderr)
        return fault.status


if __name__ == "__main__":
    sys.exit(main())
