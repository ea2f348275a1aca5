"""Submits transactions to a cluster, and follows the batches.

usage: python3 -m service.client FOLDER [TX .. | --file FILE | --count N] [--position P]

Without transactions it prints all final batches from position P on, for --wait seconds. With some
it follows from where the replicas of this machine stand, unless --position says otherwise.
Positions go on where sessions follow one another.

A batch is final for a client once f+1 replicas have reported it at its position: one of them is
honest. A client should submit to all replicas, since each orders by what it received itself.

With TLS, each transaction goes over a connection with the certificate of its own client (FOLDER has
them: `service/identities.py`).
"""

from __future__ import annotations

import argparse
import asyncio
import random
import statistics
import sys
import time
from collections import Counter, deque
from collections.abc import Callable
from dataclasses import dataclass, field
from pathlib import Path

from service.core import tx_of_text
from service.folder import current, is_endless, replica_ports, setups
from service.identities import FIRST
from service.ports import Port
from service.processes import statuses
from service.status import Exit, ServiceError

MAX_SUBMITTED = 200         # transactions of one line
RETRY_AFTER = 0.2
LANES = 8                   # connections of a client to a replica
TOO_FAR = "above the window"        # of a refusal that passes: earlier numbers are not final yet


@dataclass
class Batches:
    """The final batches, as f+1 replicas report them. Replicas are counted once a position."""

    enough: int
    position: int = 0                                                   # the next one
    reported: dict[int, dict[int, str]] = field(default_factory=dict)   # position, replica, batch

    def hear(self, replica: int, position: int, batch: str) -> list[str]:
        """Takes one report; returns the batches that are final by it, in their order."""
        if position >= self.position:
            self.reported.setdefault(position, {})[replica] = batch
        out: list[str] = []
        while (batch_now := self._agreed(self.position)) is not None:
            out.append(batch_now)
            del self.reported[self.position]
            self.position += 1
        return out

    def _agreed(self, position: int) -> str | None:
        counts = Counter(self.reported.get(position, {}).values())
        return next((it for it, count in counts.items() if count >= self.enough), None)


@dataclass
class Load:
    """What a client submits, and how: `rate` a second, each delayed by up to `jitter` seconds. The
    first is due after `lead` seconds: connections and missing certificates are made before."""

    txs: list[str]
    rate: float = 100.0
    jitter: float = 0.02
    only: list[int] | None = None       # replicas to submit to; None means all
    lead: float = 0.05


class Client:
    """Submits a load, and follows all replicas until it is final."""

    def __init__(self, replicas: list[Port], f: int, load: Load, position: int = 0) -> None:
        self.replicas, self.load = replicas, load
        self.batches = Batches(f + 1, position)
        self.final: list[list[str]] = []
        self.start_of: dict[str, float] = {}
        self.latency: dict[str, float] = {}
        self.answers: Counter[str] = Counter()
        self.missing = set(load.txs)
        self.refused: dict[str, dict[int, str]] = {}    # by replica: its number was used before
        self.is_done = asyncio.Event()
        self.reader = client_of(load.txs[0]) if load.txs else FIRST     # who follows

    async def run(self, wait: float) -> bool:
        """Whether all was final within `wait` seconds."""
        start = time.monotonic() + self.load.lead
        self.start_of = {tx: start + k / self.load.rate for k, tx in enumerate(self.load.txs)}
        only = range(len(self.replicas)) if self.load.only is None else self.load.only
        async with asyncio.TaskGroup() as group:
            work = [group.create_task(self._submit(i)) for i in only]
            work += [group.create_task(self._follow(i)) for i in range(len(self.replicas))]
            try:
                async with asyncio.timeout(wait):
                    await self.is_done.wait()
            except TimeoutError:
                pass
            for task in work:
                task.cancel()
        return self.is_done.is_set()

    async def _submit(self, replica: int) -> None:
        """Sends each transaction until the replica has answered `ok`, over several connections of
        its client: a replica answers a line only once its transactions are durable there."""
        jitter = self.load.jitter
        queues: dict[int, deque[tuple[float, str]]] = {}
        due = ((at + random.uniform(0, jitter), tx) for tx, at in self.start_of.items())
        for at, tx in sorted(due):
            queues.setdefault(client_of(tx), deque()).append((at, tx))
        async with asyncio.TaskGroup() as group:
            for client, queue in queues.items():
                for _ in range(max(1, LANES // len(queues))):
                    group.create_task(self._run_lane(replica, client, queue))

    async def _run_lane(
        self, replica: int, client: int, queue: deque[tuple[float, str]],
    ) -> None:
        """One connection, and the next one where it ends, until nothing is left."""
        while queue:
            try:
                reader, writer = await self.replicas[replica].open(client)
                try:
                    while queue:
                        await self._send_due(replica, queue, reader, writer)
                finally:
                    writer.close()
            except OSError:
                await asyncio.sleep(RETRY_AFTER)

    async def _send_due(
        self, replica: int, queue: deque[tuple[float, str]], reader: asyncio.StreamReader,
        writer: asyncio.StreamWriter,
    ) -> None:
        """Sends what is due, and waits for the answer. What is not taken goes back."""
        await asyncio.sleep(queue[0][0] - time.monotonic())
        now = time.monotonic()
        due: list[tuple[float, str]] = []
        while queue and queue[0][0] <= now and len(due) < MAX_SUBMITTED:
            due.append(queue.popleft())
        if not due:
            return
        answer = ""
        try:
            writer.write(f"submit {' '.join(tx for _, tx in due)}\n".encode())
            answer = (await reader.readline()).decode().strip()
        finally:
            is_over = self._is_over(answer, replica, [tx for _, tx in due])
            queue.extendleft(it for it in reversed(due) if not is_over(it[1]))
        if not answer:
            raise ConnectionError("closed")
        self.answers[answer.split()[0]] += 1
        if answer.startswith("busy") or TOO_FAR in answer:
            await asyncio.sleep(RETRY_AFTER)

    def _is_over(self, answer: str, replica: int, txs: list[str]) -> Callable[[str], bool]:
        """Which transactions of a line need not be sent to this replica again. A refusal names one,
        and the others were not taken either."""
        word, _, rest = answer.partition(" ")
        named, _, cause = rest.partition(": ")
        if word != "bad" or named not in txs:
            return lambda _: word in ("ok", "closed", "over", "bad")
        if TOO_FAR in cause:
            return lambda _: False
        refusals = self.refused.setdefault(named, {})
        refusals[replica] = cause
        if len(refusals) >= self.batches.enough:
            self._settle(named)
        return lambda tx: tx == named

    def _settle(self, tx: str) -> None:
        """Nothing more is to be heard of a transaction."""
        self.missing.discard(tx)
        if self.load.txs and not self.missing:
            self.is_done.set()

    async def _follow(self, replica: int) -> None:
        """Hears the batches of one replica, for ever. Where a connection ends, it makes another."""
        while True:
            try:
                reader, writer = await self.replicas[replica].open(self.reader)
                try:
                    writer.write(f"follow {self.batches.position}\n".encode())
                    while line := (await reader.readline()).decode():
                        self._hear(replica, line)
                finally:
                    writer.close()
            except OSError:
                pass
            await asyncio.sleep(RETRY_AFTER)

    def _hear(self, replica: int, line: str) -> None:
        words = line.split(maxsplit=2)
        if len(words) != 3 or words[0] != "batch" or not words[1].isdigit():
            return
        now = time.monotonic()
        for batch in self.batches.hear(replica, int(words[1]), words[2].strip()):
            txs = batch.split()
            self.final.append(txs)
            for tx in txs:
                if tx in self.start_of:
                    self.latency[tx] = now - self.start_of[tx]
                    self._settle(tx)

    def summary(self) -> str:
        """Counts, throughput, and latency from the time when a transaction was due."""
        count, times = len(self.load.txs), sorted(self.latency.values())
        if not times:
            return f"final 0 of {count}; answers {dict(self.answers)}"
        ends = [self.start_of[tx] + late for tx, late in self.latency.items()]
        span = max(ends) - min(self.start_of.values())
        return (
            f"final {len(times)} of {count}; {len(times) / span:.0f}/s; latency median"
            f" {statistics.median(times) * 1000:.0f} ms, p99"
            f" {times[int(len(times) * 0.99)] * 1000:.0f} ms; answers {dict(self.answers)}"
        )


def client_of(tx: str) -> int:
    """The client's number in a transaction."""
    return int(tx.split(".")[0])


def arguments() -> argparse.Namespace:
    parser = argparse.ArgumentParser(description="Submits transactions and follows the batches.")
    parser.add_argument("folder", type=Path, help="the folder of `cluster make`")
    what = parser.add_mutually_exclusive_group()
    what.add_argument("txs", nargs="*", default=[], help="transactions, client.number.payload")
    parser.add_argument("--file", type=Path, help="a file of transactions, one a line")
    parser.add_argument("--count", type=int, default=0, help="submit that many generated ones")
    parser.add_argument("--rate", type=float, default=100.0, help="transactions a second")
    parser.add_argument("--position", type=int, help="the first batch to follow (default: 0, or"
                        " where the replicas are when something is submitted)")
    parser.add_argument("--jitter", type=float, default=0.02, help="seconds of delay at most")
    parser.add_argument("--wait", type=float, default=60.0, help="seconds until it gives up")
    return parser.parse_args()


def transactions(given: argparse.Namespace) -> list[str]:
    """What to submit; ServiceError where a text is no transaction. Made transactions have a client
    number that is drawn at random."""
    texts: list[str] = list(given.txs)
    try:
        if given.file:
            texts += given.file.read_text().split()
        for text in texts:
            tx_of_text(text)
    except (OSError, ValueError) as fault:
        raise ServiceError(Exit.USAGE, str(fault)) from fault
    client = random.randrange(1, 1 << 32)
    return texts + [f"{client}.{k}.0" for k in range(1, given.count + 1)]


def main() -> int:
    try:
        return perform(arguments())
    except ServiceError as fault:
        print(f"client: {fault}", file=sys.stderr)
        return fault.status


def perform(given: argparse.Namespace) -> int:
    load = Load(transactions(given), given.rate, given.jitter)
    session = current(given.folder.resolve())
    at = given.position
    if at is None:
        at = position_now(session) if load.txs else 0
    client = Client(replica_ports(session), setups(session)[0].cluster.f, load, at)
    is_done = asyncio.run(client.run(given.wait))
    for position, txs in enumerate(client.final, at):
        if not load.txs or set(txs) & set(load.txs):
            print(f"batch {position} {' '.join(txs)}")
    for tx, causes in client.refused.items():
        if tx not in client.latency:
            print(f"refused {tx}: {next(iter(causes.values()))}")
    if load.txs:
        print(client.summary())
    is_final = is_done and len(client.latency) == len(set(load.txs))
    return Exit.STOPPED if is_final or not load.txs else Exit.NOT_FINAL


def position_now(session: Path) -> int:
    """Before this position there is nothing that was not submitted yet: where the replicas are that
    answer an operator on this machine; 0 where none does. A session alone starts at 0."""
    if not is_endless(session):
        return 0
    found = [it["batches"] for it in asyncio.run(statuses(session)) if it is not None]
    return min(found, default=0)


if __name__ == "__main__":
    sys.exit(main())
