"""Measures five replicas on this machine.

usage: python3 -m service.bench FOLDER [NAME ..]

| Name | What it measures |
|---|---|
| idle | views and processor that an idle cluster uses; a lone transaction |
| rates | latency and throughput at 10, 50, 200 and 1,000 transactions a second |
| sustained | 1,000 transactions a second for half a minute |
| heavy | 6,000 transactions a second, as many as a session takes |
| burst | 10,000 transactions at once |
| dead | one replica down |
| away | how long a replica that was away takes to catch up, while load goes on |
| interval | a pause between proposals: views and latency |
| slow | a disk that takes 50 ms a sync, at one replica and at all |
| recovery | how long a start takes for prefixes of a log of 2,000 views |
"""

from __future__ import annotations

import argparse
import asyncio
import os
import random
import shutil
import time
from collections.abc import Callable, Iterable
from concurrent.futures import ThreadPoolExecutor
from dataclasses import dataclass
from pathlib import Path
from subprocess import Popen
from typing import Any

from service import log
from service.client import Client, Load
from service.config import Setup
from service.core import Core
from service.folder import replica_ports, setups
from service.making import Plan, make
from service.processes import WITH_PARENT, start, statuses, wait_up

N = 5
CLIENTS = 16                # of one load: a replica takes no more than 1,000 of one at a time
IDLE_SECONDS = 10
RATES = (10, 50, 200, 1000)
SECONDS_OF_LOAD = 6
RECOVERED_VIEWS = 2000
AWAY_RATE, AWAY_SECONDS, CATCH_UP_SECONDS = 50, (5, 20), 20
LEVEL = 4                   # views: one commit and what follows it
LEAD = 5.0                  # seconds in which clients connect, so that no latency has that
TICKS = os.sysconf("SC_CLK_TCK")
# In the status, how long the core's calls of each kind took (`host/shell/src/timed.rs`).
CORE_CALLS = (
    "verify_us", "prepare_us", "foresee_us", "turn_us", "sends_us", "batches_us", "receive_us",
    "arrive_us", "gives_us",
)


@dataclass(frozen=True)
class Usage:
    """What the processes have used so far."""

    seconds: float      # of processor, user and system, of all replicas
    megabytes: float    # of memory, the most that one replica has now
    machine: float      # seconds of all processors of the machine, idle ones too
    stolen: float       # of these, what the host of a virtual machine gave to others

    def stolen_since(self, before: Usage) -> float:
        """The share of the machine that was not there."""
        return (self.stolen - before.stolen) / max(self.machine - before.machine, 1 / TICKS)


class Bench:
    """A cluster that runs while measures are taken."""

    def __init__(self, folder: Path, up: Iterable[int] = range(N), **more: Any) -> None:
        shutil.rmtree(folder, ignore_errors=True)
        self.session = make(folder, Plan(more={"allow_faults": True} | more))
        self.ports = replica_ports(self.session)
        self.commits: dict[int, int] = {}       # of replicas that were killed
        self.processes: dict[int, Popen[bytes]] = {
            i: start(self.session, i, WITH_PARENT) for i in up
        }
        wait_up(self.session, self.processes)
        time.sleep(1.5)

    def stop(self) -> None:
        for process in self.processes.values():
            process.terminate()
        for process in self.processes.values():
            process.wait()

    def status(self, replica: int = 0) -> dict[str, Any]:
        found = asyncio.run(statuses(self.session))[replica]
        assert found is not None
        return found

    def kill(self, replica: int) -> None:
        """Kills a replica, and notes its commit."""
        self.commits[replica] = self.status(replica)["commit"]
        process = self.processes.pop(replica)
        process.kill()
        process.wait()

    def seconds_until_level(self, replica: int) -> float:
        """Starts a replica again, and waits until its commit is that of the others."""
        process = start(self.session, replica, WITH_PARENT)
        wait_up(self.session, {replica: process})
        begin = time.monotonic()
        while self.status(replica)["commit"] < self.status()["commit"] - LEVEL:
            time.sleep(0.05)
        self.processes[replica] = process
        return time.monotonic() - begin

    def usage(self) -> Usage:
        seconds, most = 0.0, 0.0
        for process in self.processes.values():
            words = Path(f"/proc/{process.pid}/stat").read_text().rsplit(")", 1)[1].split()
            seconds += (int(words[11]) + int(words[12])) / TICKS
            text = Path(f"/proc/{process.pid}/status").read_text()
            most = max(most, int(text.split("VmRSS:")[1].split()[0]) / 1024)
        ticks = list(map(int, Path("/proc/stat").read_text().splitlines()[0].split()[1:9]))
        return Usage(seconds, most, sum(ticks) / TICKS, ticks[7] / TICKS)

    def order(self, replicas: Iterable[int], what: str) -> None:
        for i in replicas:
            asyncio.run(self.ports[i].order(f"fault {what}"))

    def load(self, count: int, rate: float, wait: float = 120.0, jitter: float = 0.02) -> str:
        """Runs one client to its end: what it saw, and what the replicas used for it."""
        before, used = self.status(), self.usage()
        first = random.randrange(1, 1 << 31)
        clients = min(CLIENTS, count)
        txs = [f"{first + k % clients}.{1 + k // clients}.0" for k in range(count)]
        client = Client(self.ports, 1, Load(txs, rate, jitter, lead=LEAD))
        asyncio.run(client.run(wait))
        after, now = self.status(), self.usage()
        views = after["view"] - before["view"]
        spent = (now.seconds - used.seconds) / max(views, 1) / len(self.processes)

        def gone(key: str) -> int:
            return int(after.get(key, 0)) - int(before.get(key, 0))
        syncs, core = max(gone("syncs"), 1), sum(map(gone, CORE_CALLS))
        return (
            f"{client.summary()}\n      views {views}, ticks {gone('ticks')};"
            f" a view and replica: {spent * 1000:.1f} ms of processor, of which the core"
            f" {core / 1000 / max(views, 1):.1f} ms, and {syncs / max(views, 1):.1f} syncs of"
            f" {gone('sync_us') / 1000 / syncs:.1f} ms; log {gone('log_bytes') >> 10} KB;"
            f" memory {now.megabytes:.0f} MB; stolen {now.stolen_since(used):.0%}"
        )


def idle(folder: Path) -> None:
    bench = Bench(folder)
    bench.load(5, 5)
    before, used = bench.status()["view"], bench.usage()
    time.sleep(IDLE_SECONDS)
    share = (bench.usage().seconds - used.seconds) / IDLE_SECONDS / N
    print(f"  {IDLE_SECONDS} s without a transaction: {bench.status()['view'] - before} views,"
          f" and {share:.1%} of a processor for each replica")
    print(f"  10 lone transactions: {bench.load(10, 1)}")
    bench.stop()


def rates(folder: Path) -> None:
    bench = Bench(folder)
    bench.load(20, 20)
    for rate in RATES:
        print(f"  {rate}/s: {bench.load(rate * SECONDS_OF_LOAD, rate)}", flush=True)
    bench.stop()


def sustained(folder: Path) -> None:
    bench = Bench(folder)
    bench.load(20, 20)
    print(f"  1,000/s for 30 s: {bench.load(30_000, 1000)}", flush=True)
    bench.stop()


def heavy(folder: Path) -> None:
    bench = Bench(folder)
    bench.load(20, 20)
    print(f"  6,000/s for 10 s: {bench.load(60_000, 6000)}", flush=True)
    bench.stop()


def burst(folder: Path) -> None:
    bench = Bench(folder)
    bench.load(20, 20)
    print(f"  10,000 at once: {bench.load(10_000, 1e6, 300, 0.001)}")
    bench.stop()


def dead(folder: Path) -> None:
    bench = Bench(folder, range(N - 1))
    bench.load(20, 20)
    for rate in (10, 50, 200):
        print(f"  one replica down, {rate}/s: {bench.load(rate * SECONDS_OF_LOAD, rate)}")
    bench.stop()


def away(folder: Path) -> None:
    bench = Bench(folder)
    bench.load(20, 20)
    for seconds in AWAY_SECONDS:
        bench.kill(N - 1)
        bench.load(seconds * AWAY_RATE, AWAY_RATE)
        missing = bench.status()["commit"] - bench.commits[N - 1]
        with ThreadPoolExecutor(1) as pool:
            loaded = pool.submit(bench.load, CATCH_UP_SECONDS * AWAY_RATE, AWAY_RATE)
            print(f"  away for {seconds} s and {missing} views: level after"
                  f" {bench.seconds_until_level(N - 1):.1f} s; {AWAY_RATE}/s meanwhile:"
                  f" {loaded.result()}", flush=True)
    bench.stop()


def interval(folder: Path) -> None:
    for pause in (0.0, 0.1, 0.5):
        bench = Bench(folder, interval=pause)
        bench.load(20, 20)
        print(f"  at least {pause} s between proposals, 20/s: {bench.load(200, 20)}")
        bench.stop()


def slow(folder: Path) -> None:
    bench = Bench(folder)
    bench.load(20, 20)
    for name, at in (("one replica", [2]), ("all", list(range(N)))):
        bench.order(at, "slow 0.05")
        print(f"  50 ms a sync at {name}, 25/s: {bench.load(150, 25)}")
    bench.stop()


def recovery(folder: Path) -> None:
    bench = Bench(folder)
    while (view := bench.status()["view"]) < RECOVERED_VIEWS:
        bench.load(400, 40)
    print(f"  after {view} views: {bench.usage().megabytes:.0f} MB of memory", flush=True)
    bench.stop()
    setup = setups(bench.session)[0]
    data = setup.log_path().read_bytes()
    ends = [log.HEADER_BYTES]
    for body in log.bodies(data):
        ends.append(ends[-1] + len(body) + 20)
    for part in range(5):
        size = ends[part * (len(ends) - 1) // 4]
        took, view = opened(setup, data[:size])
        print(f"  log of {size >> 10} KB, {part * (len(ends) - 1) // 4} events, view {view}:"
              f" opened in {took:.2f} s", flush=True)


def opened(setup: Setup, data: bytes) -> tuple[float, int]:
    """How long a core takes to open a log, and the view that it leads to."""
    begin = time.monotonic()
    core = Core(setup.role(), setup.secret(), setup.cluster.public_keys(), data)
    took, view = time.monotonic() - begin, core.view()
    core.close()
    return took, view


MEASURES: dict[str, Callable[[Path], None]] = {
    it.__name__: it
    for it in (idle, rates, sustained, heavy, burst, dead, away, interval, slow, recovery)
}


def main() -> None:
    parser = argparse.ArgumentParser(description="Measures five replicas on this machine.")
    parser.add_argument("folder", type=Path, help="a folder for the clusters")
    parser.add_argument("names", nargs="*", metavar="NAME",
                        help=f"of {', '.join(MEASURES)} (default: all)")
    given = parser.parse_args()
    if unknown := set(given.names) - set(MEASURES):
        parser.error(f"no measure: {', '.join(sorted(unknown))}")
    for name in given.names or MEASURES:
        print(f"{name}:", flush=True)
        MEASURES[name](given.folder.resolve())


if __name__ == "__main__":
    main()
