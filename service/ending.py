"""The end of a session, and the start of the next one.

At its end submission stops, what waits becomes final as far as views allow, all replicas come to
the same list, the replicas stop, and their logs are audited. The result stays in the session's
folder. Where sessions follow one another, operators ask for the end, and no more.
"""

from __future__ import annotations

import asyncio
import json
import time
from collections.abc import Set
from dataclasses import asdict, fields
from pathlib import Path
from subprocess import Popen
from typing import Any

from service.account import Account
from service.audit import Report, accounts_of, audit, faulty_of
from service.config import Config, Setup
from service.core import Tx, tx_text
from service.files import write_whole
from service.folder import RESULT, replica_ports, sessions, setups
from service.making import SETTLED, Plan, make
from service.processes import running, start_all, statuses, stop_all
from service.status import Exit, ServiceError

POLL_EVERY = 0.2
ASK_EVERY = 2.0
CARRIED = "carried.json"        # of a closed session: what was not final, by replica
BATCHES = "batches.txt"
OWN = {"replica", "cluster_file", "secret_file", "log", "tls_key", "carried", "settled", "deeds"}


def is_level(found: list[dict[str, Any] | None]) -> bool:
    """Whether all replicas answer, have the same list, and have nothing that waits, but for what no
    longer fits the session."""
    up = [it for it in found if it is not None]
    if len(up) < len(found) or len({(it["batches"], it["digest"]) for it in up}) != 1:
        return False
    return not any(it["pending"] or it["queued"] and not it["is_over"] for it in up)


async def settle(session: Path, wait: float, faulty: Set[int] = frozenset()) -> bool:
    """Waits until nothing waits and all lists are equal, but for those of faulty replicas; whether
    that came about in time."""
    end = time.monotonic() + wait
    while time.monotonic() < end:
        found = await statuses(session)
        if is_level([it for i, it in enumerate(found) if i not in faulty]):
            return True
        await asyncio.sleep(POLL_EVERY)
    return False


async def stop_submission(session: Path) -> None:
    for at in replica_ports(session):
        try:
            await at.order("close")
        except (OSError, TimeoutError):
            pass        # it is down, and admits nothing


async def end_running(session: Path, wait: float) -> tuple[int, int, bool]:
    """Has the running session end, where sessions follow one another, and waits until the next one
    runs: at a quorum, and at all replicas that answer and have a part in it; or, where a quorum
    opens no later one (`last_session`), until it has ended. Returns the number of the session that
    ended, how many batches the list has, and whether the next one runs.

    Who still shows that session is asked again, as nothing is asked of a replica that opens it. Who
    has left it is not: a `close` without a number would end the next one as well."""
    cluster, ports = setups(session)[0].cluster, replica_ports(session)
    up = list(filter(None, found := await statuses(session)))
    if not up:
        raise ServiceError(Exit.USAGE, f"{session}: no replica runs")
    ends, end, ask_at = max(it["session"] for it in up), time.monotonic() + wait, 0.0
    while (runs := is_past(ends, up, cluster.n - cluster.f)) is None:
        if time.monotonic() > end:
            where = ", ".join(f"{it['session']} {it['stage']}" for it in up)
            text = f"the session after {ends} does not run after {wait:g} seconds: {where}"
            raise ServiceError(Exit.NOT_FINAL, text)
        if time.monotonic() >= ask_at:
            asked = [at for at, it in zip(ports, found) if it and it["session"] == ends]
            await asyncio.gather(*(at.end_session(ends) for at in asked))
            ask_at = time.monotonic() + ASK_EVERY
        await asyncio.sleep(POLL_EVERY)
        up = list(filter(None, found := await statuses(session)))
    return ends, min(it["first"] for it in up), runs


def is_past(session: int, up: list[dict[str, Any]], quorum: int) -> bool | None:
    """Whether later sessions than this one run, at a quorum and at all that have a part in them;
    False where a quorum opens none. None while neither is so."""
    stages = [it["stage"] if it["session"] > session else "before" for it in up]
    if not set(stages) <= {"running", "out", "ended"}:
        return None
    if stages.count("running") >= quorum:
        return True
    return False if stages.count("ended") >= quorum else None


def close_session(session: Path, wait: float, given_up: Set[int] = frozenset()) -> Report:
    """Ends a session whose replicas run; returns what the audit found. Replicas that were given up
    count as faulty: nobody waits for them, and their logs may be lost."""
    if not running(session):
        text = "no replica runs; `cluster start` first, or `--stopped` if all are stopped for good"
        raise ServiceError(Exit.USAGE, f"{session}: {text}")
    faulty = faulty_of(setups(session), set(given_up))
    asyncio.run(stop_submission(session))
    is_settled = asyncio.run(settle(session, wait, faulty))
    stop_all(session)
    return close_by_logs(session, faulty, is_settled)


def close_stopped(session: Path, given_up: Set[int]) -> Report:
    """Ends a session whose replicas are stopped for good, by their logs alone. They may have run on
    several machines; all their files are in the session's folder."""
    if running(session):
        raise ServiceError(Exit.USAGE, f"{session}: replicas run; leave out `--stopped`")
    return close_by_logs(session, faulty_of(setups(session), set(given_up)), None)


def close_by_logs(session: Path, faulty: set[int], is_settled: bool | None) -> Report:
    """Audits a session and stores the result. None: whether the replicas are level shows in their
    logs."""
    found = setups(session)
    accounts = accounts_of(found, faulty)
    honest = [(it, account) for it, account in zip(found, accounts) if it.me not in faulty]
    if is_settled is None:
        is_settled = are_level([account for _, account in honest])
    report, _ = audit(found[0].cluster, accounts, faulty, is_settled)
    keep_result(session, report, honest)
    return report


def are_level(accounts: list[Account]) -> bool:
    """Whether all lists are the same, and all that arrived is final."""
    final = {tx for batch in accounts[0].batches for tx in batch}
    return all(
        it.batches == accounts[0].batches and final.issuperset(it.arrivals) for it in accounts
    )


def keep_result(session: Path, report: Report, honest: list[tuple[Setup, Account]]) -> None:
    """Writes the final list, what is carried over, and last the report."""
    longest = max((account.batches for _, account in honest), key=len)
    lines = (" ".join(map(tx_text, batch)) + "\n" for batch in longest)
    write_whole(session / BATCHES, "".join(lines))
    final = {tx for batch in longest for tx in batch}
    carried = {it.me: carried_from(it, account, final) for it, account in honest}
    write_whole(session / CARRIED, json.dumps(carried))
    write_whole(session / RESULT, json.dumps(asdict(report), indent=2))


def carried_from(setup: Setup, account: Account, final: set[Tx]) -> list[str]:
    """What a replica received and is not final, in the order of receipt. Of what the session before
    left to it, some may not have arrived again."""
    received = dict.fromkeys([*setup.carried_over(), *account.arrivals])
    return [tx_text(tx) for tx in received if tx not in final]


def plan_after(setup: Setup, ports: tuple[int, ...]) -> Plan:
    """The plan that makes a session like this one."""
    it = setup.cluster
    more = {
        key.name: getattr(setup.config, key.name) for key in fields(Config)
        if key.name not in OWN
    }
    return Plan(it.n, it.f, it.p, it.q, it.views, it.height, it.transport, more, ports=ports)


def prepare_next(session: Path, ports: tuple[int, ...] = ()) -> Path:
    """Makes the keys and configurations of the session after this one."""
    return make(session.parent, plan_after(setups(session)[0], ports), int(session.name) + 1)


def start_next(folder: Path, *more: str) -> tuple[Path, dict[int, Popen[bytes]]]:
    """Starts the session after the last closed one, with what was not final in that."""
    closed = [it for it in sessions(folder) if (it / RESULT).exists()]
    if not closed:
        raise ServiceError(Exit.USAGE, f"{folder}: no session was closed")
    last = closed[-1]
    session = last.parent / str(int(last.name) + 1)
    if not session.exists():
        prepare_next(last)
    write_whole(session / SETTLED, settled_until(last))
    carried = json.loads((last / CARRIED).read_text())
    for setup in setups(session):
        waiting = carried.get(str(setup.me), [])
        write_whole(session / setup.config.carried, "".join(it + "\n" for it in waiting))
    return session, start_all(session, *more)


def settled_until(session: Path) -> str:
    """The transactions that were final in a session and in those before it."""
    try:
        earlier = "" if session.name == "1" else (session / SETTLED).read_text()
    except FileNotFoundError as fault:
        text = f"{session / SETTLED} is missing: what was final before is not known"
        raise ServiceError(Exit.CONFIG, text) from fault
    return earlier + (session / BATCHES).read_text()
