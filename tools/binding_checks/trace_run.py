"""Gives the events of a trace to replicas of the library, and compares what they do.

The program plays a plan, and writes for each honest replica its events, in order, each with the
reason and the statements that the turn sealed. Replicas of the library with the same keys are
given the same events through `bindings/python`. They have to give the same reasons and statements,
byte for byte, and end at the same views with the same batches. A trace does not hold what was
sent; but each message that one honest replica received from another has to be one that the
library's replica sent to it.

The same trace in the second form, with the public keys in place of the seed, is audited by the
library: it is lawful, with one byte changed it is not, and where another run is expected it is
refused.
"""

from __future__ import annotations

import hashlib
import pathlib
import subprocess
import sys
from dataclasses import replace

sys.dont_write_bytecode = True

from binding_checks.hosts import MAX_SECONDS, PYTHON, Failed, Skipped  # noqa: E402
from trace_inspection.trace import Entry, Event, Trace  # noqa: E402

sys.path.insert(0, str(PYTHON))

import themis  # noqa: E402
from themis import Status  # noqa: E402

HEIGHTS = {1: themis.Height.HEIGHT_5, 2: themis.Height.HEIGHT_10}


def trace_bytes(program: list[str], plan: pathlib.Path) -> bytes:
    """The trace of a plan whose links change no message."""
    with plan.open("rb") as source:
        ran = subprocess.run(
            [*program, "trace"], stdin=source, capture_output=True, timeout=MAX_SECONDS
        )
    if not ran.stdout:
        raise Failed(f"{' '.join(program)} trace < {plan}: no trace\n{ran.stderr.decode()}")
    return ran.stdout


def secret_of(seed: int, replica: int) -> bytes:
    """The secret of a replica of a plan. It is that of the library where its key has one tree."""
    drawn = seed.to_bytes(8, "big") + replica.to_bytes(4, "big")
    identifier = hashlib.sha256(b"themis-id" + drawn).digest()[:16]
    return identifier + hashlib.sha256(b"themis-seed" + drawn).digest()


def prepare(replica: themis.Replica, entry: Entry) -> bytes:
    """Prepares the event of an entry, and returns its record."""
    if entry.event == Event.ARRIVED:
        return replica.prepare_arrived([themis.Tx(*tx) for tx in entry.txs])
    if entry.event == Event.TICK:
        return replica.prepare_tick(entry.floor)
    assert entry.sender is not None
    return replica.prepare_deliver(entry.sender, entry.data)


def reason_of(text: str) -> str:
    """The name in the library of a reason in a trace: `BadWire(Short)` is BAD_WIRE."""
    kind = text.partition("(")[0]
    return "".join(f"_{c}" if c.isupper() and k else c for k, c in enumerate(kind)).upper()


def audited(
    trace: bytes, run: themis.Run, keys: list[bytes]
) -> themis.Finding | themis.ThemisError:
    """What the library answers to an audit."""
    try:
        return themis.audit(trace, run, keys)
    except themis.ThemisError as fault:
        return fault
    except themis.MissingFunction as fault:
        raise Failed(str(fault)) from fault


class TraceRun:
    """The honest replicas of a trace, played by the library."""

    def __init__(self, name: str, data: bytes) -> None:
        trace = Trace(data)
        self.name, self.data, self.trace = name, data, trace
        if trace.height not in HEIGHTS:
            raise Skipped(f"{name}: keys of two levels are drawn otherwise")
        self.height = HEIGHTS[trace.height]
        self.secrets = [secret_of(trace.seed, replica) for replica in range(trace.n)]
        self.keys = [themis.public_key(self.height, secret) for secret in self.secrets]
        self.sent: set[tuple[int, int, bytes]] = set()
        self.turns = 0

    def require(self, is_so: bool, where: str, what: str) -> None:
        if not is_so:
            raise Failed(f"{self.name}, {where}: {what}")

    def play_entry(self, replica: themis.Replica, at: int, entry: Entry) -> None:
        where = f"entry {at} of replica {entry.replica}"
        record = prepare(replica, entry)
        reason = themis.Reason(replica.act()).name
        self.require(reason == reason_of(entry.reason), where, f"{reason}, not {entry.reason}")
        self.require(replica.sealed() == entry.sealed, where, "other statements")
        self.require(bool(record) or not entry.sealed, where, "it sealed without a record")
        self.sent |= {(entry.replica, to, data) for to, data in replica.sends()}
        self.turns += 1

    def play_replica(self, me: int) -> None:
        trace = self.trace
        role = themis.Role(trace.n, trace.f, trace.p, trace.q, trace.views, me, self.height)
        with themis.Replica.open(role, self.secrets[me], self.keys) as replica:
            for at, entry in enumerate(trace.journals[me]):
                self.play_entry(replica, at, entry)
            where = f"replica {me}"
            self.require(replica.views() == trace.heads[me], where, "other views")
            batches = [sorted(replica.batch(at)) for at in range(replica.batch_count())]
            expected = [sorted(batch) for batch in trace.batches[me]]
            self.require(batches == expected, where, "other batches")

    def second_form(self) -> bytes:
        """The trace with the public keys in place of the seed: setting and views; height, keys,
        and the rest."""
        setting, height, rest = self.data[8:18], self.data[26:27], self.data[27:]
        return b"".join([b"THEMISR2", setting, height, *self.keys, rest])

    def run(self) -> themis.Run:
        trace = self.trace
        return themis.Run(trace.n, trace.f, trace.p, trace.q, trace.views, self.height)

    def other_runs(self) -> list[themis.Run]:
        """Runs of the same keys with another f, another fairness, other views or another height."""
        run = self.run()
        others = [
            replace(run, p=999, q=1000), replace(run, views=run.views + 1),
            *(replace(run, height=it) for it in HEIGHTS.values() if it != run.height),
        ]
        return [*others, replace(run, f=0)] if run.f else others

    def audit(self) -> None:
        """The library finds the trace lawful, and finds what is wrong with others."""
        trace, run, where = self.second_form(), self.run(), "audit"
        faulty = tuple(it for it in range(run.n) if it not in self.trace.honest)
        found = audited(trace, run, self.keys)
        lawful = themis.Finding(Status.OK, 0, 0, 0, 0, 0, None, faulty)
        self.require(found == lawful, where, f"{found}")
        found = audited(trace[:-1] + bytes([trace[-1] ^ 1]), run, self.keys)
        is_found = isinstance(found, themis.Finding) and found.status == Status.UNLAWFUL
        self.require(is_found, where, f"another batch: {found}")
        found = audited(trace, run, self.keys[::-1])
        self.require(isinstance(found, themis.OtherKeys), where, f"other keys: {found}")
        found = audited(self.data, run, self.keys)
        self.require(isinstance(found, themis.OtherKeys), where, f"keys of a seed: {found}")
        found = audited(trace[:-1], run, self.keys)
        is_found = isinstance(found, themis.BadTrace) and found.at == len(trace) - 8
        self.require(is_found, where, f"truncated: {found}")
        self.audit_others(trace)

    def audit_others(self, trace: bytes) -> None:
        """A trace of another run than expected is refused, and so is what is no run."""
        for run in self.other_runs():
            found = audited(trace, run, self.keys)
            self.require(isinstance(found, themis.OtherRun), "audit", f"{run}: {found}")
        for run, status in (
            (replace(self.run(), n=0), Status.BAD_SETTING),
            (replace(self.run(), height=7), Status.BAD_HEIGHT),
        ):
            found = audited(trace, run, self.keys)
            is_refused = isinstance(found, themis.ThemisError) and found.status == status
            self.require(is_refused, "audit", f"{run}: {found}")

    def play(self) -> str:
        """Plays all replicas, and returns a line on what was compared."""
        self.audit()
        for replica in self.trace.honest:
            self.play_replica(replica)
        messages = [e for e in self.trace.entries() if e.sender in self.trace.honest]
        for entry in messages:
            was_sent = (entry.sender, entry.replica, entry.data) in self.sent
            self.require(was_sent, f"replica {entry.replica}", "received what was not sent")
        return (
            f"{self.name}: {self.turns} turns of {len(self.trace.honest)} replicas, "
            f"{len(messages)} messages of theirs\n"
        )
