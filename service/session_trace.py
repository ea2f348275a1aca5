"""A trace with public keys (docs/FORMATS.md, "Traces"), from the accounts of all replicas."""

from __future__ import annotations

from collections.abc import Iterable, Sequence

from service import core
from service.account import Account, Entry
from service.config import Cluster
from service.core import Arrived, Delivered, Reason, Tick, Tx

MAGIC = b"THEMISR2"
HEIGHT_CODES = {5: 1, 10: 2, 505: 3, 510: 4}
FIRST_REASON = 7        # Foreign; the library counts it as 2, since it has one number for bad bytes


def u32(value: int) -> bytes:
    return value.to_bytes(4, "big")


def list_bytes(txs: Sequence[Tx]) -> bytes:
    return u32(len(txs)) + b"".join(map(core.tx_bytes, txs))


def is_in_trace(entry: Entry) -> bool:
    """Bytes that are no message are left out: they changed nothing."""
    return entry.reason != Reason.BAD_WIRE


def trace_of(cluster: Cluster, accounts: Sequence[Account], faulty: Iterable[int]) -> bytes:
    """The trace of a session. Each honest replica's account is in it."""
    bad = sorted(faulty)
    honest = [it for it in accounts if it.replica not in bad]
    events = [entry.event for it in honest for entry in it.entries if is_in_trace(entry)]
    out = [
        MAGIC, bytes([cluster.n, cluster.f]), cluster.p.to_bytes(2, "big"),
        cluster.q.to_bytes(2, "big"), u32(cluster.views), bytes([HEIGHT_CODES[cluster.height]]),
        *cluster.public_keys(),
        u32(sum(isinstance(it, Delivered) for it in events)),
        u32(sum(isinstance(it, Tick) for it in events)),
        bytes([len(bad), *bad]),
        *(list_bytes(it.arrivals) for it in accounts),
        *map(account_bytes, honest),
    ]
    return b"".join(out)


def account_bytes(account: Account) -> bytes:
    entries = [entry_bytes(it) for it in account.entries if is_in_trace(it)]
    ends = u32(account.view) + u32(account.commit) + u32(len(account.batches))
    return b"".join([u32(len(entries)), *entries, ends, *map(list_bytes, account.batches)])


def entry_bytes(entry: Entry) -> bytes:
    match entry.event:
        case Arrived(txs):
            event = b"\1" + list_bytes(txs)
        case Delivered(sender, data):
            event = b"\2" + bytes([sender]) + u32(len(data)) + data
        case Tick(floor):
            event = b"\3" + u32(floor)
    is_done = entry.reason == Reason.DONE
    reason = 0 if is_done else entry.reason + FIRST_REASON - Reason.FOREIGN
    sealed = b"".join(u32(len(it)) + it for it in entry.sealed)
    return event + bytes([reason]) + u32(entry.known) + bytes([len(entry.sealed)]) + sealed
