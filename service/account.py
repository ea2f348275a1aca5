"""What one replica's log says that happened: its turns, played again by a new core.

The core needs the replica's secret to seal again what it sealed. So a replica's account is made
where its secret lies, and only after its session: a key is never used by two running replicas.
`themisd account` makes it there, without the secret in it; an auditor puts it into the session's
folder as REPLICA.account.
"""

from __future__ import annotations

import hashlib
import json
from collections.abc import Iterator, Sequence
from dataclasses import dataclass, field
from typing import Any

from service import core, log, wire
from service.config import Setup
from service.core import Arrived, Core, Delivered, Event, Reason, Role, Tx, tx_of_text
from service.status import Exit, ServiceError
from service.wire import Message


@dataclass(frozen=True)
class Entry:
    """One event, and what its turn answered."""

    event: Event
    reason: int
    known: int                  # transactions that had arrived by then
    sealed: list[bytes]


@dataclass
class Account:
    """All turns of one replica, and where they led."""

    replica: int
    entries: list[Entry] = field(default_factory=list)
    arrivals: list[Tx] = field(default_factory=list)
    statements: list[bytes] = field(default_factory=list)       # sealed, by leaf
    batches: list[list[Tx]] = field(default_factory=list)
    view: int = 0
    commit: int = 0

    def accepted(self) -> Iterator[bytes]:
        """The messages that the core accepted, so that their seals fit."""
        for entry in self.entries:
            if isinstance(entry.event, Delivered) and entry.reason == Reason.DONE:
                yield entry.event.data


def account_of(setup: Setup, is_faulty: bool = False) -> Account:
    """Plays a replica's log again; where its secret is not here, its account is read that its
    operator made. A torn last record is left out. A faulty replica's log proves nothing, so where
    it can't be played, its account is empty."""
    path = setup.log_path()
    try:
        if not setup.secret_path().exists():
            path = setup.account_path()
            return read(setup, path.read_text(encoding="ascii"))
        keys = setup.cluster.public_keys()
        return play(setup.role(), setup.secret(), keys, path.read_bytes())
    except (OSError, core.ThemisError, ServiceError) as fault:
        if is_faulty:
            return Account(setup.me)
        text = f"{path}: {fault}. If the replica was given up: --faulty {setup.me}"
        raise ServiceError(Exit.LOG_REFUSED, text) from fault


def play(role: Role, secret: bytes, keys: Sequence[bytes], data: bytes) -> Account:
    """The account of a log; ThemisError where a core refuses to open it."""
    with_log = Core(role, secret, keys, data)
    used = with_log.used
    with_log.close()
    fresh = Core(role, secret, keys, b"")
    account = Account(role.me)
    for body in log.bodies(data[:used]):
        _turn(fresh, account, core.event_of(body))
    account.view, account.commit = fresh.view(), fresh.commit_view()
    account.batches = [fresh.batch(at) for at in range(fresh.batch_count())]
    fresh.close()
    return account


def read(setup: Setup, text: str) -> Account:
    """The account that `themisd account` printed; ServiceError where it is none of this replica and
    session, or not the whole one."""
    account = Account(setup.me)
    try:
        first, *events, last = map(json.loads, text.splitlines())
        if first != {"replica": setup.me, "session": setup.cluster.digest().hex()}:
            raise ValueError("it is another replica's, or of another session")
        _read_lines(account, events, last)
    except (ValueError, KeyError, TypeError, IndexError) as fault:
        raise ServiceError(Exit.LOG_REFUSED, f"no whole account: {fault}") from fault
    return account


def _read_lines(account: Account, events: list[dict[str, Any]], last: dict[str, Any]) -> None:
    for it in events:
        _read_turn(account, it)
    account.view, account.commit = int(last["view"]), int(last["commit"])
    account.batches = [[tx_of_text(tx) for tx in it.split()] for it in last["batches"]]


def _read_turn(account: Account, line: dict[str, Any]) -> None:
    event, sealed = core.event_of(bytes.fromhex(line["event"])), map(bytes.fromhex, line["sealed"])
    _note(account, event, int(line["reason"]), list(sealed))


def _turn(fresh: Core, account: Account, event: Event) -> None:
    fresh.prepare(event)
    _note(account, event, fresh.act(), fresh.sealed())


def _note(account: Account, event: Event, reason: int, sealed: list[bytes]) -> None:
    """Adds a turn."""
    if isinstance(event, Arrived):
        account.arrivals += event.txs
    account.statements += sealed
    account.entries.append(Entry(event, reason, len(account.arrivals), sealed))


@dataclass(frozen=True)
class SessionAccount:
    """The account of one of many sessions, with what the replica says of its place among them."""

    account: Account
    first: int                      # the position of its first batch
    digest: str                     # chains all batches before it
    keys: list[str | None]          # public keys by replica; None: it sat the session out
    end: int | None                 # the position after its last batch, where it has ended
    end_digest: str | None


def read_of_many(text: str, replica: int, cluster: bytes, session: int) -> SessionAccount:
    """The account of a session as `themisd account --session` prints it; ServiceError where it is
    none of this replica, cluster and session, or not the whole one."""
    account = Account(replica)
    try:
        first, *events, last = map(json.loads, text.splitlines())
        whose = {"replica": replica, "cluster": cluster.hex(), "session": session}
        if any(first[key] != value for key, value in whose.items()):
            raise ValueError("it is another replica's, or of another session or cluster")
        _read_lines(account, events, last)
        keys = [None if key is None else str(key) for key in first["keys"]]
        end, end_digest = last.get("end"), last.get("end_digest")
        return SessionAccount(account, int(first["first"]), str(first["digest"]), keys, end,
                              end_digest)
    except (ValueError, KeyError, TypeError, IndexError, AttributeError) as fault:
        raise ServiceError(Exit.LOG_REFUSED, f"no whole account: {fault}") from fault


@dataclass(frozen=True)
class Block:
    """A block, as far as checks need it."""

    view: int
    parent: bytes
    fresh: list[list[Tx]]


def blocks_of(account: Account) -> tuple[dict[bytes, Block], dict[int, bytes]]:
    """The blocks that a replica accepted, by digest, and the certified block of each view."""
    blocks: dict[bytes, Block] = {}
    certified: dict[int, bytes] = {}
    for data in account.accepted():
        kind = wire.kind_of(data)
        at = {Message.PROPOSE: 3, Message.GIVE: 2, Message.ASK: 7, Message.NEW_VIEW: 7}.get(
            kind or Message.FETCH
        )
        if at is None:
            continue
        reader = wire.Reader(data, at)
        if kind in (Message.PROPOSE, Message.GIVE):
            view = reader.number(4)
            certificate_at = reader.at
            list(reader.certificate())
            orders = [reader.order() for _ in range(reader.number(1))]
            parent = data[certificate_at + 4:certificate_at + 36]
            digest = hashlib.sha256(data[at:reader.at]).digest()
            blocks[digest] = Block(view, parent, [order.fresh for order in orders])
        else:
            certificate_at = at
        certified_view = int.from_bytes(data[certificate_at:certificate_at + 4], "big")
        certified[certified_view] = data[certificate_at + 4:certificate_at + 36]
    return blocks, certified


def committed_blocks(account: Account) -> list[Block]:
    """The committed chain without its first block, oldest first; as much as the log holds."""
    blocks, certified = blocks_of(account)
    chain: list[Block] = []
    at = certified.get(account.commit, b"")
    while at in blocks:
        chain.append(blocks[at])
        at = blocks[at].parent
    return chain[::-1]
