"""Reads a trace: its messages, its entries, and what was fixed before the run."""

from __future__ import annotations

import hashlib
from dataclasses import dataclass, field
from enum import IntEnum

Tx = tuple[int, int, int]

KINDS = {1: "NewView", 2: "Ask", 3: "Order", 4: "Propose", 5: "Vote", 6: "Fetch", 7: "Give"}
WIRE_FAULTS = ("Short", "Trailing", "Kind", "Version", "Count", "Shape")
REFUSALS = (
    "Foreign", "ViewLimit", "NotLeader", "OldView", "BadSeal", "BadCert", "Orphan", "Misfit",
    "Clash", "Unsafe", "Repeat",
)
REASONS = ("Done", *(f"BadWire({fault})" for fault in WIRE_FAULTS), *REFUSALS)
HEIGHTS = {1: "5", 2: "10", 3: "5 above 5", 4: "5 above 10"}
FIRST_BLOCK = bytes(32)


class BadTrace(Exception):
    """The bytes are no trace."""


class Event(IntEnum):
    """The kinds of events, by their numbers in a trace."""

    ARRIVED = 1
    DELIVERED = 2
    TICK = 3


class Reader:
    """Bytes that are read from left to right."""

    def __init__(self, data: bytes) -> None:
        self.data, self.at = data, 0

    def take(self, count: int) -> bytes:
        if self.at + count > len(self.data):
            raise BadTrace(f"truncated at {len(self.data)}")
        self.at += count
        return self.data[self.at - count : self.at]

    def number(self, size: int) -> int:
        return int.from_bytes(self.take(size), "big")

    def txs(self, size: int = 4) -> list[Tx]:
        count = self.number(size)
        return [(self.number(4), self.number(4), self.number(8)) for _ in range(count)]


@dataclass
class Certificate:
    """The view, the block and the voters of a certificate."""

    view: int
    block: bytes
    voters: list[int]


@dataclass
class LocalOrder:
    """A sealed local order."""

    replica: int
    view: int
    parent: bytes
    fresh: list[Tx]
    late: list[Tx]
    statement: bytes


@dataclass
class Block:
    """A block with its digest."""

    view: int
    certificate: Certificate
    orders: list[LocalOrder]
    digest: bytes


@dataclass
class Message:
    """A message that was delivered. `block_digest` is the block that a Vote or a Fetch names."""

    kind: str
    statement: bytes
    view: int = 0
    replica: int | None = None
    certificate: Certificate | None = None
    order: LocalOrder | None = None
    block: Block | None = None
    block_digest: bytes | None = None
    carried: LocalOrder | None = None

    def named_block(self) -> bytes:
        """The block that the message needs to be stored: that of its certificate, or its own."""
        if self.certificate is not None:
            return self.certificate.block
        return self.block_digest if self.block_digest is not None else FIRST_BLOCK


def read_certificate(reader: Reader) -> Certificate:
    certificate = Certificate(reader.number(4), reader.take(32), [])
    for _ in range(reader.number(1)):
        certificate.voters.append(reader.number(1))
        reader.take(reader.number(2))
    return certificate


def read_order(reader: Reader) -> LocalOrder:
    start = reader.at
    reader.take(1)
    order = LocalOrder(
        reader.number(1), reader.number(4), reader.take(32), reader.txs(2), reader.txs(2), b""
    )
    order.statement = reader.data[start : reader.at]
    reader.take(reader.number(2))
    return order


def read_block(reader: Reader) -> Block:
    start = reader.at
    block = Block(reader.number(4), read_certificate(reader), [], b"")
    block.orders = [read_order(reader) for _ in range(reader.number(1))]
    block.digest = hashlib.sha256(reader.data[start : reader.at]).digest()
    return block


def read_message(reader: Reader) -> Message | None:
    """The message that the bytes begin with. None where no kind of message begins so."""
    version, number = reader.number(1), reader.number(1)
    if version != 2 or number not in KINDS:
        return None
    message = Message(KINDS[number], b"")
    if message.kind == "Order":
        reader.at = 1
        message.order = read_order(reader)
        message.replica, message.view = message.order.replica, message.order.view
        message.statement = message.order.statement
        return message
    if message.kind in ("NewView", "Ask"):
        message.replica, message.view = reader.number(1), reader.number(4)
        message.certificate = read_certificate(reader)
    elif message.kind in ("Propose", "Give"):
        if message.kind == "Propose":
            message.replica = reader.number(1)
        message.block = read_block(reader)
        message.view, message.certificate = message.block.view, message.block.certificate
        message.block_digest = message.block.digest
    elif message.kind == "Vote":
        message.replica, message.view = reader.number(1), reader.number(4)
        message.block_digest = reader.take(32)
    else:
        message.block_digest = reader.take(32)
    if message.kind in ("Fetch", "Give"):
        message.statement = bytes([number]) + (message.block_digest or b"")
        return message
    message.statement = reader.data[1 : reader.at]
    reader.take(reader.number(2))
    if message.kind == "Vote" and reader.number(1):
        message.carried = read_order(reader)
    return message


def message_of(data: bytes) -> Message | None:
    """The message that the bytes spell. None where they spell none."""
    reader = Reader(data)
    try:
        message = read_message(reader)
    except BadTrace:
        return None
    return message if message is not None and reader.at == len(data) else None


def sealed_of(statement: bytes) -> tuple[str, int]:
    """The kind and the view of a sealed statement."""
    kind = KINDS.get(statement[0] if statement else 0, "?")
    return kind, int.from_bytes(statement[2:6], "big")


@dataclass
class Send:
    """A message from one replica to another. `sent` and `turn` are the turns in which it was
    sent and delivered, `place` is its place in the queue."""

    kind: str
    view: int
    sender: int
    to: int
    statement: bytes
    place: int | None = None
    sent: int | None = None
    entry: Entry | None = None
    turn: int | None = None
    again: list[Entry] = field(default_factory=list)

    def block(self) -> bytes | None:
        """The digest of the block that a Propose or a Vote speaks of."""
        if self.kind == "Propose":
            return hashlib.sha256(self.statement[2:]).digest()
        return self.statement[6:38] if self.kind == "Vote" else None

    def __str__(self) -> str:
        of_view = "" if self.kind in ("Fetch", "Give") else f" of view {self.view}"
        return f"{self.kind}{of_view} from {self.sender} to {self.to}"


@dataclass
class Moved:
    """What one entry changed: the view, the commit, and how many batches became final."""

    view: bool = False
    commit: bool = False
    batches: int = 0


class Entry:
    """One event of a replica with what its turn returned."""

    def __init__(self, replica: int, reader: Reader) -> None:
        self.replica, self.turn = replica, 0
        self.sends: list[Send] = []
        self.send: Send | None = None
        self.sender: int | None = None
        self.data = b""
        self.message: Message | None = None
        self.txs: list[Tx] = []
        self.floor = 0
        number = reader.number(1)
        if number == Event.ARRIVED:
            self.txs = reader.txs()
        elif number == Event.DELIVERED:
            self.sender = reader.number(1)
            self.data = reader.take(reader.number(4))
            self.message = message_of(self.data)
        elif number == Event.TICK:
            self.floor = reader.number(4)
        else:
            raise BadTrace(f"no event at {reader.at - 1}")
        self.event = Event(number)
        code = reader.number(1)
        if code >= len(REASONS):
            raise BadTrace(f"no reason at {reader.at - 1}")
        self.reason, self.known = REASONS[code], reader.number(4)
        self.sealed = [reader.take(reader.number(4)) for _ in range(reader.number(1))]
        self.view = self.commit = self.batches = 0
        self.moved = Moved()

    def message_is_refused(self) -> bool:
        return self.event == Event.DELIVERED and self.reason != "Done"


class Trace:
    """A trace: the setting, the journals, and what the replicas ended with."""

    def __init__(self, data: bytes, max_turns: int | None = None) -> None:
        reader = Reader(data)
        magic = reader.take(8)
        if magic == b"THEMISR2":
            raise BadTrace("it has public keys, so no plan says in which order turns were taken")
        if magic != b"THEMISR1":
            raise BadTrace("it does not start with THEMISR1")
        self.n, self.f = reader.number(1), reader.number(1)
        self.p, self.q = reader.number(2), reader.number(2)
        self.views, self.seed, self.height = reader.number(4), reader.number(8), reader.number(1)
        self.turns, self.ticks = reader.number(4), reader.number(4)
        self.faulty = [reader.number(1) for _ in range(reader.number(1))]
        self.honest = [r for r in range(self.n) if r not in self.faulty]
        if not self.honest:
            raise BadTrace("no honest replica")
        self.arrivals = [reader.txs() for _ in range(self.n)]
        self.journals: dict[int, list[Entry]] = {}
        self.heads: dict[int, tuple[int, int]] = {}
        self.batches: dict[int, list[list[Tx]]] = {}
        for r in self.honest:
            self.journals[r] = [Entry(r, reader) for _ in range(reader.number(4))]
            self.heads[r] = (reader.number(4), reader.number(4))
            self.batches[r] = [reader.txs() for _ in range(reader.number(4))]
        if reader.at != len(data):
            raise BadTrace(f"trailing bytes at {reader.at}")
        self.quorum, self.solid = self.n - self.f, self.n - 2 * self.f
        self.threshold = self.n * (self.q - self.p) // self.q + self.f + 1
        self.due = set.intersection(*(set(self.arrivals[r]) for r in self.honest))
        self.max_turns = max_turns

    def leader(self, view: int) -> int:
        return view % self.n

    def is_done(self) -> bool:
        return all(self.due <= {t for b in self.batches[r] for t in b} for r in self.honest)

    def entries(self) -> list[Entry]:
        """The entries of all honest journals."""
        return [entry for r in self.honest for entry in self.journals[r]]
