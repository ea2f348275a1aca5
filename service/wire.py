"""What the audit of logs reads of messages (docs/FORMATS.md, "Messages").

The core has checked every message that it accepted. This module looks at the fields that the audit
needs, and answers nothing for bytes that it does not understand.
"""

from __future__ import annotations

from collections.abc import Iterator
from dataclasses import dataclass
from enum import IntEnum

from service.core import Tx, txs_of_bytes

VERSION = 2
DIGEST, TX_BYTES = 32, 16


class Message(IntEnum):
    NEW_VIEW = 1
    ASK = 2
    ORDER = 3
    PROPOSE = 4
    VOTE = 5
    FETCH = 6
    GIVE = 7


def kind_of(data: bytes) -> Message | None:
    if len(data) < 2 or data[0] != VERSION or not 1 <= data[1] <= len(Message):
        return None
    return Message(data[1])


@dataclass(frozen=True)
class Part:
    """A sealed statement within a message: who is said to have sealed what."""

    signer: int
    statement: bytes
    seal: bytes


@dataclass(frozen=True)
class Order:
    """A local order, with its statement and its seal."""

    replica: int
    fresh: list[Tx]
    part: Part


class Reader:
    """Fields from left to right. ValueError where the bytes end."""

    def __init__(self, data: bytes, at: int = 0) -> None:
        self.data, self.at = data, at

    def take(self, size: int) -> bytes:
        if self.at + size > len(self.data):
            raise ValueError(f"the bytes end at {len(self.data)}")
        self.at += size
        return self.data[self.at - size:self.at]

    def number(self, size: int) -> int:
        return int.from_bytes(self.take(size), "big")

    def skip(self, size: int) -> None:
        if self.at + size > len(self.data):
            raise ValueError(f"the bytes end at {len(self.data)}")
        self.at += size

    def txs(self) -> list[Tx]:
        return txs_of_bytes(self.take(TX_BYTES * self.number(2)))

    def seal(self) -> bytes:
        return self.take(self.number(2))

    def order(self) -> Order:
        """An order from its kind byte on, and its seal."""
        start = self.at
        self.take(1)
        replica = self.number(1)
        self.take(4 + DIGEST)
        fresh = self.txs()
        self.txs()
        statement = self.data[start:self.at]
        return Order(replica, fresh, Part(replica, statement, self.seal()))

    def certificate(self) -> Iterator[Part]:
        """The votes of a certificate."""
        voted = self.take(4 + DIGEST)
        for _ in range(self.number(1)):
            voter = self.number(1)
            statement = bytes([Message.VOTE, voter]) + voted
            yield Part(voter, statement, self.seal())

    def block(self) -> tuple[list[Part], list[Order]]:
        self.take(4)
        votes = list(self.certificate())
        return votes, [self.order() for _ in range(self.number(1))]


def parts(data: bytes) -> list[Part]:
    """The sealed statements of a message; none for bytes that are no message."""
    kind = kind_of(data)
    if kind is None:
        return []
    try:
        return list(_parts(kind, Reader(data, 1)))
    except ValueError:
        return []


def _parts(kind: Message, reader: Reader) -> Iterator[Part]:
    if kind is Message.ORDER:
        yield reader.order().part
        return
    reader.take(1)
    if kind is Message.FETCH:
        return
    signer = 0 if kind is Message.GIVE else reader.number(1)
    if kind in (Message.PROPOSE, Message.GIVE):
        votes, orders = reader.block()
        yield from votes
        yield from (order.part for order in orders)
    elif kind is Message.VOTE:
        reader.take(4 + DIGEST)
    else:
        reader.take(4)
        yield from reader.certificate()
    if kind is not Message.GIVE:
        statement = reader.data[1:reader.at]
        yield Part(signer, statement, reader.seal())
    if kind is Message.VOTE and reader.number(1):
        yield reader.order().part
