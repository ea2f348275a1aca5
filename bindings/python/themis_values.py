"""What goes into a replica, and comes out of it: the values of `themis`. No proof covers this file."""

from __future__ import annotations

from dataclasses import dataclass
from enum import IntEnum
from typing import NamedTuple


class Reason(IntEnum):
    """Why a turn did what it did: DONE, or the first test of the event's kind that refused it."""

    DONE = 0
    BAD_WIRE = 1
    FOREIGN = 2
    VIEW_LIMIT = 3
    NOT_LEADER = 4
    OLD_VIEW = 5
    BAD_SEAL = 6
    BAD_CERT = 7
    ORPHAN = 8
    MISFIT = 9
    CLASH = 10
    UNSAFE = 11
    REPEAT = 12


class Taken(IntEnum):
    """The answer to a transaction.

    FULL: its source has as many held as it may. BEYOND: a peer's stamp is one that no honest clock
    reaches.
    """

    NEW = 0
    HELD = 1
    FINAL = 2
    FULL = 3
    BEYOND = 4


class Standing(IntEnum):
    """What is known of a transaction. SETTLED: it is final."""

    UNKNOWN = 0
    WAITING = 1
    ARRIVED = 2
    SETTLED = 3


class Height(IntEnum):
    """The trees of a key: one of 5 or 10 levels; or a top tree of 5, and lower ones of 5 or 10."""

    HEIGHT_5 = 5
    HEIGHT_10 = 10
    HEIGHT_5_5 = 505
    HEIGHT_5_10 = 510


@dataclass(frozen=True)
class Role:
    """What a replica is in a run.

    There are n replicas, at most 16, of which f may be faulty; p/q is the fairness γ, with
    1/2 < p/q <= 1, q <= 1000 and n(2p-q) > 4fq. `views` is the last view of the run, `me` this
    replica's number, below n, and `height` the Height of all keys. A key gives 5 seals for each
    view: 6 views with height 5, 204 with 10 and 505, 6553 with 510.
    """

    n: int
    f: int
    p: int
    q: int
    views: int
    me: int
    height: int


@dataclass(frozen=True)
class Run:
    """The run that an auditor expects: the numbers of a Role, without those of one replica.

    They come from the auditor's own configuration, never from the trace.
    """

    n: int
    f: int
    p: int
    q: int
    views: int
    height: int

    @classmethod
    def of(cls, role: Role) -> Run:
        """The run in which a replica has this role."""
        return cls(role.n, role.f, role.p, role.q, role.views, role.height)


class Held(NamedTuple):
    """How many transactions are received and not final: in all, waiting, and of own clients."""

    all: int
    waiting: int
    own: int


class Tx(NamedTuple):
    """A transaction: two numbers of 32 bits, and a payload of 64 bits."""

    client: int
    number: int
    payload: int


# ---- events


@dataclass(frozen=True)
class Arrived:
    """Transactions that this replica received, in this order. Each arrives once."""

    txs: tuple[Tx, ...]


@dataclass(frozen=True)
class Delivered:
    """A message that replica `sender` sent."""

    sender: int
    data: bytes


@dataclass(frozen=True)
class Tick:
    """Asks for a view above the replica's own and above `floor`."""

    floor: int


Event = Arrived | Delivered | Tick
