"""The proved core, as this package calls it: the binding `themis`, and the bytes of events.

Every call of the library goes through this module, so another core can take its place by another
module `themis` on Python's path.
"""

from __future__ import annotations

import struct
import sys
from collections.abc import Sequence
from itertools import starmap
from pathlib import Path

try:
    import themis
except ModuleNotFoundError:
    sys.path.append(str(Path(__file__).resolve().parent.parent / "bindings" / "python"))
    import themis

from themis import (
    Again, AlreadyFinal, Arrived, Delivered, Event, Finding, History, MissingFunction, NotCarried,
    OtherMarker, Reason, Role, Run, ThemisError, Tick, Tx, public_key,
)

__all__ = [
    "Again", "AlreadyFinal", "Arrived", "Core", "Delivered", "Event", "Finding", "History",
    "MissingFunction", "NotCarried", "OtherMarker", "Reason", "Role", "Run", "ThemisError", "Tick",
    "Tx", "audit_trace", "event_of", "public_key", "tx_bytes", "tx_of_bytes", "tx_of_text",
    "tx_text", "txs_of_bytes",
]

SECRET_BYTES, KEY_BYTES = 48, 60
ARRIVED, DELIVERED, TICK = 1, 2, 3      # the first byte of an event in a log
TX = struct.Struct(">IIQ")


def tx_bytes(tx: Tx) -> bytes:
    """A transaction in 16 bytes, as messages and logs have it."""
    return TX.pack(tx.client, tx.number, tx.payload)


def tx_of_bytes(data: bytes, at: int = 0) -> Tx:
    return Tx(*TX.unpack_from(data, at))


def txs_of_bytes(data: bytes) -> list[Tx]:
    """Transactions of 16 bytes each, one after another."""
    return list(starmap(Tx, TX.iter_unpack(data)))


def tx_text(tx: Tx) -> str:
    """A transaction as client.number.payload."""
    return f"{tx.client}.{tx.number}.{tx.payload}"


def tx_of_text(text: str) -> Tx:
    """The transaction of client.number.payload; ValueError where the text is none."""
    parts = text.split(".")
    if len(parts) != 3 or not all(is_number(part) for part in parts):
        raise ValueError(f"no transaction: {text[:60]}")
    client, number, payload = map(int, parts)
    if max(client, number) >= 1 << 32 or payload >= 1 << 64:
        raise ValueError(f"no transaction: {text[:60]}")
    return Tx(client, number, payload)


def is_number(text: str) -> bool:
    return text.isascii() and text.isdigit() and len(text) <= 20 and (text == "0" or text[0] != "0")


def event_of(body: bytes) -> Event:
    """The event that the body of a log's record spells (docs/FORMATS.md, "Event log")."""
    kind = body[0]
    if kind == ARRIVED:
        return Arrived(tuple(txs_of_bytes(body[5:])))
    if kind == DELIVERED:
        return Delivered(body[1], body[2:])
    if kind == TICK:
        return Tick(int.from_bytes(body[1:5], "big"))
    raise ValueError(f"no event has the kind {kind}")


class Core:
    """One replica of the library. Calls come from one thread at a time."""

    def __init__(self, role: Role, secret: bytes, publics: Sequence[bytes], log: bytes) -> None:
        self._replica = themis.Replica.open(role, secret, list(publics), log)
        self.used: int = self._replica.used

    def close(self) -> None:
        self._replica.close()

    def header(self) -> bytes:
        return self._replica.header()

    def prepare(self, event: Event) -> bytes:
        """The record to make durable before `act`. No bytes: the event needs no record."""
        return self._replica.prepare(event)

    def act(self) -> int:
        """The turn on the oldest prepared event. `Again`: prepare the event once more."""
        return self._replica.act()

    def sends(self) -> list[tuple[int, bytes]]:
        return self._replica.sends()

    def sealed(self) -> list[bytes]:
        return self._replica.sealed()

    def batch_count(self) -> int:
        return self._replica.batch_count()

    def batch(self, at: int) -> list[Tx]:
        return self._replica.batch(at)

    def view(self) -> int:
        return self._replica.views()[0]

    def commit_view(self) -> int:
        return self._replica.views()[1]


def audit_trace(trace: bytes, run: Run, publics: Sequence[bytes]) -> themis.Finding:
    """What the proved audit finds in a trace of this run, over these public keys."""
    return themis.audit(trace, run, list(publics))
