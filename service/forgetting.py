"""Breaks the law of the log on purpose, and says what the audit has to find of it.

A replica that starts from a log without its last records seals again with leaves that it has used.
Where the statement is the same one, no harm was done. Where it is another, and an honest replica
accepted the first one, the audit has to name the leaf. What nobody honest accepted left no trace in
any log, so nobody can find it.
"""

from __future__ import annotations

from collections.abc import Iterable, Iterator, Sequence
from dataclasses import dataclass
from pathlib import Path

from service import log
from service.account import Account, play
from service.config import Setup
from service.seals import leaf_of
from service.tally import Reuse
from service.wire import Message

FORGOTTEN = 10              # records that are dropped from the end of a log
MIN_SEAL = 2000             # bytes; shorter ones are none
RECORD_BYTES = log.LENGTH_BYTES + 2 * log.CHECK_BYTES       # of a record, next to its body


def forget(path: Path) -> int:
    """Drops the last records of a log, on which the replica has acted; returns how many. The log
    as it was stays next to it."""
    data = path.read_bytes()
    sizes = [len(it) + RECORD_BYTES for it in log.bodies(data)]
    kept = sizes[:-FORGOTTEN]
    path.with_name(f"{path.name}.{len(earlier_logs(path)) + 1}").write_bytes(data)
    path.write_bytes(data[:log.HEADER_BYTES + sum(kept)])
    return len(sizes) - len(kept)


def earlier_logs(path: Path) -> list[Path]:
    """The logs that `forget` kept."""
    return sorted(path.parent.glob(f"{path.name}.*"))


def earlier_accounts(found: Iterable[Setup]) -> list[Account]:
    """What each log said before its last records were dropped."""
    return [
        play(it.role(), it.secret(), it.cluster.public_keys(), path.read_bytes())
        for it in found for path in earlier_logs(it.log_path())
    ]


@dataclass(frozen=True)
class Sealed:
    """A leaf of a replica's key, and what it sealed."""

    replica: int
    leaf: int
    statement: bytes

    def is_in(self, message: bytes, height: int) -> bool:
        """Whether a message has the statement with a seal of this leaf."""
        return any(
            len(seal) > MIN_SEAL and leaf_of(seal, height) == self.leaf
            for seal in self._seals(message)
        )

    def _seals(self, message: bytes) -> Iterator[bytes]:
        """The seals of this replica over the statement. A seal follows its statement. A certificate
        has what was voted for once: it is followed by a count, and voters with their seals."""
        for at in places(message, self.statement):
            yield sized(message, at + len(self.statement))
        if self.statement[0] != Message.VOTE:
            return
        voted = self.statement[2:]
        for at in places(message, voted):
            at += len(voted)
            votes, at = int.from_bytes(message[at:at + 1], "big"), at + 1
            for _ in range(votes):
                voter, seal = message[at:at + 1], sized(message, at + 1)
                at += 3 + len(seal)
                if voter == bytes([self.replica]):
                    yield seal


def places(message: bytes, part: bytes) -> Iterator[int]:
    """Where a part stands in a message."""
    at = message.find(part)
    while at >= 0:
        yield at
        at = message.find(part, at + 1)


def sized(message: bytes, at: int) -> bytes:
    """The bytes that follow their length, of two bytes."""
    return message[at + 2:at + 2 + int.from_bytes(message[at:at + 2], "big")]


def changed(before: Account, final: Account) -> set[Sealed]:
    """What leaves sealed before, where by the final log they sealed something else or nothing."""
    return {
        Sealed(before.replica, leaf, statement) for leaf, statement in enumerate(before.statements)
        if final.statements[leaf:leaf + 1] != [statement]
    }


def reuse_of(
    before: Sequence[Account], honest: Sequence[Account], height: int,
    named: Iterable[tuple[int, int]], records: int,
) -> Reuse:
    """Compares what the audit named (replicas and leaves) with what it had to name.

    What it had to name is found without the audit's means: by the bytes of the statements that
    the logs from before have, within the messages that honest replicas accepted.
    """
    final = {it.replica: it for it in honest}
    sealed = {it for old in before if old.replica in final
              for it in changed(old, final[old.replica])}
    accepted = {
        (it.replica, it.leaf) for it in sealed
        if any(it.is_in(data, height) for account in honest for data in account.accepted())
    }
    return Reuse(
        records, len({(it.replica, it.leaf) for it in sealed}), len(accepted),
        len(accepted - set(named)),
    )
