"""What replicas under test received and heard, in lines of a file next to the event log, and the
check that receipt decides: where each honest replica received b after it had received a and heard
of a from all honest ones, a is final no later than b.

A line is `start`, `received TX` or `heard PEER TX`, in the order in which it happened.
"""

from __future__ import annotations

from bisect import bisect_left, insort
from collections.abc import Callable, Iterable, Iterator, Sequence
from dataclasses import dataclass, field
from pathlib import Path

from service.core import Tx, tx_of_text


@dataclass
class Heard:
    """When one replica received each transaction, and by when it had heard of it from all honest ones:
    numbers of lines. What it received again after a start is left out."""

    received: dict[Tx, int] = field(default_factory=dict)
    by_all: dict[Tx, int] = field(default_factory=dict)

    @classmethod
    def of(cls, lines: Iterable[str], peers: set[int]) -> Heard:
        it, again, heard = cls(), set[Tx](), dict[Tx, dict[int, int]]()
        for at, line in enumerate(lines):
            match line.split():
                case ["received", text]:
                    tx = tx_of_text(text)
                    if tx in it.received:
                        again.add(tx)
                    it.received[tx] = at
                case ["heard", peer, text]:
                    heard.setdefault(tx_of_text(text), {}).setdefault(int(peer), at)
        for tx in again:
            del it.received[tx]
        for tx, when in heard.items():
            if tx in it.received and peers <= when.keys():
                it.by_all[tx] = max(it.received[tx], *(when[peer] for peer in peers))
        return it


def path_of(session: Path, replica: int) -> Path:
    return session / f"{replica}.receipts"


def heard_in(session: Path, honest: Sequence[int]) -> list[Heard]:
    """What the files of all honest replicas say."""
    out = []
    for i in honest:
        with path_of(session, i).open() as lines:
            out.append(Heard.of(lines, set(honest) - {i}))
    return out


def passed(
    heard: Sequence[Heard], position: dict[Tx, int], is_promised: Callable[[Tx, Tx], bool],
) -> Iterator[tuple[Tx, Tx]]:
    """Pairs of a and b such that receipt puts a first, and b is final before a."""
    first, others = heard[0], heard[1:]
    all_received = [tx for tx in first.received if all(tx in it.received for it in others)]
    last = len(position)
    later: list[tuple[int, Tx]] = []            # final later, by when the first replica knew all
    order = sorted(all_received, key=lambda tx: position.get(tx, last), reverse=True)
    for b in order:
        end = bisect_left(later, (first.received[b], Tx(0, 0, 0)))
        for _, a in later[:end]:
            comes_first = all(
                a in it.by_all and it.by_all[a] < it.received[b] for it in others
            )
            if comes_first and position.get(a, last) > position.get(b, last) and is_promised(a, b):
                yield a, b
        if b in first.by_all:
            insort(later, (first.by_all[b], b))
