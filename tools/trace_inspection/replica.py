"""What an honest replica knew, followed through its journal: its view, its commit and its
batches."""

from __future__ import annotations

from collections import Counter, defaultdict
from dataclasses import dataclass, field

from trace_inspection.trace import (
    FIRST_BLOCK, Block, Entry, Event, Message, Moved, Trace, Tx, sealed_of,
)

Pair = tuple[Tx, Tx]


@dataclass
class Proposal:
    """The kept transactions of a block, in ascending order, and the edges between them: of a
    pair (a, b) whether the edge goes from a to b."""

    kept: list[Tx]
    edges: dict[Pair, bool] = field(default_factory=dict)

    def missing(self) -> list[Pair]:
        """The pairs without an edge."""
        return [
            (a, b) for i, a in enumerate(self.kept) for b in self.kept[i + 1 :]
            if (a, b) not in self.edges
        ]

    def has_edge(self, a: Tx, b: Tx) -> bool:
        return self.edges.get((a, b)) is True if a < b else self.edges.get((b, a)) is False

    def weigh(self, threshold: int, lists: list[list[Tx]]) -> None:
        """Gives each missing pair the edge of the lists, where they give one."""
        places = [{t: k for k, t in enumerate(txs)} for txs in lists]
        last = 1 << 30
        for a, b in self.missing():
            forth = sum(p.get(a, last) < p.get(b, last) for p in places)
            back = sum(p.get(b, last) < p.get(a, last) for p in places)
            if max(forth, back) >= threshold:
                self.edges[a, b] = forth >= back

    def cut(self, solid: set[Tx]) -> Proposal:
        """The part from which edges lead to a solid transaction."""
        kept, todo = set(solid), list(solid)
        while todo:
            b = todo.pop()
            for a in self.kept:
                if a not in kept and self.has_edge(a, b):
                    kept.add(a)
                    todo.append(a)
        edges = {pair: to for pair, to in self.edges.items() if set(pair) <= kept}
        return Proposal(sorted(kept), edges)

    def reached(self, start: Tx) -> set[Tx]:
        """Where walks lead to."""
        seen, todo = {start}, [start]
        while todo:
            x = todo.pop()
            for y in self.kept:
                if y not in seen and self.has_edge(x, y):
                    seen.add(y)
                    todo.append(y)
        return seen

    def batches(self) -> list[list[Tx]]:
        """The strong components in their order: the more one reaches, the earlier it is."""
        reached = {a: self.reached(a) for a in self.kept}
        groups = {
            frozenset(b for b in reached[a] if a in reached[b]): len(reached[a]) for a in self.kept
        }
        return [sorted(group) for group, _ in sorted(groups.items(), key=lambda it: -it[1])]


def proposals_of(trace: Trace, blocks: list[Block]) -> list[Proposal]:
    """The proposals along a chain."""
    out: list[Proposal] = []
    for block in blocks:
        for earlier in out:
            earlier.weigh(trace.threshold, [order.late for order in block.orders])
        lists = [order.fresh for order in block.orders]
        count = Counter(tx for txs in lists for tx in txs)
        proposal = Proposal(sorted(tx for tx in count if count[tx] >= trace.threshold))
        proposal.weigh(trace.threshold, lists)
        out.append(proposal.cut({tx for tx in proposal.kept if count[tx] >= trace.solid}))
    return out


@dataclass
class Finals:
    """The final batches of a chain; and where a proposal is incomplete, the view and the least
    missing pair of the first such."""

    batches: list[list[Tx]] = field(default_factory=list)
    missing: tuple[int, Pair] | None = None


def finals_of(trace: Trace, chain: list[Block]) -> Finals:
    finals = Finals()
    for block, proposal in zip(chain, proposals_of(trace, chain)):
        if missing := proposal.missing():
            finals.missing = (block.view, missing[0])
            break
        finals.batches += proposal.batches()
    return finals


class Replica:
    """What an honest replica knew, followed through its journal. `known` is shared among
    replicas: the final list of each chain, by the digest of its last block."""

    def __init__(self, trace: Trace, me: int, known: dict[bytes, Finals]) -> None:
        self.trace, self.me, self.known = trace, me, known
        self.view, self.commit = 0, FIRST_BLOCK
        self.store: dict[bytes, Block] = {}
        self.votes: dict[tuple[int, bytes], set[int]] = defaultdict(set)
        self.calls: dict[int, list[int]] = defaultdict(list)
        self.orders: dict[int, list[int]] = defaultdict(list)
        self.finals = Finals()

    def view_of(self, block: bytes) -> int:
        return self.store[block].view if block in self.store else 0

    def chain(self, block: bytes) -> list[Block]:
        out = []
        while block in self.store:
            out.append(self.store[block])
            block = self.store[block].certificate.block
        return out[::-1]

    def see(self, view: int, block: bytes) -> None:
        """A certificate of a block is seen."""
        self.view = max(self.view, view)
        three = [block]
        for _ in range(2):
            if three[-1] not in self.store:
                return
            three.append(self.store[three[-1]].certificate.block)
        views = [self.view_of(b) for b in three]
        is_in_a_row = views[0] == views[1] + 1 == views[2] + 2
        if is_in_a_row and three[2] in self.store and views[2] > self.view_of(self.commit):
            self.commit = three[2]
            if self.commit not in self.known:
                self.known[self.commit] = finals_of(self.trace, self.chain(self.commit))
            self.finals = self.known[self.commit]

    def follow(self, entry: Entry) -> None:
        """One entry of the journal."""
        view, commit, batches = self.view, self.commit, len(self.finals.batches)
        if entry.reason == "Done" and entry.event == Event.TICK:
            self.view = max(self.view, entry.floor) + 1
        elif entry.reason == "Done" and entry.message and entry.sender is not None:
            self.accept(entry.message, entry.sender, entry.sealed)
        entry.view, entry.commit = self.view, self.view_of(self.commit)
        entry.batches = len(self.finals.batches)
        entry.moved = Moved(
            self.view != view, self.commit != commit, len(self.finals.batches) - batches
        )

    def accept(self, message: Message, sender: int, sealed: list[bytes]) -> None:
        """A message that was not refused."""
        kind, view = message.kind, message.view
        if message.certificate is not None:
            self.see(message.certificate.view, message.certificate.block)
        if kind == "NewView":
            self.calls[view].append(sender)
        elif kind == "Ask":
            self.view = view
        elif kind == "Order":
            self.orders[view].append(sender)
        elif message.block is not None:
            self.store[message.block.digest] = message.block
            if kind == "Propose":
                self.view = min(view + 1, self.trace.views)
        elif kind == "Vote" and message.block_digest is not None:
            voters = self.votes[view, message.block_digest]
            voters.add(sender)
            if len(voters) == self.trace.quorum:
                self.see(view, message.block_digest)
        for statement in sealed:
            if sealed_of(statement)[0] in ("Ask", "Propose"):
                self.view = max(self.view, sealed_of(statement)[1])


def follow_all(trace: Trace) -> dict[int, Replica]:
    """Every honest replica at the end of its journal."""
    known: dict[bytes, Finals] = {}
    replicas = {r: Replica(trace, r, known) for r in trace.honest}
    for entry in trace.entries():
        replicas[entry.replica].follow(entry)
    return replicas
