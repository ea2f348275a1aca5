"""What the printed text of a run in threads shows, and what no such text may show."""

from __future__ import annotations

from dataclasses import dataclass
from typing import Any

Plan = dict[str, Any]
Batches = list[tuple[str, ...]]

DONE, STALLED, FORGED, COLLIDED = 0, 7, 8, 9
ENDS = {
    DONE: "end done", STALLED: "end stalled", FORGED: "end forged", COLLIDED: "end collided"
}


@dataclass
class RunText:
    """The turns, the ticks, the batch list of each printed replica, and the last line."""

    turns: int
    ticks: int
    lists: list[Batches]
    last: str

    @classmethod
    def read(cls, text: str) -> RunText:
        lines = text.splitlines()
        counts = dict(part.split("=") for part in lines[1].split())
        lists: list[Batches] = []
        for line in lines[2:-1]:
            if line.startswith("replica "):
                lists.append([])
            elif line.startswith("batch "):
                lists[-1].append(tuple(line.split()[2:]))
        return cls(int(counts["turns"]), int(counts["ticks"]), lists, lines[-1])

    def transactions(self) -> list[list[str]]:
        """The transactions of each batch list, sorted."""
        return [sorted(flat(batches)) for batches in self.lists]


def flat(batches: Batches) -> list[str]:
    return [tx for batch in batches for tx in batch]


def same_arrives_everywhere(plan: Plan) -> bool:
    """Whether the same transactions arrive at each replica, all at turn 0."""
    received: list[set[str]] = [set() for _ in range(plan["n"])]
    for arrival in plan.get("arrival", []):
        if arrival["turn"]:
            return False
        received[arrival["replica"]] |= set(arrival["txs"])
    return all(txs == received[0] for txs in received)


def has_early(plan: Plan, run: RunText) -> bool:
    """Whether a list holds a transaction whose turn had not come."""
    first: dict[str, int] = {}
    for arrival in plan.get("arrival", []):
        for tx in arrival["txs"]:
            first[tx] = min(arrival["turn"], first.get(tx, arrival["turn"]))
    return any(first.get(tx, 0) > run.turns for batches in run.lists for tx in flat(batches))


def faults(plan: Plan, status: int, text: str) -> list[str]:
    """What a run shows that no run of its plan may show."""
    run = RunText.read(text)
    found = []
    if not run.last.startswith(ENDS.get(status, "?")):
        found.append(f"status {status} with '{run.last}'")
    if run.ticks > plan["ticks"] or run.turns >= plan["turns"] + 32 * plan["n"]:
        found.append(f"turns={run.turns} ticks={run.ticks}")
    if status in (FORGED, COLLIDED):
        return found
    is_early = run.ticks < plan["ticks"] and run.turns < plan["turns"]
    if run.last == "end stalled" and is_early:
        found.append(f"stalled early: turns={run.turns} ticks={run.ticks}")
    if has_early(plan, run):
        found.append("a transaction is final before its turn")
    for batches in run.lists:
        if len(flat(batches)) != len(set(flat(batches))):
            found.append("a transaction is repeated")
        for other in run.lists:
            if any(a != b for a, b in zip(batches, other)):
                found.append("two lists disagree")
    return found
