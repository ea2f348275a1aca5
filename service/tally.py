"""What chaos runs showed: a line for each, and a table of all.

A line names its fields, so a table can be made from the output of several commands.
"""

from __future__ import annotations

import statistics
from collections import Counter
from collections.abc import Iterable, Sequence
from dataclasses import dataclass, field

FAULT_NAMES = {
    "kill": "kills", "tear": "torn writes", "cut": "cuts", "one_way": "one-way cuts",
    "slow": "slow disks", "full": "full disks", "change": "kills at a change of session",
    "step": "deaths at a step of a change", "away": "away over two changes", "lost": "lost logs",
}
NO_AUDIT = "none"


@dataclass(frozen=True)
class Reuse:
    """What came of records that were dropped from logs after they were acted on."""

    records: int = 0        # dropped
    leaves: int = 0         # that sealed a statement before, and by the final log another or none
    accepted: int = 0       # of these, with the statement of before accepted by an honest replica
    missed: int = 0         # of the accepted, not named by the audit

    def text(self) -> str:
        if not self.leaves:
            return "nothing is to be found: each leaf sealed the same statement again"
        text = f"{self.leaves} leaves sealed another statement before"
        if not self.accepted:
            return f"nothing is to be found: {text}, and no honest replica accepted one"
        found = self.accepted - self.missed
        return f"{text}; the audit names {found} of the {self.accepted} that were accepted"


@dataclass(frozen=True)
class Outcome:
    """What one run showed."""

    seed: int
    faulty: int | None = None           # the faulty replica, and its deeds
    deeds: tuple[str, ...] = ()
    faults: dict[str, int] = field(default_factory=dict)
    burst: int = 0                      # transactions at once
    final: int = 0                      # transactions
    median: float = 0.0                 # seconds until a transaction is final
    p99: float = 0.0
    is_settled: bool = False            # all was final, and the lists were equal
    pairs: int = 0
    seals: int = 0
    equivocations: int = 0
    verdict: str = NO_AUDIT             # one word: yes, or what the proved audit found
    broken: int = 0                     # checks
    sessions: int = 0                   # that followed one another, and were audited
    without: int = 0                    # of these, without the account of one replica
    reuse: Reuse | None = None          # of runs that drop records on purpose
    has_passed: bool = False
    details: tuple[str, ...] = ()       # for a reader; not in the line

    def line(self) -> str:
        """The run in one line."""
        who = "none" if self.faulty is None else f"{self.faulty}:{','.join(self.deeds)}"
        words = [f"seed={self.seed}", f"faulty={who}"]
        words += [f"{fault}={count}" for fault, count in self.faults.items()]
        words += [
            f"burst={self.burst}", f"final={self.final}", f"median={self.median:.3f}s",
            f"p99={self.p99:.3f}s", f"settled={yes_or_no(self.is_settled)}", f"pairs={self.pairs}",
            f"seals={self.seals}", f"equivocations={self.equivocations}",
            f"audit={self.verdict}", f"broken={self.broken}",
        ]
        if self.sessions:
            words += [f"sessions={self.sessions}", f"without={self.without}"]
        if self.reuse is not None:
            it = self.reuse
            words += [f"dropped={it.records}", f"leaves={it.leaves}"]
            words += [f"accepted={it.accepted}", f"missed={it.missed}"]
        return " ".join([*words, f"passed={yes_or_no(self.has_passed)}"])

    def text(self) -> str:
        """The line, and the details under it."""
        return "\n  ".join([self.line(), *self.details])


def yes_or_no(value: bool) -> str:
    return "yes" if value else "no"


def outcome_of(line: str) -> Outcome | None:
    """The outcome that a line reports; None where it is no line of a run."""
    pairs = dict(word.split("=", 1) for word in line.split() if "=" in word)
    if not line.startswith("seed=") or "passed" not in pairs:
        return None
    who, _, deeds = pairs["faulty"].partition(":")
    reuse = None
    if "dropped" in pairs:
        names = ("dropped", "leaves", "accepted", "missed")
        reuse = Reuse(*(int(pairs[name]) for name in names))
    return Outcome(
        seed=int(pairs["seed"]),
        faulty=None if who == "none" else int(who),
        deeds=tuple(deeds.split(",")) if deeds else (),
        faults={name: int(pairs[name]) for name in FAULT_NAMES if name in pairs},
        burst=int(pairs.get("burst", 0)),
        final=int(pairs["final"]),
        median=float(pairs["median"].rstrip("s")),
        p99=float(pairs["p99"].rstrip("s")),
        is_settled=pairs["settled"] == "yes",
        pairs=int(pairs["pairs"]), seals=int(pairs["seals"]),
        equivocations=int(pairs["equivocations"]),
        verdict=pairs["audit"], broken=int(pairs["broken"]), reuse=reuse,
        sessions=int(pairs.get("sessions", 0)), without=int(pairs.get("without", 0)),
        has_passed=pairs["passed"] == "yes",
    )


def outcomes_of(lines: Iterable[str]) -> list[Outcome]:
    """The runs among the lines of one or several commands."""
    return [it for line in lines if (it := outcome_of(line)) is not None]


# ---- all runs together


def table(outcomes: Sequence[Outcome]) -> str:
    """All runs in a Markdown table."""
    rows = [("Of all runs", ""), ("---", "---"), *rows_of(outcomes)]
    return "\n".join(f"| {name} | {value} |".replace("|  |", "| |") for name, value in rows)


def rows_of(outcomes: Sequence[Outcome]) -> list[tuple[str, str]]:
    failed = [str(it.seed) for it in outcomes if not it.has_passed]
    found_nothing = sum(it.verdict == "yes" for it in outcomes)
    rows = [
        ("runs that passed", f"{len(outcomes) - len(failed):,} of {len(outcomes):,}"),
        ("faults", faults_text(outcomes)),
        ("runs with a faulty replica", deeds_text(outcomes)),
        ("runs with a burst", bursts_text(outcomes)),
        ("transactions final", total(it.final for it in outcomes)),
        ("latency", latency_text(outcomes)),
        ("pairs whose order was promised", total(it.pairs for it in outcomes)),
        ("seals compared", total(it.seals for it in outcomes)),
        ("equivocations that honest replicas accepted",
         total(it.equivocations for it in outcomes)),
        ("runs in which the proved audit found nothing", f"{found_nothing:,}"),
        ("broken checks", total(it.broken for it in outcomes)),
    ]
    if sessions := sum(it.sessions for it in outcomes):
        without = total(it.without for it in outcomes)
        rows.insert(1, ("sessions that were audited",
                        f"{sessions:,}, {without} of them without the account of one replica"))
    if reuses := [it.reuse for it in outcomes if it.reuse is not None]:
        rows.append(("records dropped on purpose", reuse_text(reuses)))
    if failed:
        rows.append(("seeds that failed", ", ".join(failed)))
    return rows


def total(values: Iterable[int]) -> str:
    return f"{sum(values):,}"


def faults_text(outcomes: Sequence[Outcome]) -> str:
    counts: Counter[str] = Counter()
    for it in outcomes:
        counts.update(it.faults)
    return ", ".join(f"{counts[it]:,} {name}" for it, name in FAULT_NAMES.items() if counts[it])


def deeds_text(outcomes: Sequence[Outcome]) -> str:
    runs = sum(bool(it.deeds) for it in outcomes)
    counts = Counter(deed for it in outcomes for deed in it.deeds)
    deeds = ", ".join(f"{deed} {count:,}" for deed, count in sorted(counts.items()))
    return f"{runs:,}: {deeds}" if deeds else "0"


def bursts_text(outcomes: Sequence[Outcome]) -> str:
    bursts = [it.burst for it in outcomes if it.burst]
    return f"{len(bursts):,}, of at most {max(bursts):,} transactions" if bursts else "0"


def latency_text(outcomes: Sequence[Outcome]) -> str:
    """Of the runs in which anything was final."""
    some = [it for it in outcomes if it.final]
    if not some:
        return "none"
    median = statistics.median(it.median for it in some)
    return f"median of the medians {median:.2f} s, greatest p99 {max(it.p99 for it in some):.2f} s"


def reuse_text(reuses: Sequence[Reuse]) -> str:
    return (
        f"{sum(it.records for it in reuses):,}; leaves that sealed another statement before"
        f" {sum(it.leaves for it in reuses):,}, accepted {sum(it.accepted for it in reuses):,},"
        f" not found {sum(it.missed for it in reuses):,}"
    )
