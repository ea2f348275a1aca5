"""Checks what happened in a session, from the logs or accounts of its replicas.

usage: python3 -m service.audit FOLDER [--watch]
       python3 -m service.audit FOLDER [--faulty REPLICA ..] [--settled] [--session N]
                                [--trace FILE]

Where sessions follow one another, each that has ended is audited from the accounts that the
replicas have exported, while later ones run (`service/chain.py`); --watch goes on with that. What
was found is in FOLDER/audits. FOLDER may also be one into which an auditor has put the operators'
cluster.toml and the accounts that they sent.

The second form audits one session whose replicas are stopped:

1. The proved audit checks a trace of all turns, by the cluster's setting, views, height and keys:
   each honest replica conforms to the protocol, no seal is forged, and no two blocks have the same
   digest.
2. Checks over all logs together, in Python, by definitions that are written out here:
   - honest lists are prefixes of one another, and hold no transaction twice;
   - with --settled: they are equal, and what arrived at all honest replicas is final;
   - each pair of transactions whose order is promised has it;
   - no leaf of a key sealed two statements over all lives of a replica: each seal that another
     honest replica accepted is over the statement that its signer's log has for that leaf.
"""

from __future__ import annotations

import argparse
import json
import sys
from collections import Counter
from collections.abc import Callable, Sequence
from concurrent.futures import ProcessPoolExecutor
from dataclasses import asdict, dataclass, field
from pathlib import Path

from service import core, wire
from service.account import Account, account_of, committed_blocks
from service.config import Cluster, Setup
from service.core import Tx, tx_text
from service.folder import chosen, current, is_endless, setups
from service.parent import stop_with_parent
from service.seals import leaf_of
from service.status import Exit, ServiceError
from service.session_trace import trace_of

CLUSTER_FILE = "cluster.toml"
MAX_PAIRED = 400       # transactions whose pairs are checked


@dataclass
class Report:
    """What an audit found. It is well where `verdict` is "yes" and `broken` is empty."""

    verdict: str = "unchecked"
    faulty: list[int] = field(default_factory=list)     # as the trace names them
    broken: list[str] = field(default_factory=list)
    batches: int = 0
    transactions: int = 0
    promised_pairs: int = 0
    compared_seals: int = 0
    equivocations: int = 0      # proposals and votes of a view of which another one was accepted
    reused_leaves: list[tuple[int, int]] = field(default_factory=list)      # replica and leaf
    trace_bytes: int = 0
    replicas: list[str] = field(default_factory=list)
    is_settled: bool = False    # all replicas that are not faulty were brought to the same list

    def is_well(self) -> bool:
        return self.verdict == "yes" and not self.broken


def audit(
    cluster: Cluster, accounts: Sequence[Account], faulty: set[int], is_settled: bool,
) -> tuple[Report, bytes]:
    """Checks the accounts of a session; the trace is the second part of the answer."""
    honest = [it for it in accounts if it.replica not in faulty]
    lines = [line_of(it, it.replica in faulty) for it in accounts]
    report = Report(replicas=lines, is_settled=is_settled)
    trace = trace_of(cluster, accounts, faulty)
    report.trace_bytes = len(trace)
    report.verdict, report.faulty = verdict_of(trace, cluster)
    check_lists(report, honest, is_settled)
    check_order(report, cluster, honest, len(faulty))
    check_leaves(report, cluster, honest)
    report.equivocations = count_equivocations(honest)
    return report, trace


def verdict_of(trace: bytes, cluster: Cluster) -> tuple[str, list[int]]:
    """The words of the proved audit, yes or what it found; and the faulty replicas, of which it
    claims nothing."""
    found = finding_of(trace, cluster)
    if isinstance(found, str):
        return found, []
    if found.status == 0:
        return "yes", list(found.faulty)
    return f"{found.status.name.lower()} {found}", list(found.faulty)


def finding_of(trace: bytes, cluster: Cluster) -> core.Finding | str:
    """What the proved audit finds; or why it does not read the trace."""
    try:
        return core.audit_trace(trace, run_of(cluster), cluster.public_keys())
    except core.MissingFunction as fault:
        return f"unchecked: {fault}"
    except core.ThemisError as fault:
        return f"refused: {fault}"


def run_of(cluster: Cluster) -> core.Run:
    """The run that the auditor expects, by the cluster's own configuration."""
    return core.Run(
        cluster.n, cluster.f, cluster.p, cluster.q, cluster.views, cluster.height
    )


def line_of(account: Account, is_faulty: bool) -> str:
    count = sum(map(len, account.batches))
    return (
        f"replica {account.replica}{' (faulty)' if is_faulty else ''} view={account.view}"
        f" commit={account.commit} batches={len(account.batches)} transactions={count}"
        f" arrived={len(account.arrivals)} seals={len(account.statements)}"
        f" events={len(account.entries)}"
    )


# ---- lists


def check_lists(report: Report, honest: Sequence[Account], is_settled: bool) -> None:
    longest = max((it.batches for it in honest), key=len)
    report.batches = len(longest)
    for it in honest:
        if it.batches != longest[:len(it.batches)]:
            report.broken.append(f"the batches of replica {it.replica} are no prefix")
        if is_settled and len(it.batches) != len(longest):
            report.broken.append(f"replica {it.replica} has fewer batches in the end")
    txs = [tx for batch in longest for tx in batch]
    report.transactions = len(txs)
    if len(set(txs)) != len(txs):
        report.broken.append("a transaction is in two batches")
    lost = set.intersection(*(set(it.arrivals) for it in honest)) - set(txs)
    if is_settled and lost:
        text = f"{len(lost)} transactions arrived at all and are not final"
        report.broken.append(f"{text}, among them {tx_text(min(lost))}")


# ---- fairness


@dataclass(frozen=True)
class Proposed:
    """In which committed proposal a transaction is, and whether it was solid there."""

    view: int
    is_solid: bool


def proposals(cluster: Cluster, account: Account) -> dict[Tx, Proposed]:
    """Final transactions of which counting tells their proposal.

    A transaction in n-2f lists of a block is solid, and in its proposal. One that reaches the
    threshold in a single block, and is final, can be in no other proposal.
    """
    solid = cluster.n - 2 * cluster.f
    threshold = cluster.n * (cluster.q - cluster.p) // cluster.q + cluster.f + 1
    final = {tx for batch in account.batches for tx in batch}
    found: dict[Tx, list[Proposed]] = {}
    for block in committed_blocks(account):
        counts = Counter(tx for fresh in block.fresh for tx in fresh)
        for tx, count in counts.items():
            if tx in final and count >= threshold:
                found.setdefault(tx, []).append(Proposed(block.view, count >= solid))
    first_solid = {
        tx: next((it for it in its if it.is_solid), None) for tx, its in found.items()
    }
    return {
        tx: first_solid[tx] or its[0] for tx, its in found.items()
        if first_solid[tx] or len(its) == 1
    }


def check_order(
    report: Report, cluster: Cluster, honest: Sequence[Account], faulty: int,
) -> None:
    """Order fairness: where at least γn replicas received a before b, and b was solid when it
    was proposed or is in a's proposal, a is final no later than b. Faulty ones count as such."""
    longest = max(honest, key=lambda it: len(it.batches))
    position = {tx: at for at, batch in enumerate(longest.batches) for tx in batch}
    known = proposals(cluster, longest)
    places = [{tx: at for at, tx in enumerate(it.arrivals)} for it in honest]
    enough = -(-cluster.p * cluster.n // cluster.q) - faulty
    firsts = every(sorted(set().union(*places)), MAX_PAIRED)
    for b in every(sorted(known), MAX_PAIRED):
        for a in firsts:
            if a == b or not is_promised(known, a, b):
                continue
            if sum(is_before(it, a, b) for it in places) < enough:
                continue
            report.promised_pairs += 1
            if position.get(a, len(longest.batches)) > position[b]:
                report.broken.append(f"unfair: {tx_text(a)} was received before {tx_text(b)}")


def is_promised(known: dict[Tx, Proposed], a: Tx, b: Tx) -> bool:
    return known[b].is_solid or a in known and known[a].view == known[b].view


def is_before(places: dict[Tx, int], a: Tx, b: Tx) -> bool:
    """Whether a replica received a, and b later or never."""
    return a in places and (b not in places or places[a] < places[b])


def every(txs: list[Tx], most: int) -> list[Tx]:
    """At most so many of a list, evenly spread."""
    return txs[::len(txs) // most + 1]


# ---- leaves


def check_leaves(report: Report, cluster: Cluster, honest: Sequence[Account]) -> None:
    statements = {it.replica: it.statements for it in honest}
    seen: set[wire.Part] = set()
    wrong: set[tuple[int, int, int]] = set()        # replica, leaf, kind of the statement
    for account in honest:
        for data in account.accepted():
            for part in wire.parts(data):
                if part.signer in statements and part not in seen:
                    seen.add(part)
                    leaf = leaf_of(part.seal, cluster.height)
                    own = statements[part.signer]
                    if leaf >= len(own) or own[leaf] != part.statement:
                        wrong.add((part.signer, leaf, part.statement[0]))
    report.compared_seals = len(seen)
    report.reused_leaves = sorted({(replica, leaf) for replica, leaf, _ in wrong})
    report.broken += [
        f"leaf {leaf} of replica {replica} sealed a statement of kind {kind} that its log does"
        " not have" for replica, leaf, kind in sorted(wrong)
    ]


def count_equivocations(honest: Sequence[Account]) -> int:
    """How many second blocks and votes of one signer and view were accepted. Only a faulty replica
    makes them, and they break nothing."""
    statements: dict[tuple[int, int, bytes], set[bytes]] = {}
    for account in honest:
        for data in account.accepted():
            for it in wire.parts(data):
                if it.statement[0] in (wire.Message.PROPOSE, wire.Message.VOTE):
                    key = it.signer, it.statement[0], it.statement[2:6]
                    statements.setdefault(key, set()).add(it.statement)
    return sum(len(them) - 1 for them in statements.values())


# ---- command


def accounts_of(found: Sequence[Setup], faulty: set[int]) -> list[Account]:
    """The accounts of all replicas, worked out at the same time."""
    work: Callable[[Setup, bool], Account] = account_of
    with ProcessPoolExecutor(initializer=stop_with_parent) as pool:
        return list(pool.map(work, found, [it.me in faulty for it in found]))


def faulty_of(found: Sequence[Setup], named: set[int]) -> set[int]:
    """The replicas whose logs prove nothing: those that are named, and those with deeds. The audit
    says something only of a session with at most f of them."""
    faulty = named | {it.me for it in found if it.config.deeds}
    n, f = found[0].cluster.n, found[0].cluster.f
    if len(faulty) > f or not faulty <= set(range(n)):
        raise ServiceError(Exit.USAGE, f"at most {f} of the replicas 0 to {n - 1} may be faulty")
    return faulty


def audit_session(session: Path, named: set[int], is_settled: bool) -> tuple[Report, bytes]:
    """Audits the stopped session in a folder, in which the named replicas are faulty."""
    found = setups(session)
    faulty = faulty_of(found, named)
    return audit(found[0].cluster, accounts_of(found, faulty), faulty, is_settled)


def audit_ended(folder: Path, is_watching: bool, before: Path | None) -> Exit:
    """Audits sessions that follow one another, and prints a line for each. `before` is the folder
    of the cluster that this one continues, with its audits."""
    from service.chain_audit import PATIENCE, Audits, line_of_report  # it is built on this module

    audits = Audits.of_folder(folder, PATIENCE if is_watching else 0.0)
    if before is not None:
        audits.before = Audits.of_folder(before)
    for report in audits.watch() if is_watching else audits.ended():
        print(line_of_report(report), flush=True)
        if not report.is_well():
            return Exit.CHECK_FAILED
    print(audits.next_text())
    return Exit.STOPPED


def main() -> int:
    parser = argparse.ArgumentParser(description="Audits sessions that have ended.")
    parser.add_argument("folder", type=Path, help="the folder of `cluster make`, or of accounts")
    parser.add_argument("--watch", action="store_true",
                        help="where sessions follow one another: go on, for ever")
    parser.add_argument("--after", type=Path, metavar="FOLDER",
                        help="the folder of the cluster that this one continues, with its audits")
    parser.add_argument("--faulty", type=int, nargs="*", default=[], metavar="REPLICA",
                        help="replicas whose logs prove nothing, or are lost")
    parser.add_argument("--settled", action="store_true", help="the session ended by `close`")
    parser.add_argument("--session", type=int, help="its number (default: the one not closed)")
    parser.add_argument("--trace", type=Path, help="write the trace to this file")
    given = parser.parse_args()
    try:
        folder = given.folder.resolve()
        if (folder / CLUSTER_FILE).exists() or is_endless(current(folder)):
            return audit_ended(folder, given.watch, given.after and given.after.resolve())
        session = chosen(given.folder.resolve(), given.session)
        report, trace = audit_session(session, set(given.faulty), given.settled)
    except ServiceError as fault:
        print(f"audit: {fault}", file=sys.stderr)
        return fault.status
    if given.trace:
        given.trace.write_bytes(trace)
    print(json.dumps(asdict(report), indent=2))
    return Exit.STOPPED if report.is_well() else Exit.CHECK_FAILED


if __name__ == "__main__":
    sys.exit(main())
