"""Checks sessions that follow one another, each from the accounts of its replicas.

An account is its replica's own claim, so of n accounts up to f may be missing or false. One that
breaks a rule by itself is false, and its replica counts as faulty:

- it names another beginning or end of the session than the chain of sessions has;
- a turn in it violates the protocol, or it lacks a seal that another replica accepted (the proved
  audit says which);
- by the rules of sessions, which the library checks (`History`): what was carried over does not
  arrive first, something final arrives again, or the marker of another session arrives.

The proved audit then reads the accounts of the others, at least n-f. With the verdict `yes` the
promise holds of this session. The chain is worked out from the final batches alone: the first batch
with the marker is the last of a session, the keys of the next one are those that were announced in
it, positions and digests go on, and no transaction is final twice.
"""

from __future__ import annotations

from collections.abc import Iterable, Mapping
from dataclasses import dataclass, field, replace
from hashlib import sha256

from service.account import Account, SessionAccount
from service.audit import (
    Report, check_leaves, check_order, count_equivocations, finding_of, line_of,
)
from service.config import Cluster
from service.core import (
    KEY_BYTES, AlreadyFinal, History, NotCarried, OtherMarker, Tx, tx_bytes, tx_of_text, tx_text,
)
from service.session_trace import trace_of
from service.status import Exit, ServiceError

FIRST_ANNOUNCER = (1 << 32) - 16        # replica i announces its keys as this client plus i
KEY_HEAD, KEY_PART = 12, 8              # all keys have the same head; the rest comes in parts
KEY_PARTS, KEY_NUMBERS = (KEY_BYTES - KEY_HEAD) // KEY_PART, 8


@dataclass
class Link:
    """What a session starts from, by the sessions before it."""

    session: int
    position: int = 0                   # of its first batch
    digest: str = "00" * 32             # chains all batches before it
    keys: list[str | None] = field(default_factory=list)
    # What each replica has to let arrive first, as texts. Where that is not known, it is left out.
    carried: dict[int, list[str]] = field(default_factory=dict)


@dataclass
class SessionReport(Report):
    """What the audit of one of many sessions found."""

    session: int = 0
    position: int = 0                                       # of its first batch
    unusable: dict[int, str] = field(default_factory=dict)  # replicas, and why not
    absent: list[int] = field(default_factory=list)         # where not even what is carried arrived
    following: Link | None = None                           # what the next session starts from


class Chain:
    """The sessions of a cluster, as far as they were audited."""

    def __init__(self, cluster: Cluster, link: Link, history: Iterable[list[Tx]] = ()) -> None:
        """`history` has what was final before, in parts of any size."""
        self.cluster, self.link, self.history = cluster, link, History()
        for txs in history:
            self.history.add(link.session, txs)

    def audit(
        self, accounts: Mapping[int, SessionAccount | str],
    ) -> tuple[SessionReport, list[list[Tx]]]:
        """Audits the next session; its final batches are the second part of the answer. Where all
        is well, the chain goes on; otherwise, where a verdict was reached, it is of no further use.
        Each replica has its account, or the text why there is none."""
        link, n, f = self.link, self.cluster.n, self.cluster.f
        unusable = {i: it for i, it in accounts.items() if isinstance(it, str)}
        unusable |= {i: "there is no account" for i in range(n) if i not in accounts}
        usable = {i: it for i, it in accounts.items() if not isinstance(it, str)}
        for i, it in usable.items():
            if why := why_not_here(it, link):
                unusable[i] = why
        cluster = replace(self.cluster, session=link.session, publics=public_keys(link, n))
        while True:
            report = SessionReport(session=link.session, position=link.position,
                                   faulty=sorted(unusable), unusable=dict(sorted(unusable.items())))
            if len(unusable) > f:
                report.verdict = f"unchecked: fewer than {n - f} accounts can be used"
                return report, []
            good = {i: it for i, it in sorted(usable.items()) if i not in unusable}
            found = self._false_account(report, cluster, good)
            if found is None:
                break
            unusable[found[0]] = found[1]
        batches = self._finish(report, good) if report.verdict == "yes" else []
        return report, batches

    def _false_account(
        self, report: SessionReport, cluster: Cluster, good: Mapping[int, SessionAccount],
    ) -> tuple[int, str] | None:
        """A replica whose account is false, and why. None: the report says what else was found."""
        ended = {i: counted(it.account.batches, cluster.session) for i, it in good.items()}
        whole = [it for it in ended.values() if it is not None]
        if not whole:
            report.verdict = "unchecked: no account has the end of the session"
            return None
        for i, it in good.items():
            if why := self._why_false(it, whole[0]):
                return i, why
        accounts = [good[i].account if i in good else Account(i) for i in range(cluster.n)]
        honest = [it.account for it in good.values()]
        trace = trace_of(cluster, accounts, report.faulty)
        report.trace_bytes = len(trace)
        finding = finding_of(trace, cluster)
        if isinstance(finding, str):
            report.verdict = finding
            return None
        match finding.status.name:
            case "OK":
                report.verdict = "yes"
            case "UNLAWFUL":
                return finding.replica, f"entry {finding.entry} violates the protocol"
            case "FORGED":
                text = f"it lacks a seal that replica {finding.replica} accepted"
                return finding.signer, text
            case _:
                report.verdict = f"{finding.status.name.lower()} {finding}"
                return None
        check_leaves(report, cluster, honest)
        if report.reused_leaves:
            replica, leaf = report.reused_leaves[0]
            return replica, f"leaf {leaf} sealed another statement than it says"
        check_order(report, cluster, honest, len(report.faulty))
        report.equivocations = count_equivocations(honest)
        report.replicas = [line_of(it, it.replica in report.faulty) for it in accounts]
        return None

    def _why_false(self, it: SessionAccount, batches: list[list[Tx]]) -> str:
        """What an account says that breaks a rule of sessions; empty where nothing does."""
        link = self.link
        if why := self._why_not_arrived(it.account):
            return why
        end = link.position + len(batches), chained(link.digest, batches)
        if it.end is not None and (it.end, it.end_digest) != end:
            return "its replica stored another end of the session"
        return ""

    def _why_not_arrived(self, account: Account) -> str:
        """Why this can't be what arrived at a replica. Where nothing arrived, it was away."""
        session, arrived = self.link.session, account.arrivals
        carried = self.link.carried.get(account.replica, []) if arrived else []
        try:
            self.history.check(session, [tx_of_text(it) for it in carried], arrived)
        except AlreadyFinal as fault:
            return f"{tx_text(arrived[fault.at])} is final already, and arrives"
        except OtherMarker:
            return "the marker of another session arrives"
        except NotCarried:
            return "what was carried over does not arrive first"
        return ""

    def _finish(
        self, report: SessionReport, good: Mapping[int, SessionAccount],
    ) -> list[list[Tx]]:
        """The final batches, what the next session starts from, and checks over all sessions."""
        link, n = self.link, self.cluster.n
        lists = (counted(it.account.batches, link.session) for it in good.values())
        batches = next(it for it in lists if it is not None)
        for i, it in good.items():
            own = it.account.batches[:len(batches)]
            if own != batches[:len(own)]:
                report.broken.append(f"the batches of replica {i} are no prefix")
        report.batches, report.transactions = len(batches), sum(map(len, batches))
        report.absent = [i for i, it in good.items()
                         if link.carried.get(i) and not it.account.arrivals]
        if why := self._why_not_added(batches):
            report.broken.append(why)
        keys = agreed_keys(n, link.session + 1, link.keys, batches)
        if sum(key is not None for key in keys) < n - self.cluster.f:
            report.broken.append("fewer keys of the next session are agreed than a quorum has")
        report.following = Link(
            link.session + 1, link.position + len(batches), chained(link.digest, batches), keys,
            carried_over(
                link, {i: it.account.arrivals for i, it in good.items()}, self.history),
        )
        if report.is_well():
            self.link = report.following
        return batches

    def _why_not_added(self, batches: list[list[Tx]]) -> str:
        """Adds the final batches of the session to the history; why that fails, or nothing."""
        if any(len(set(it)) != len(it) for it in batches):
            return "a batch holds a transaction twice"
        try:
            ends = [self.history.add(self.link.session, it) for it in batches]
        except AlreadyFinal:
            return "a transaction is final twice"
        if True in ends[:-1] or not ends[-1]:
            return "the batches do not end with the first one that has the marker"
        return ""


def why_not_here(it: SessionAccount, link: Link) -> str:
    """Why an account has no place in the chain; empty where it has one."""
    if link.keys[it.account.replica] is None:
        return "it has no key in this session"
    if (it.first, it.digest, it.keys) != (link.position, link.digest, link.keys):
        return "it begins with another position, digest or keys than the sessions before lead to"
    return ""


def first_link(cluster: Cluster, before: Link | None = None) -> Link:
    """What the first session starts from: the operators' shared file. Where the cluster continues
    another one, `before` is where the audits of that one lead: what is carried over from there.
    Without it that is not known."""
    link, after = Link(cluster.session, keys=list(cluster.publics)), cluster.after
    if after is None:
        link.carried = {i: [] for i in range(cluster.n)}
        return link
    link.position, link.digest = after.position, after.digest
    if before is not None:
        if (before.session, before.position, before.digest) != (
            cluster.session, after.position, after.digest,
        ):
            text = "the audits of the cluster before do not lead to where this one begins"
            raise ServiceError(Exit.USAGE, text)
        link.carried = {i: txs for i, txs in before.carried.items() if i < cluster.n}
        # A number that was not there before has nothing to carry over.
        link.carried |= {i: [] for i in range(len(before.keys), cluster.n)}
    return link


def reported_link(
    cluster: Cluster, session: int, accounts: Iterable[SessionAccount | str],
) -> Link | None:
    """What a session starts from, where the sessions before can't be audited any more: what more
    than f accounts say alike. One of these replicas is honest."""
    known = [it for it in accounts if not isinstance(it, str)]
    for it in known:
        same = [o for o in known if (o.first, o.digest, o.keys) == (it.first, it.digest, it.keys)]
        if len(same) > cluster.f:
            return Link(session, it.first, it.digest, it.keys)
    return None


def public_keys(link: Link, n: int) -> list[str]:
    """As the library takes them. No seal fits the key of a replica that sits the session out."""
    return [link.keys[i] or "00" * KEY_BYTES for i in range(n)]


def marker(session: int) -> Tx:
    """The transaction that ends a session."""
    return Tx(0, session, 0)


def counted(batches: list[list[Tx]], session: int) -> list[list[Tx]] | None:
    """The batches that count: up to the first that holds the marker. None where none does."""
    last = next((at for at, it in enumerate(batches) if marker(session) in it), None)
    return None if last is None else batches[:last + 1]


def chained(digest: str, batches: list[list[Tx]]) -> str:
    """The digest of a list that is longer by these batches."""
    at = bytes.fromhex(digest)
    for batch in batches:
        at = sha256(at + b"".join(map(tx_bytes, batch))).digest()
    return at.hex()


def agreed_keys(
    n: int, session: int, known: list[str | None], batches: list[list[Tx]],
) -> list[str | None]:
    """The keys of a session that were announced in the batches of the one before. The first value
    of a part counts, within a batch the smallest."""
    head = next(key for key in known if key is not None)[:2 * KEY_HEAD]
    parts: list[dict[int, int]] = [{} for _ in range(n)]
    for batch in batches:
        for tx in sorted(batch, key=lambda tx: tx.payload):
            replica, part = tx.client - FIRST_ANNOUNCER, tx.number - session * KEY_NUMBERS
            if 0 <= replica < n and 0 <= part < KEY_PARTS:
                parts[replica].setdefault(part, tx.payload)
    return [
        head + "".join(it[part].to_bytes(KEY_PART, "big").hex() for part in range(KEY_PARTS))
        if len(it) == KEY_PARTS else None for it in parts
    ]


def carried_over(
    link: Link, arrivals: Mapping[int, list[Tx]], history: History,
) -> dict[int, list[str]]:
    """What each replica carries over: what arrived there and is not final, in its order; where
    nothing arrived, what was carried over to it. Of a replica whose account can't be used, it is
    known only where the replica had no key, and so no log."""
    out: dict[int, list[str]] = {}
    for i, key in enumerate(link.keys):
        arrived = arrivals.get(i, [])
        if arrived or (key is None or i in arrivals) and i in link.carried:
            before = arrived or [tx_of_text(it) for it in link.carried[i]]
            out[i] = [tx_text(it) for it in history.carried(before)]
    return out
