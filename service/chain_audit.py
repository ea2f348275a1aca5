"""The accounts of ended sessions as files, and what audits of them found.

FOLDER/audits has SESSION.json, the report, and SESSION.batches, its final list, for each session
that was audited. So a later call goes on where the last one ended, and no account is needed twice.
"""

from __future__ import annotations

import json
import time
from collections.abc import Iterator
from dataclasses import asdict
from pathlib import Path

from service.account import SessionAccount, read_of_many
from service.chain import Chain, Link, SessionReport, first_link, reported_link
from service.config import Cluster, read_toml
from service.core import Tx, tx_of_text, tx_text
from service.files import write_whole
from service.folder import REPLICAS, setups
from service.status import Exit, ServiceError

AUDITS, CLUSTER_FILE = "audits", "cluster.toml"
LOOK_EVERY = 1.0
PATIENCE = 60.0     # seconds: for so long the accounts of all replicas are waited for
TOO_FEW = 10        # times as long, where those that are there are too few


class Audits:
    """The audits of a cluster whose sessions follow one another."""

    def __init__(
        self, cluster: Cluster, folders: list[Path], results: Path, patience: float = PATIENCE,
    ) -> None:
        """`folders` have the accounts, by replica."""
        self.cluster, self.folders, self.results = cluster, folders, results
        self.before: Audits | None = None       # of the cluster that this one continues
        self.patience = patience
        self.chain: Chain | None = None
        # A session of which so many accounts were there, and too few of them could be used.
        self.too_few: tuple[int, int] | None = None

    @classmethod
    def of_folder(cls, folder: Path, patience: float = PATIENCE) -> Audits:
        """Of a cluster on this machine; or of a folder into which an auditor has put the operators'
        cluster.toml and the accounts that they sent."""
        shared = folder / CLUSTER_FILE
        if shared.exists():
            cluster = read_toml(Cluster, shared)
            return cls(cluster, [folder] * cluster.n, folder / AUDITS, patience)
        found = setups(folder / REPLICAS)
        own = [it.folder for it in found]
        return cls(found[0].cluster, own, folder / AUDITS, patience)

    # ---- accounts

    def paths(self, session: int) -> dict[int, Path]:
        """The accounts of a session that are there."""
        all_paths = {i: it / f"{i}-{session}.account" for i, it in enumerate(self.folders)}
        return {i: it for i, it in all_paths.items() if it.exists()}

    def accounts(self, session: int) -> dict[int, SessionAccount | str]:
        """What the accounts say, or why they can't be read."""
        found: dict[int, SessionAccount | str] = {}
        for i, path in self.paths(session).items():
            try:
                text = path.read_text(encoding="ascii")
                found[i] = read_of_many(text, i, self.cluster.digest(), session)
            except (OSError, ValueError, ServiceError) as fault:
                found[i] = str(fault)
        return found

    def sessions(self) -> list[int]:
        """The sessions that have an account somewhere."""
        names = (it.name for folder in set(self.folders) for it in folder.glob("*-*.account"))
        return sorted({int(name.split("-")[1].split(".")[0]) for name in names})

    def is_ready(self, session: int) -> bool:
        """Whether all accounts of a session are there; or enough, and the others do not come; or
        too few, and nothing has come for long: then the audit says so."""
        count, n, f = len(self.paths(session)), self.cluster.n, self.cluster.f
        if count in (0, n):
            return bool(count)
        if count >= n - f and self.too_few != (session, count):
            return self._age(session) >= self.patience
        return 0.0 < self.patience * TOO_FEW < self._age(session)

    def _age(self, session: int) -> float:
        """Seconds since the last account of a session came."""
        return time.time() - max(it.stat().st_mtime for it in self.paths(session).values())

    def _may_come(self, session: int) -> bool:
        """Whether another account of a session is waited for, since those that are there are too
        few or false."""
        is_late = self._age(session) > self.patience * TOO_FEW
        return not is_late and len(self.paths(session)) < self.cluster.n

    # ---- results

    def reports(self) -> list[SessionReport]:
        """What was found so far, by session."""
        if not self.results.is_dir():
            return []
        numbers = sorted(int(it.stem) for it in self.results.glob("*.json"))
        return [report_of(self.results / f"{it}.json") for it in numbers]

    def end(self) -> Link:
        """Where the audited sessions lead; ServiceError where none was audited."""
        done = [it.following for it in self.reports() if it.is_well() and it.following]
        if not done:
            raise ServiceError(Exit.USAGE, f"{self.results}: no session was audited")
        return done[-1]

    def history(self, session: int) -> Iterator[list[Tx]]:
        """What was final in the sessions before this one that were audited."""
        if self.before is not None:
            yield from self.before.history(session)
        for path in self.results.glob("*.batches"):
            if int(path.stem) < session:
                yield [tx_of_text(it) for it in path.read_text(encoding="ascii").split()]

    def next_chain(self) -> Chain | None:
        """The chain at the session that is audited next; None where its accounts are not there.
        Where accounts have gone before they were audited, it begins anew with what more than f of
        the others say alike."""
        done = [it for it in self.reports() if it.is_well() and it.following]
        if not done:
            link = first_link(self.cluster, None if self.before is None else self.before.end())
        else:
            assert done[-1].following is not None
            link = done[-1].following
        later = [it for it in self.sessions() if it >= link.session]
        if not later:
            return None
        if later[0] > link.session:
            found = reported_link(self.cluster, later[0], self.accounts(later[0]).values())
            if found is None:
                return None
            link = found
        return Chain(self.cluster, link, self.history(link.session))

    def keep(self, report: SessionReport, batches: list[list[Tx]]) -> None:
        """Stores what was found, the report last."""
        self.results.mkdir(exist_ok=True)
        lines = (" ".join(map(tx_text, it)) + "\n" for it in batches)
        write_whole(self.results / f"{report.session}.batches", "".join(lines))
        write_whole(self.results / f"{report.session}.json", json.dumps(asdict(report), indent=2))

    def next_text(self) -> str:
        """Which session is audited next, and what of it is there."""
        done = [it.following for it in self.reports() if it.is_well() and it.following]
        number = done[-1].session if done else self.cluster.session
        count = len(self.paths(number))
        return f"session {number} comes next: {count} of {self.cluster.n} accounts are there"

    # ---- work

    def _current(self) -> Chain | None:
        """The same chain for as long as the accounts of its next session are there, or may come."""
        if self.chain is not None:
            later = [it for it in self.sessions() if it >= self.chain.link.session]
            if not later or later[0] == self.chain.link.session:
                return self.chain
        self.chain = self.next_chain()
        return self.chain

    def ended(self) -> Iterator[SessionReport]:
        """Audits each session whose accounts are there, in their order. Ends where one is not well:
        what follows it starts from nothing that is known."""
        while (chain := self._current()) is not None and self.is_ready(chain.link.session):
            session = chain.link.session
            count = len(self.paths(session))
            report, batches = chain.audit(self.accounts(session))
            if len(report.unusable) > self.cluster.f and self._may_come(session):
                self.too_few = session, count
                return
            self.keep(report, batches)
            yield report
            if not report.is_well():
                self.chain = None
                return

    def watch(self) -> Iterator[SessionReport]:
        """The same for ever, each session soon after it has ended; until one is not well."""
        while True:
            for report in self.ended():
                yield report
                if not report.is_well():
                    return
            time.sleep(LOOK_EVERY)


def report_of(path: Path) -> SessionReport:
    """A report as `keep` stored it; ServiceError where it is none."""
    try:
        table = json.loads(path.read_text(encoding="ascii"))
        following = table["following"]
        if following is not None:
            carried = {int(i): txs for i, txs in following["carried"].items()}
            following = Link(**following | {"carried": carried})
        unusable = {int(i): why for i, why in table["unusable"].items()}
        return SessionReport(**table | {"following": following, "unusable": unusable})
    except (OSError, ValueError, KeyError, TypeError, AttributeError) as fault:
        raise ServiceError(Exit.CONFIG, f"{path}: no report: {fault}") from fault


def line_of_report(it: SessionReport) -> str:
    """One line of what an audit found."""
    what = it.verdict if not it.broken else f"{it.verdict}, broken: {'; '.join(it.broken)}"
    without = "".join(f"; without replica {i}: {why}" for i, why in it.unusable.items())
    without += "".join(f"; nothing arrived at replica {i}" for i in it.absent)
    return (f"session {it.session}: {what}, {it.batches} batches from {it.position} on,"
            f" {it.transactions} transactions, {it.promised_pairs} pairs{without}")
