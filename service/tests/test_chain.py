"""Sessions that follow one another: made, run, ended, and audited from accounts."""

from __future__ import annotations

import asyncio
import json
import os
import shutil
import tempfile
import time
import unittest
from collections.abc import Callable
from pathlib import Path
from unittest.mock import Mock, patch

from service import audit, cluster
from service.chain import Chain, SessionReport, agreed_keys, carried_over, chained, Link
from service.chain_audit import Audits
from service.client import Client, Load
from service.core import KEY_BYTES, History, Tx, tx_of_text
from service.folder import REPLICAS, replica_ports
from service.processes import WITH_PARENT, start_all, stop_all
from service.status import Exit
from service.tests import why_no_library
from service.tests.endless import (
    LIMIT, ended, wait_for_accounts, wait_for_keys, why_no_program,
)

N = 5


class Rules(unittest.TestCase):
    """What is worked out from final batches."""

    HEAD = "00" * 12

    def key(self, first: int) -> str:
        return self.HEAD + "".join(f"{first + part:016x}" for part in range(6))

    def announced(self, replica: int, session: int, first: int) -> list[Tx]:
        return [Tx((1 << 32) - 16 + replica, 8 * session + part, first + part)
                for part in range(6)]

    def test_keys(self) -> None:
        """All parts have to be there; the first value of a part counts, in a batch the smallest."""
        batches = [self.announced(0, 3, 7), self.announced(2, 3, 9)[:5],
                   self.announced(0, 3, 4), self.announced(1, 2, 5),
                   self.announced(3, 3, 8) + self.announced(3, 3, 6)]
        keys = agreed_keys(N, 3, [None, self.HEAD + "ff" * 48], batches)
        self.assertEqual(keys, [self.key(7), None, None, self.key(6), None])

    @unittest.skipIf(why_no_library(), why_no_library())
    def test_what_is_carried_over(self) -> None:
        """What arrived and is not final; where nothing arrived, what was carried over before."""
        a, b, c = Tx(1, 1, 0), Tx(1, 2, 0), Tx(1, 3, 0)
        link = Link(4, keys=["k", "k", None, "k"], carried={1: ["1.1.0", "1.3.0"], 2: ["1.2.0"]})
        history = History()
        history.add(4, [a])
        found = carried_over(link, {0: [c, a, b], 1: []}, history)
        self.assertEqual(found, {0: ["1.3.0", "1.2.0"], 1: ["1.3.0"], 2: ["1.2.0"]})

    @unittest.skipIf(why_no_library(), why_no_library())
    def test_what_is_final_twice(self) -> None:
        """In a batch, in two batches or in two sessions; and the marker is in the last batch."""
        a, b, last = Tx(1, 1, 0), Tx(1, 2, 0), Tx(0, 4, 0)
        for why, batches in (
            ("", [[b], [last]]), ("is final twice", [[b], [a, last]]),
            ("is final twice", [[b], [b], [last]]), ("a transaction twice", [[b, b], [last]]),
            ("do not end", [[last], [b]]), ("do not end", [[b]]),
        ):
            chain = Chain(Mock(), Link(4), [[a]])
            found = chain._why_not_added(batches)
            self.assertEqual(bool(found), bool(why), batches)
            self.assertIn(why, found)

    def test_the_digest_goes_on(self) -> None:
        one, two = [[Tx(1, 1, 0)]], [[Tx(1, 2, 0), Tx(2, 1, 0)]]
        self.assertEqual(chained(chained("00" * 32, one), two), chained("00" * 32, one + two))
        self.assertNotEqual(chained("00" * 32, one + two), chained("00" * 32, two + one))


@unittest.skipIf(why_no_program(), why_no_program())
class EndedSessions(unittest.TestCase):
    """Five replicas with TLS that ended two sessions, with ten transactions each. No session uses
    so many views that it ends by itself, and none ends before all have a key of the next one."""

    @classmethod
    def setUpClass(cls) -> None:
        cls.folder = Path(tempfile.mkdtemp(prefix="themis-"))
        cls.addClassCleanup(shutil.rmtree, cls.folder)
        cls.at = str(cls.folder)
        made = ended(cluster.main, "make", cls.at)
        assert made[0] == Exit.STOPPED, made
        cls.session = cls.folder / REPLICAS
        started = start_all(cls.session, WITH_PARENT)
        try:
            for part in range(2):
                txs = [f"1.{10 * part + k}.7" for k in range(1, 11)]
                client = Client(replica_ports(cls.session), 1, Load(txs))
                assert asyncio.run(client.run(LIMIT)), client.summary()
                asyncio.run(wait_for_keys(cls.session, N, part + 1))
                closed = ended(cluster.main, "close", cls.at, "--wait", str(LIMIT))
                assert closed[0] == Exit.STOPPED, closed
            asyncio.run(wait_for_accounts(cls.folder, [0, 1]))
        finally:
            stop_all(cls.session)
            for process in started.values():
                process.wait(LIMIT)

    def collected(self) -> Path:
        """A folder with what the operators give to an auditor of the two sessions."""
        folder = Path(tempfile.mkdtemp(prefix="themis-"))
        self.addCleanup(shutil.rmtree, folder)
        shutil.copy(self.session / "0" / "cluster.toml", folder)
        for path in self.session.glob("*/*-[01].account"):
            shutil.copy(path, folder)
        return folder

    def audited(self, folder: Path) -> list[SessionReport]:
        return list(Audits.of_folder(folder, patience=0.0).ended())

    def test_each_session_says_yes(self) -> None:
        """While later sessions may run; and what was found is there for the next call."""
        status, text = ended(audit.main, self.at)
        reports = Audits.of_folder(self.folder).reports()
        count = len(reports)        # one more than two, where another one has ended meanwhile
        self.assertGreaterEqual(count, 2)
        self.assertEqual((status, text.count(": yes, ")), (Exit.STOPPED, count), text)
        status, text = ended(audit.main, self.at)
        self.assertEqual(status, Exit.STOPPED)
        self.assertRegex(text, rf"^session {count} comes next: \d of 5 accounts are there$")
        self.assertEqual([it.session for it in reports], list(range(count)))
        self.assertEqual(reports[1].position, reports[0].batches)
        self.assertTrue(all(it.is_well() for it in reports))
        self.assertFalse(reports[0].faulty or reports[1].faulty)
        text = ended(cluster.main, "status", self.at)[1]
        self.assertIn(f"audited up to session {count - 1}: yes", text)
        secrets = [(self.session / str(i) / f"{i}.secret").read_text() for i in range(N)]
        for path in self.session.glob("*/*.account"):
            text = path.read_text()
            self.assertFalse(any(it in text for it in secrets))

    def changed(self, folder: Path, replica: int, change: Callable[[list[str]], list[str]]) -> None:
        """Changes the lines of a replica's account of session 0."""
        path = folder / f"{replica}-0.account"
        path.write_text("".join(it + "\n" for it in change(path.read_text().splitlines())))

    def with_end(self, **more: object) -> Callable[[list[str]], list[str]]:
        return lambda lines: [*lines[:-1], json.dumps(json.loads(lines[-1]) | more)]

    @staticmethod
    def first_sealed(lines: list[str]) -> int:
        """Where the replica sealed something for the first time."""
        return next(i for i, it in enumerate(lines) if json.loads(it).get("sealed"))

    def sealed_again(self, lines: list[str]) -> list[str]:
        """The first turn that sealed something is there twice. No turn seals the same again."""
        at = self.first_sealed(lines)
        return [*lines[:at], lines[at], *lines[at:]]

    def other_seal(self, lines: list[str]) -> list[str]:
        """The first statement that the replica sealed is another one."""
        at = self.first_sealed(lines)
        line = json.loads(lines[at])
        line["sealed"][0] = ("1" if line["sealed"][0][-1] == "0" else "0").join(
            [line["sealed"][0][:-1], ""])
        return [*lines[:at], json.dumps(line), *lines[at + 1:]]

    def test_one_account_may_be_missing_or_false(self) -> None:
        """The audit finds which, and says yes of the others."""
        nothing = {"view": 1, "commit": 0, "batches": []}
        for why, change in (
            ("no whole account", lambda lines: lines[:-1]),
            ("another replica's", lambda lines: [
                json.dumps(json.loads(lines[0]) | {"replica": 0}), *lines[1:]]),
            ("begins with another", lambda lines: [
                json.dumps(json.loads(lines[0]) | {"first": 1}), *lines[1:]]),
            ("lacks a seal that replica 1 accepted", self.other_seal),      # its own message
            ("violates the protocol", self.sealed_again),
            ("stored another end", self.with_end(end_digest="00" * 32)),
            ("lacks a seal", lambda lines: [lines[0], json.dumps(nothing)]),
        ):
            folder = self.collected()
            self.changed(folder, 1, change)
            first, second = self.audited(folder)
            self.assertEqual((first.verdict, first.faulty), ("yes", [1]), first.unusable)
            self.assertIn(why, first.unusable[1])
            self.assertEqual((second.verdict, second.faulty), ("yes", []))
        folder = self.collected()
        (folder / "2-1.account").unlink()
        first, second = self.audited(folder)
        self.assertEqual((first.faulty, second.faulty, second.verdict), ([], [2], "yes"))

    def test_more_than_f_are_too_many(self) -> None:
        folder = self.collected()
        (folder / "2-0.account").unlink()
        self.changed(folder, 1, self.other_seal)
        report, = self.audited(folder)
        self.assertEqual((report.is_well(), report.faulty), (False, [1, 2]))
        self.assertIn("unchecked", report.verdict)
        status, text = ended(audit.main, str(folder))
        self.assertEqual(status, Exit.CHECK_FAILED, text)
        # Too few are waited for, unless nothing comes for long.
        (folder / "3-0.account").unlink()
        self.assertEqual(self.audited(folder), [])
        is_ready = Audits.of_folder(folder, patience=1000.0).is_ready
        self.assertFalse(is_ready(0))
        for i in (0, 1, 4):
            os.utime(folder / f"{i}-0.account", (0, 0))
        self.assertTrue(is_ready(0))

    def test_a_false_account_is_no_last_word_while_another_may_come(self) -> None:
        folder = self.collected()
        missing = folder / "2-0.account"
        missing.unlink()
        self.changed(folder, 1, self.other_seal)
        before = time.time() - 2000
        for i in (0, 1, 3, 4):
            os.utime(folder / f"{i}-0.account", (before, before))
        audits = Audits.of_folder(folder, patience=1000.0)
        self.assertTrue(audits.is_ready(0))
        self.assertEqual((list(audits.ended()), audits.is_ready(0)), ([], False))
        shutil.copy(self.session / "2" / missing.name, missing)
        first, second = audits.ended()
        self.assertEqual((first.verdict, first.faulty, second.verdict), ("yes", [1], "yes"))

    def test_the_rules_of_sessions(self) -> None:
        """What was carried over arrives first, and nothing final arrives again."""
        audits = Audits.of_folder(self.collected(), patience=0.0)
        chain = audits.next_chain()
        assert chain is not None
        accounts = audits.accounts(0)
        carried = Link(0, 0, "00" * 32, chain.link.keys, {3: ["9.9.9"], 4: []})
        report, _ = Chain(audits.cluster, carried).audit(accounts)
        self.assertEqual((report.verdict, report.faulty), ("yes", [3]))
        self.assertIn("carried over", report.unusable[3])
        report, _ = Chain(audits.cluster, chain.link, [[Tx(1, 3, 7)]]).audit(accounts)
        self.assertIn("unchecked", report.verdict)
        self.assertIn("is final already", report.unusable[0])

    def test_a_chain_that_begins_later(self) -> None:
        """Where accounts of earlier sessions have gone, more than f replicas say how it began."""
        folder = self.collected()
        for i in range(N):
            (folder / f"{i}-0.account").unlink()
        report, = self.audited(folder)
        self.assertEqual((report.session, report.verdict, report.faulty), (1, "yes", []))
        self.assertGreater(report.position, 0)

    def test_commands_of_one_session(self) -> None:
        """They have no meaning here, and say so."""
        for words in (["next", self.at], ["prepare", self.at], ["close", self.at, "--stopped"]):
            status, text = ended(cluster.main, *words)
            self.assertEqual(status, Exit.USAGE, text)
            self.assertIn("follow one another", text)
        status, text = ended(cluster.main, "make", self.at)
        self.assertEqual((status, "has a cluster already" in text), (Exit.USAGE, True), text)


if __name__ == "__main__":
    unittest.main()
