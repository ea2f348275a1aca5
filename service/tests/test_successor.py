"""A cluster that ends, and one with other members and another setting that continues it: both are
audited, and the second starts where the first ended."""

from __future__ import annotations

import asyncio
import shutil
import tempfile
import unittest
from dataclasses import replace
from pathlib import Path

from service import audit, cluster
from service.chain import Link, first_link
from service.chain_audit import AUDITS
from service.client import Client, Load
from service.config import After, Cluster, read_toml
from service.folder import REPLICAS, replica_ports
from service.processes import WITH_PARENT, start_all, stop_all
from service.status import Exit, ServiceError
from service.tests.endless import (
    LIMIT, ended, wait_for_accounts, wait_for_keys, why_no_program,
)

# As host/shell has it (`predecessor_tests.rs` compares what names a cluster with each part of it).
CLUSTER = Cluster(2, 2, 0, 1, 1, 6, 5, ["h:1", "h:2"], ["h:3", "h:4"], ["aa", "bb"], [], "plain")
AFTER = After("cc" * 32, 1, 7, "dd" * 32)
CONTINUED = replace(CLUSTER, after=AFTER)
# Keys whose trees grow fast.
SMALL = ("--height", "505", "--views", "200")


class Shared(unittest.TestCase):
    """What the shared file says of the cluster before."""

    def test_it_is_read(self) -> None:
        with tempfile.TemporaryDirectory() as folder:
            path = Path(folder) / "cluster.toml"
            text = "".join(f"{key} = {value}\n" for key, value in (
                ("session", 2), ("n", 2), ("f", 0), ("p", 1), ("q", 1), ("views", 6),
                ("height", 5), ("peers", '["h:1", "h:2"]'), ("clients", '["h:3", "h:4"]'),
                ("publics", '["aa", "bb"]'), ("certificates", "[]"), ("transport", '"plain"'),
            ))
            path.write_text(text)
            self.assertEqual(read_toml(Cluster, path), CLUSTER)
            after = (f'[after]\ncluster = "{AFTER.cluster}"\nsession = 1\nposition = 7\n'
                     f'digest = "{AFTER.digest}"\n')
            path.write_text(text + after)
            self.assertEqual(read_toml(Cluster, path), CONTINUED)
            for wrong in (after + "more = 1\n", after.replace("7", '"7"'), 'after = "1"\n'):
                path.write_text(text + wrong)
                with self.assertRaises(ServiceError):
                    read_toml(Cluster, path)

    def test_it_names_the_cluster(self) -> None:
        names = {CLUSTER.digest(), CONTINUED.digest()}
        for other in (replace(AFTER, cluster="ee" * 32), replace(AFTER, session=0),
                      replace(AFTER, position=8), replace(AFTER, digest="ee" * 32)):
            names.add(replace(CLUSTER, after=other).digest())
        self.assertEqual(len(names), 6)

    def test_what_its_first_session_starts_from(self) -> None:
        link = first_link(CONTINUED)
        self.assertEqual(link, Link(2, 7, AFTER.digest, ["aa", "bb"]))
        # What is carried over is known from the audits of the cluster before. Its replica 2 is not
        # there any more, and replica 1 was not there then.
        before = Link(2, 7, AFTER.digest, ["k"], {0: ["1.1.0"], 2: ["1.2.0"]})
        self.assertEqual(first_link(CONTINUED, before).carried, {0: ["1.1.0"], 1: []})
        for other in (replace(before, session=3), replace(before, position=8),
                      replace(before, digest="ee" * 32)):
            with self.assertRaises(ServiceError):
                first_link(CONTINUED, other)


@unittest.skipIf(why_no_program(), why_no_program())
class Continued(unittest.TestCase):
    """Five replicas whose first session is their last one, and six that continue it, over TLS."""

    def run_session(self, folder: Path, n: int, number: int, txs: list[str], says: str) -> None:
        """Starts a cluster whose next session is this one, makes transactions final, ends it, and
        waits for its accounts."""
        session = folder / REPLICAS
        started = start_all(session, WITH_PARENT)
        try:
            client = Client(replica_ports(session), 1, Load(txs))
            self.assertTrue(asyncio.run(client.run(LIMIT)), client.summary())
            asyncio.run(wait_for_keys(session, n, number + 1))
            closed = ended(cluster.main, "close", str(folder), "--wait", str(LIMIT))
            self.assertEqual((closed[0], says in closed[1]), (Exit.STOPPED, True), closed)
            asyncio.run(wait_for_accounts(folder, [number]))
        finally:
            stop_all(session)
            for process in started.values():
                process.wait(LIMIT)

    def audit(self, folder: Path, *words: str) -> str:
        status, text = ended(audit.main, str(folder), *words)
        self.assertEqual(status, Exit.STOPPED, text)
        return text

    def test_both_parts_say_yes(self) -> None:
        top = Path(tempfile.mkdtemp(prefix="themis-"))
        self.addCleanup(shutil.rmtree, top)
        old, new = top / "old", top / "new"
        making = ended(cluster.main, "make", str(new), "--after", str(old))
        self.assertEqual(making[0], Exit.CONFIG, making)    # there is none
        making = ended(cluster.main, "make", str(old), "--set", "last_session=0", *SMALL)
        self.assertEqual(making[0], Exit.STOPPED, making)
        words = ("make", str(new), "--after", str(old), "--n", "6", "--gamma", "9/10", *SMALL,
                 "--views", "190")
        making = ended(cluster.main, *words)
        self.assertEqual(making[0], Exit.USAGE, making)
        self.assertIn("no session has ended", making[1])

        self.run_session(old, 5, 0, [f"1.{k}.7" for k in range(1, 11)], "it was the last one")
        self.assertIn("session 0: yes", self.audit(old))
        making = ended(cluster.main, *words)
        self.assertEqual(making[0], Exit.STOPPED, making)
        shared = read_toml(Cluster, new / REPLICAS / "5" / "cluster.toml")
        after = shared.after
        assert after is not None
        before = read_toml(Cluster, old / REPLICAS / "0" / "cluster.toml")
        self.assertEqual((after.cluster, after.session), (before.digest().hex(), 0))

        # The same client goes on, with the same certificate.
        self.run_session(new, 6, 1, [f"1.{k}.7" for k in range(11, 21)], "the next one runs")
        self.assertIn("session 1: yes, ", self.audit(new, "--after", str(old)))
        report = self.audit(new)        # it is there already
        self.assertIn("session 2 comes next", report)
        shutil.rmtree(new / AUDITS)
        text = self.audit(new)          # also without the audits of the cluster before
        self.assertRegex(text, rf"session 1: yes, \d+ batches from {after.position} on")


if __name__ == "__main__":
    unittest.main()
