"""The audit of logs: what it says of a run that is well, and what it finds in others."""

from __future__ import annotations

import tempfile
import unittest
from dataclasses import replace
from functools import cache
from pathlib import Path

from service import log, wire
from service.account import Account, Entry, committed_blocks, play
from service.audit import Report, audit, check_leaves, check_lists, check_order, verdict_of
from service.config import Cluster
from service.core import Arrived, Delivered, Reason, Tick, Tx
from service.forgetting import earlier_logs, forget, reuse_of
from service.session_trace import entry_bytes, trace_of
from service.seals import leaf_of
from service.tally import Reuse
from service.tests import why_no_library
from service.tests.cores import HEIGHT, VIEWS, F, Host, N, Net


def txs(client: int, count: int) -> list[Tx]:
    return [Tx(client, number, 0) for number in range(count)]


@cache
def ran() -> tuple[Cluster, list[Account]]:
    """The accounts of a run in one process, with a crash in its middle."""
    net = started()
    net.hosts[1].crash(0)
    return ended(net)


def started() -> Net:
    """Five replicas with 20 final transactions."""
    net = Net()
    net.submit(txs(1, 20))
    net.run_until_final(20)
    return net


def ended(net: Net) -> tuple[Cluster, list[Account]]:
    """The accounts of all replicas with 20 final transactions more."""
    net.submit(txs(2, 20))
    net.run_until_final(40)
    net.close()
    cluster = Cluster(
        session=1, n=N, f=F, p=1, q=1, views=VIEWS, height=HEIGHT, peers=[], clients=[],
        publics=[it.hex() for it in net.publics], certificates=[],
    )
    return cluster, [account_of_host(net, it) for it in net.hosts]


def account_of_host(net: Net, host: Host) -> Account:
    return play(host.role, net.secrets[host.me], net.publics, b"".join(host.records))


@unittest.skipIf(why_no_library(), why_no_library())
class Audits(unittest.TestCase):
    """Logs of a run with a crash."""

    def test_a_run_with_a_crash_is_well(self) -> None:
        cluster, accounts = ran()
        report, trace = audit(cluster, accounts, set(), False)
        self.assertEqual((report.broken, report.verdict), ([], "yes"))
        self.assertGreater(report.promised_pairs, 100)
        self.assertGreater(report.compared_seals, 50)
        self.assertEqual(report.transactions, 40)
        self.assertEqual(trace[:8], b"THEMISR2")
        self.assertEqual(len(trace), report.trace_bytes)

    def test_leaves_are_numbered_as_they_are_used(self) -> None:
        cluster, accounts = ran()
        own = {
            (part.signer, leaf_of(part.seal, cluster.height)): part.statement
            for it in accounts for data in it.accepted() for part in wire.parts(data)
        }
        for (signer, leaf), statement in own.items():
            self.assertEqual(accounts[signer].statements[leaf], statement)

    def test_the_committed_chain_is_found_in_a_log(self) -> None:
        _, accounts = ran()
        for it in accounts:
            views = [block.view for block in committed_blocks(it)]
            self.assertEqual((views[-1], views), (it.commit, sorted(views)))

    def test_a_trace_is_of_the_honest_alone(self) -> None:
        cluster, accounts = ran()
        whole, part = trace_of(cluster, accounts, []), trace_of(cluster, accounts, [4])
        self.assertLess(len(part), len(whole))
        self.assertEqual(verdict_of(whole, cluster), ("yes", []))
        self.assertEqual(verdict_of(part, cluster), ("yes", [4]))

    def test_a_trace_of_another_run_is_refused(self) -> None:
        cluster, accounts = ran()
        trace = trace_of(cluster, accounts, [])
        others = [
            replace(cluster, views=cluster.views + 1), replace(cluster, f=0),
            replace(cluster, p=999, q=1000), replace(cluster, height=510),
        ]
        for other in others:
            self.assertIn("another setting", verdict_of(trace, other)[0])


@unittest.skipIf(why_no_library(), why_no_library())
class Forgetting(unittest.TestCase):
    """Logs without records that a replica has acted on: what is to be found, and is."""

    def found(self, net: Net, before: Account, records: int) -> tuple[Reuse, Report]:
        """What the audit says of a run whose replica 1 forgot records, and what it had to say."""
        cluster, accounts = ended(net)
        report = Report()
        check_leaves(report, cluster, accounts)
        reuse = reuse_of([before], accounts, HEIGHT, report.reused_leaves, records)
        blind = reuse_of([before], accounts, HEIGHT, [], records)
        self.assertEqual(blind.missed, reuse.accepted)
        return reuse, report

    def test_each_leaf_that_others_accepted_is_named(self) -> None:
        net = started()
        before = account_of_host(net, net.hosts[1])
        net.hosts[1].crash(10)
        reuse, report = self.found(net, before, 10)
        self.assertGreater(reuse.accepted, 0)
        self.assertGreaterEqual(reuse.leaves, reuse.accepted)
        self.assertEqual((reuse.missed, reuse.accepted), (0, len(report.reused_leaves)))
        self.assertTrue(report.broken)
        self.assertTrue(all("of replica 1" in it for it in report.broken), report.broken)
        self.assertIn(f"names {reuse.accepted} of the {reuse.accepted}", reuse.text())

    def forgot_a_tick(self, views: int) -> tuple[Reuse, Report]:
        """Replica 1 asks for a view and forgets it; then it asks for the one that comes so many views
        later. Its messages are lost."""
        net = started()
        host = net.hosts[1]
        view = host.core.view()
        host.take([Tick(view)])
        before = account_of_host(net, host)
        host.crash(1)
        host.take([Tick(view + views)])
        net.sent.clear()
        return self.found(net, before, 1)

    def test_what_nobody_accepted_can_not_be_found(self) -> None:
        reuse, report = self.forgot_a_tick(1)
        self.assertEqual((reuse, report.broken), (Reuse(1, 1, 0, 0), []))
        self.assertIn("no honest replica accepted one", reuse.text())

    def test_the_same_statement_again_is_no_reuse(self) -> None:
        reuse, report = self.forgot_a_tick(0)
        self.assertEqual((reuse, report.broken), (Reuse(1, 0, 0, 0), []))
        self.assertIn("the same statement again", reuse.text())

    def test_logs_as_they_were_stay(self) -> None:
        with tempfile.TemporaryDirectory() as folder:
            path = Path(folder) / "1.log"
            record = (3).to_bytes(4, "big") + bytes(8 + 3 + 8)
            whole = bytes(log.HEADER_BYTES) + 15 * record
            path.write_bytes(whole + record[:9])
            self.assertEqual((forget(path), forget(path)), (10, 5))
            self.assertEqual(path.read_bytes(), whole[:log.HEADER_BYTES])
            first, second = earlier_logs(path)
            self.assertEqual(first.read_bytes(), whole + record[:9])
            self.assertEqual(second.read_bytes(), whole[:-10 * len(record)])


class Traces(unittest.TestCase):
    """The example of docs/FORMATS.md: one replica, which received 1.2.3."""

    def test_the_bytes_of_a_trace(self) -> None:
        key = bytes.fromhex("000000010000000500000003") + b"\xa0" * 16 + b"\xb0" * 32
        cluster = Cluster(
            session=1, n=1, f=0, p=1, q=1, views=2, height=5, peers=[], clients=[],
            publics=[key.hex()], certificates=[],
        )
        tx = Tx(1, 2, 3)
        account = Account(0, [Entry(Arrived((tx,)), Reason.DONE, 1, [])], [tx])
        trace = trace_of(cluster, [account], [])
        one = bytes.fromhex("00000001" "00000001" "00000002" "0000000000000003")
        self.assertEqual(trace[:19], b"THEMISR2" + bytes.fromhex("010000010001" "00000002" "01"))
        self.assertEqual(trace[19:79], key)
        self.assertEqual(trace[79:108], bytes(9) + one)
        self.assertEqual(trace[108:], bytes.fromhex("00000001" "01") + one
                         + bytes.fromhex("00" "00000001" "00" "00000000" "00000000" "00000000"))
        self.assertEqual(len(trace), 151)

    def test_a_refused_message_has_the_reason_of_the_trace(self) -> None:
        event = Delivered(3, b"x")
        self.assertEqual(entry_bytes(Entry(event, Reason.REPEAT, 5, [b"ab"])), bytes.fromhex(
            "02" "03" "00000001" "78" "11" "00000005" "01" "00000002" "6162"))


class Lists(unittest.TestCase):
    """Lists that no honest replicas could have."""

    def report(self, *accounts: Account) -> Report:
        report = Report()
        check_lists(report, accounts, True)
        return report

    def test_what_breaks_a_list(self) -> None:
        a, b = Tx(1, 1, 0), Tx(1, 2, 0)
        one = Account(0, batches=[[a], [b]], arrivals=[a, b])
        for other in (
            Account(1, batches=[[b], [a]], arrivals=[a, b]),
            Account(1, batches=[[a]], arrivals=[a, b]),
            Account(1, batches=[[a], [b], [a]], arrivals=[a, b]),
        ):
            self.assertTrue(self.report(one, other).broken)
        self.assertFalse(self.report(one, one).broken)
        lost = Account(0, batches=[[a]], arrivals=[a, b])
        self.assertIn("1 transactions arrived at all", self.report(lost, lost).broken[0])


@unittest.skipIf(why_no_library(), why_no_library())
class Orders(unittest.TestCase):
    """A list whose order was turned."""

    def test_an_order_that_was_promised_and_is_not_kept(self) -> None:
        cluster, accounts = ran()
        report = Report()
        check_order(report, cluster, accounts, 0)
        self.assertEqual(report.broken, [])
        turned = [replace(it, batches=it.batches[::-1]) for it in accounts]
        check_order(report, cluster, turned, 0)
        self.assertTrue(report.broken)


if __name__ == "__main__":
    unittest.main()
