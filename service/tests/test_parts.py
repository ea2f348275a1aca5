"""Parts of the service that need no library: clients, messages, files."""

from __future__ import annotations

import random
import tempfile
import unittest
from pathlib import Path

from service import log, wire
from service.account import Account
from service.client import Batches
from service.config import Cluster, Config, Setup
from service.core import Tx, tx_bytes, tx_of_bytes, tx_of_text, tx_text
from service.ending import BATCHES, carried_from, is_level, settled_until
from service.making import SETTLED
from service.status import ServiceError
from service.wire import Message


def txs(client: int, count: int) -> list[Tx]:
    return [Tx(client, number, 0) for number in range(count)]


class Carried(unittest.TestCase):
    """What one session leaves to the next."""

    def test_when_replicas_are_level(self) -> None:
        level = {"batches": 3, "digest": "d", "pending": 0, "queued": 0, "is_over": False}
        full = level | {"queued": 2, "is_over": True}
        self.assertTrue(is_level([level, level]))
        self.assertTrue(is_level([level, full]))    # what is queued no longer fits the session
        for other in (level | {"batches": 2}, level | {"digest": "e"}, level | {"pending": 1},
                      level | {"queued": 1}, full | {"pending": 1}, None):
            self.assertFalse(is_level([level, other]))

    def test_what_was_final_in_all_sessions_before(self) -> None:
        with tempfile.TemporaryDirectory() as folder:
            for name, batches, settled in (("1", "a b\n", None), ("2", "c\n", "a b\n")):
                (at := Path(folder) / name).mkdir()
                (at / BATCHES).write_text(batches)
                if settled is not None:
                    (at / SETTLED).write_text(settled)
            self.assertEqual(settled_until(Path(folder) / "1"), "a b\n")
            self.assertEqual(settled_until(Path(folder) / "2").split(), ["a", "b", "c"])
            (Path(folder) / "2" / SETTLED).unlink()
            with self.assertRaises(ServiceError):
                settled_until(Path(folder) / "2")

    def test_what_was_given_and_has_not_arrived_again_is_carried_on(self) -> None:
        with tempfile.TemporaryDirectory() as folder:
            (Path(folder) / "0.carried").write_text("".join(f"{tx_text(it)}\n" for it in txs(1, 9)))
            cluster = Cluster(2, 1, 0, 1, 1, 6, 5, [], [], [], [])
            config = Config(0, "", "", "", carried="0.carried")
            account = Account(0, arrivals=txs(1, 5) + txs(2, 2))
            left = carried_from(Setup(config, cluster, Path(folder)), account, set(txs(1, 3)))
            self.assertEqual(left, [tx_text(it) for it in txs(1, 9)[3:] + txs(2, 2)])


class Words(unittest.TestCase):
    """Transactions as texts and bytes, and clients' counting."""

    def test_transactions(self) -> None:
        for text in ("1.2.3", "0.0.0", "4294967295.4294967295.18446744073709551615"):
            tx = tx_of_text(text)
            self.assertEqual((tx_text(tx), tx_of_bytes(tx_bytes(tx))), (text, tx))
        for text in ("", "1.2", "1.2.3.4", "01.2.3", "-1.2.3", "1.2.18446744073709551616",
                     "4294967296.1.1", "1.2.x", "1.2.\u0663"):
            with self.assertRaises(ValueError):
                tx_of_text(text)

    def test_a_batch_is_final_once_enough_replicas_report_it(self) -> None:
        it = Batches(2)
        self.assertEqual(it.hear(0, 0, "lie"), [])
        self.assertEqual(it.hear(0, 0, "lie"), [])
        self.assertEqual(it.hear(1, 1, "b"), [])
        self.assertEqual(it.hear(2, 1, "b"), [])
        self.assertEqual(it.hear(1, 0, "a"), [])
        self.assertEqual(it.hear(3, 0, "a"), ["a", "b"])
        self.assertEqual(it.hear(4, 0, "late"), [])


class Messages(unittest.TestCase):
    """What the audit reads of messages."""

    def test_parts_of_a_vote(self) -> None:
        statement = bytes([Message.VOTE, 2]) + (3).to_bytes(4, "big") + bytes(32)
        data = b"\2" + statement + b"\0\4seal" + b"\0"
        self.assertEqual(wire.parts(data), [wire.Part(2, statement, b"seal")])

    def test_random_bytes_have_no_parts_and_raise_nothing(self) -> None:
        draw = random.Random(3)
        for _ in range(2000):
            data = bytes([2, draw.randrange(1, 8)]) + draw.randbytes(draw.randrange(200))
            wire.parts(data)

    def test_bodies_of_a_log(self) -> None:
        records = b"".join(
            len(body).to_bytes(4, "big") + bytes(8) + body + bytes(8) for body in (b"ab", b"c")
        )
        data = bytes(log.HEADER_BYTES) + records
        self.assertEqual(list(log.bodies(data)), [b"ab", b"c"])
        self.assertEqual(list(log.bodies(data[:-1])), [b"ab"])
        self.assertEqual(list(log.bodies(data, ord("c"))), [b"c"])


if __name__ == "__main__":
    unittest.main()
