"""Clients of real replicas: whose transactions they may submit, and whom they can keep out."""

from __future__ import annotations

import asyncio
import itertools
import json
import shutil
import ssl
import tempfile
import unittest
from pathlib import Path

from service.client import Client, Load
from service.folder import replica_ports
from service.identities import make_client
from service.making import Plan, held_ports, make, ports_of
from service.ports import Port
from service.processes import WITH_PARENT, start_all, statuses, stop_all
from service.status import Exit, ServiceError
from service.tests import why_no_host

LIMIT = 1800.0      # seconds of a wait, which ends once what it waits for is there
JUNK = 9        # a client that submits other transactions to each replica
JUNK_LANES, JUNK_LINE = 8, 200
QUOTA = 1000    # of a client, at a replica


@unittest.skipIf(why_no_host(), why_no_host())
class Clients(unittest.TestCase):
    """Five replicas with TLS."""

    @classmethod
    def setUpClass(cls) -> None:
        cls.folder = Path(tempfile.mkdtemp(prefix="themis-"))
        cls.addClassCleanup(shutil.rmtree, cls.folder)
        held = held_ports(10)
        for it in held:
            cls.addClassCleanup(it.close)
        cls.session = make(cls.folder, Plan(views=2600, height=510, ports=ports_of(held)))
        cls.started = start_all(cls.session, WITH_PARENT)
        cls.addClassCleanup(cls.stop)
        cls.ports = replica_ports(cls.session)

    @classmethod
    def stop(cls) -> None:
        stop_all(cls.session)
        for process in cls.started.values():
            process.wait(LIMIT)

    def submit(self, txs: list[str]) -> str:
        """Submits to all replicas, and waits until all is final."""
        client = Client(self.ports, 1, Load(txs, rate=100))
        self.assertTrue(asyncio.run(client.run(LIMIT)), client.summary())
        return client.summary()

    def test_1_two_clients_with_their_certificates(self) -> None:
        self.submit(["1.1.0", "2.1.0"])
        made = sorted(it.name for it in (self.folder / "clients").iterdir())
        self.assertEqual(made, ["1.crt", "1.tls.key", "2.crt", "2.tls.key", "authority.crt",
                                "authority.tls.key"])

    def test_2_another_clients_transaction_is_refused(self) -> None:
        answer = asyncio.run(self.ports[0].ask("submit 1.7.0 2.7.0", client=1))
        self.assertEqual(answer, "bad not your transaction: 2.7.0, you are 1")

    def test_2_strangers(self) -> None:
        """Without a certificate, and with one that another authority has signed."""
        other = Path(tempfile.mkdtemp(prefix="themis-"))
        self.addCleanup(shutil.rmtree, other)
        make(other, Plan(views=6, height=5))
        at = self.ports[0]
        stranger = Port(at.host, at.port, at.operator, at.certificate, other / "clients")
        with self.assertRaises(OSError):
            self.assertEqual(asyncio.run(stranger.ask("follow 0")), "")
            raise OSError("closed without an answer")
        with self.assertRaises(OSError):
            self.assertEqual(asyncio.run(self.asked_without_certificate(at)), b"")
            raise OSError("closed without an answer")

    async def asked_without_certificate(self, at: Port) -> bytes:
        context = ssl.create_default_context(cafile=at.certificate)
        context.check_hostname = False
        async with asyncio.timeout(LIMIT):
            reader, writer = await asyncio.open_connection(at.host, at.port, ssl=context)
            writer.write(b"follow 0\n")
            return await reader.readline()

    def test_2_a_client_without_a_certificate_here(self) -> None:
        """Where the authority's key is not, nobody makes one."""
        folder = Path(tempfile.mkdtemp(prefix="themis-"))
        self.addCleanup(shutil.rmtree, folder)
        at = self.ports[0]
        with self.assertRaises(ServiceError) as refused:
            asyncio.run(Port(at.host, at.port, at.operator, at.certificate, folder).open(5))
        self.assertEqual(refused.exception.status, Exit.CONFIG)
        with self.assertRaises(ServiceError):
            make_client(self.folder / "clients", 0)

    def test_2_the_socket_is_the_operators(self) -> None:
        for at in self.ports:
            self.assertEqual(at.operator.stat().st_mode & 0o777, 0o600)
        for line in ("status", "close", "fault full"):
            self.assertEqual(asyncio.run(self.ports[0].ask(line)), "bad no such command")
        self.assertEqual(asyncio.run(self.ports[0].order("fault full")), "bad no such command")
        asyncio.run(self.wait_healthy(self.ports[0]))

    async def wait_healthy(self, at: Port) -> None:
        """Until a replica says that it is healthy. On a busy machine it may hear too few others."""
        async with asyncio.timeout(LIMIT):
            while json.loads(await at.order("status"))["fault"] is not None:
                await asyncio.sleep(0.1)

    def test_3_followers_keep_nobody_out(self) -> None:
        async def follow(at: Port, client: int) -> bool:
            """Whether a connection follows; it stays open."""
            reader, writer = await at.open(client)
            self.kept.append(writer)
            writer.write(b"follow 0\n")
            return (await reader.readline()).startswith(b"batch")

        async def answers() -> list[str]:
            at = self.ports[0]
            for client in range(100, 116):
                for _ in range(16):
                    self.assertTrue(await follow(at, client))
            self.assertFalse(await follow(at, 100))     # it has 16
            self.assertTrue(await follow(at, 1))        # one of those gives way
            return [await at.ask("submit 1.50.0"), await at.order("status")]
        self.kept: list[asyncio.StreamWriter] = []
        submitted, status = asyncio.run(answers())
        self.assertEqual(submitted, "ok 1 0")
        self.assertIn('"view"', status)

    def test_4_junk_of_one_client_starves_nobody(self) -> None:
        """One client submits to each replica as much as is taken, others to each; and then another
        client submits 20, which do not wait for more than the quota of the first. A replica that is
        behind has taken more of its peers, in place of what is final there, so it is given time;
        without a quota each would hold 16,000 by then."""
        numbers = itertools.count()

        async def junk(replica: int) -> None:
            """Submits other transactions again and again, for ever."""
            reader, writer = await self.ports[replica].open(JUNK)
            while True:
                texts = " ".join(f"{JUNK}.{next(numbers)}.0" for _ in range(JUNK_LINE))
                writer.write(f"submit {texts}\n".encode())
                answer = (await reader.readline()).decode()
                if not answer:
                    return
                if answer == "busy\n":
                    busy.add(replica)
                    await asyncio.sleep(0.05)

        async def is_full() -> bool:
            """Whether no more was taken at each, and little more than the quotas of all waits."""
            found = [it["queued"] if it else None for it in await statuses(self.session)]
            return len(busy) == 5 and all(it is not None and it < 6 * QUOTA for it in found)

        async def attack() -> None:
            tasks = [asyncio.create_task(junk(it)) for it in range(5) for _ in range(JUNK_LANES)]
            async with asyncio.timeout(LIMIT):
                while not await is_full():
                    await asyncio.sleep(0.1)
            client = Client(self.ports, 1, Load([f"1.{k}.1" for k in range(1000, 1020)], 100))
            self.assertTrue(await client.run(LIMIT), client.summary())
            self.assertFalse(any(it.done() for it in tasks))        # it was in the way all the time
            for task in tasks:
                task.cancel()
            await asyncio.gather(*tasks, return_exceptions=True)
        busy: set[int] = set()      # replicas that took no more
        asyncio.run(attack())


if __name__ == "__main__":
    unittest.main()
