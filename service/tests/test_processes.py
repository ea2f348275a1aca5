"""Real processes on loopback: batches, logs that are refused, strangers, the end of a session."""

from __future__ import annotations

import asyncio
import json
import os
import shutil
import signal
import ssl
import subprocess
import tempfile
import unittest
from dataclasses import asdict, replace
from pathlib import Path
from subprocess import Popen

from service import log
from service.audit import audit_session
from service.client import Client, Load
from service.config import address
from service.core import Arrived, Core, Event, Tick, Tx
from service.ending import (
    CARRIED, close_session, close_stopped, prepare_next, settle, start_next,
)
from service.folder import RESULT, replica_ports, setups
from service.making import Plan, held_ports, make, ports_of
from service.ports import Port
from service.program import program
from service.processes import (
    WITH_PARENT, last_line, start, start_all, statuses, stop_all, wait_up,
)
from service.status import Exit, ServiceError
from service.tests import why_no_host
from service.tls import make_certificate

MANY = Plan(more={"allow_faults": True})     # so many views that no slow machine uses them up
FEW = Plan(views=200, height=505, transport="plain")    # with keys that grow within a moment
LIMIT = 1800.0      # seconds of a wait, which ends once what it waits for is there
MAX_CLIENTS, MAX_STRANGERS = 256, 64        # connections of clients, and those without a handshake
HELLO, BLOCKS = 0, 3                        # kinds of frames


def frame(kind: int, payload: bytes) -> bytes:
    """What a peer sends: its length, its kind and its payload."""
    return (len(payload) + 1).to_bytes(4, "big") + bytes([kind]) + payload


def made_txs(client: int, count: int) -> list[str]:
    return [f"{client}.{number}.7" for number in range(1, count + 1)]


async def first_batches(at: Port, count: int) -> list[str]:
    """The first batches that a replica reports."""
    async with asyncio.timeout(LIMIT):
        reader, writer = await at.open()
        writer.write(b"follow 0\n")
        lines = [await reader.readline() for _ in range(count)]
        writer.close()
    return [line.decode().split(maxsplit=2)[2].strip() for line in lines]


def start_alone(config: Path) -> tuple[int, str]:
    """The status of a start that is refused, and the cause."""
    words = [program(), "run", config, WITH_PARENT]
    ran = subprocess.run(words, capture_output=True, text=True, timeout=LIMIT)
    return ran.returncode, ran.stderr


async def answer_of(at: Port, line: str) -> str:
    """The answer to a client's line; none where the connection is not taken."""
    try:
        return await at.ask(line)
    except OSError:
        return ""


@unittest.skipIf(why_no_host(), why_no_host())
class OneCluster(unittest.TestCase):
    """Five replicas, a log of some events in each, and then what is done to one of them."""

    folder: Path
    session: Path
    ports: list[Port]
    started: list[Popen[bytes]]         # the last process of each replica

    @classmethod
    def setUpClass(cls) -> None:
        cls.folder = Path(tempfile.mkdtemp(prefix="themis-"))
        cls.addClassCleanup(shutil.rmtree, cls.folder)
        cls.started = []
        cls.session = make(cls.folder, replace(MANY, ports=cls.held_ports()))
        cls.addClassCleanup(cls.stop, cls.session)
        cls.started = list(start_all(cls.session, WITH_PARENT).values())
        cls.ports = replica_ports(cls.session)

    @classmethod
    def held_ports(cls) -> tuple[int, ...]:
        """Ports that no other test draws while this class runs."""
        held = held_ports(10)
        for it in held:
            cls.addClassCleanup(it.close)
        return ports_of(held)

    @classmethod
    def stop(cls, session: Path) -> None:
        stop_all(session)
        for process in cls.started:
            process.wait(LIMIT)

    def submit(self, txs: list[str], ports: list[Port] | None = None) -> None:
        client = Client(ports or self.ports, 1, Load(txs, rate=100))
        self.assertTrue(asyncio.run(client.run(LIMIT)), client.summary())

    def settle(self, session: Path, final: int) -> None:
        """Waits until all five replicas are level, with so many final transactions."""
        self.assertTrue(asyncio.run(settle(session, LIMIT)))
        found = [it["final"] if it else None for it in asyncio.run(statuses(session))]
        self.assertEqual(found, [final] * 5)

    def test_1_batches_are_final_and_equal(self) -> None:
        self.submit(made_txs(1, 20))
        self.settle(self.session, 20)

    def test_2_a_second_process_is_kept_out(self) -> None:
        self.assertEqual(start_alone(self.session / "0.toml")[0], Exit.LOG_IN_USE)

    def test_2_bad_lines_are_answered(self) -> None:
        for line in ("submit 1.2", "submit 01.2.3", "follow x", "hello", "submit 1.2.1e9"):
            answer = asyncio.run(self.ports[0].ask(line))
            self.assertTrue(answer.startswith("bad"), answer)

    def test_2_strangers_are_refused(self) -> None:
        """One without a certificate, one with its own, and a replica that claims another number."""
        stranger = make_certificate(self.folder, "stranger")
        own = (setups(self.session)[1].config.tls_key, "1.crt")
        hello = setups(self.session)[0].cluster.digest() + bytes([2])
        for certificate in (None, [self.folder / it for it in stranger],
                            [self.session / it for it in own]):
            self.check_refused(certificate, frame(HELLO, hello))

    def check_refused(self, certificate: list[Path] | None, data: bytes) -> None:
        """Replica 0 closes a connection after these bytes, and goes on."""
        self.assertTrue(asyncio.run(self.is_refused(certificate, data)))
        self.assertIn('"view"', asyncio.run(self.ports[0].order("status")))

    async def is_refused(self, certificate: list[Path] | None, data: bytes) -> bool:
        context = ssl.create_default_context()
        context.check_hostname, context.verify_mode = False, ssl.CERT_NONE
        if certificate:
            context.load_cert_chain(certificate[1], certificate[0])
        host, port = address(setups(self.session)[0].cluster.peers[0])
        try:
            async with asyncio.timeout(LIMIT):
                reader, writer = await asyncio.open_connection(host, port, ssl=context)
                writer.write(data)
                refused = await reader.read() == b""
                writer.close()
        except TimeoutError:
            return False
        except OSError:         # of TLS too
            return True
        return refused

    def own(self) -> tuple[list[Path], bytes]:
        """The key and the certificate of replica 2, and its hello."""
        own = [self.session / it for it in (setups(self.session)[2].config.tls_key, "2.crt")]
        return own, frame(HELLO, setups(self.session)[0].cluster.digest() + bytes([2]))

    def test_2_bad_frames_end_the_connection(self) -> None:
        """By a replica of the cluster: a frame of 2 GB, one of no kind, one of a wrong size."""
        own, hello = self.own()
        for data in (b"\x7f\xff\xff\xff", b"\0\0\0\1\x99", frame(BLOCKS, b"12345")):
            self.check_refused(own, hello + data)

    def test_2_a_peer_has_one_connection(self) -> None:
        """A second one of replica 2 ends the first, which connects again and ends the second."""
        self.check_refused(*self.own())

    def test_2_clients_that_left_make_room(self) -> None:
        async def follow_and_leave() -> None:
            _, writer = await self.ports[0].open()
            writer.write(b"follow 4294967295\n")
            await writer.drain()
            writer.close()

        async def leave_often() -> str:
            for _ in range(MAX_CLIENTS + 50):
                await follow_and_leave()
            async with asyncio.timeout(LIMIT):
                while not (answer := await answer_of(self.ports[0], "hello")):
                    await asyncio.sleep(0.05)
            return answer
        self.assertIn("no such command", asyncio.run(leave_often()))

    def test_2_strangers_that_say_nothing_make_room(self) -> None:
        """More connections than may wait for a handshake, and then one of replica 2."""
        own, hello = self.own()

        async def most_descriptors() -> int:
            at = address(setups(self.session)[0].cluster.peers[0])
            silent = [await asyncio.open_connection(*at) for _ in range(MAX_STRANGERS + 100)]
            async with asyncio.timeout(LIMIT):
                # The true replica 2 may end the connection before its frame is read.
                while await asyncio.to_thread(self.frame_faults) == before[0]:
                    await self.is_refused(own, hello + b"\0\0\0\1\x99")
            count = self.descriptors()      # the silent ones were taken before
            for _, writer in silent:
                writer.close()
            return count
        before = self.frame_faults(), self.descriptors()
        self.assertLess(asyncio.run(most_descriptors()), before[1] + MAX_STRANGERS + 20)

    def descriptors(self) -> int:
        """How many descriptors replica 0 has open."""
        return len(os.listdir(f"/proc/{self.started[0].pid}/fd"))

    def frame_faults(self) -> int:
        """Frames that were none, of peers whose handshake and hello replica 0 took."""
        return int(json.loads(asyncio.run(self.ports[0].order("status"))).get("frame faults", 0))

    def test_3_a_crash_and_a_full_disk(self) -> None:
        """A replica dies within a write, and one meets a full disk: both recover."""
        asyncio.run(self.ports[1].order("fault tear 30"))
        asyncio.run(self.ports[2].order("fault full"))
        asyncio.run(self.submit_until_ended(made_txs(3, 10), [1, 2]))
        self.assertEqual([self.started[i].returncode for i in (1, 2)],
                         [-signal.SIGKILL, Exit.DISK])
        for replica, process in start_all(self.session, WITH_PARENT).items():
            self.started[replica] = process
        self.submit(made_txs(3, 10) + made_txs(4, 10))      # not all may have been submitted
        self.settle(self.session, 40)
        torn, full = ((self.session / f"{i}.out").read_text() for i in (1, 2))
        self.assertIn("a torn record was truncated", torn)
        self.assertIn("No space left on device", full)
        self.assertNotIn("a torn record", full)     # what was not acted on was cut off at once

    async def submit_until_ended(self, txs: list[str], replicas: list[int]) -> None:
        """Submits, so that each replica writes, until some of them have ended."""
        client = asyncio.create_task(Client(self.ports, 1, Load(txs, rate=100)).run(LIMIT))
        async with asyncio.timeout(LIMIT):
            while any(self.started[i].poll() is None for i in replicas):
                await asyncio.sleep(0.05)
        client.cancel()
        await asyncio.gather(client, return_exceptions=True)

    def test_4_the_end_and_the_next_session(self) -> None:
        report = close_session(self.session, LIMIT)
        self.assertEqual((report.broken, report.verdict), ([], "yes"))
        self.assertGreater(report.compared_seals, 20)
        self.assertTrue((self.session / RESULT).exists())
        (self.session / CARRIED).write_text('{"0": ["5.1.1"], "1": ["5.1.1"], "2": ["5.1.1"]}')
        prepared = prepare_next(self.session, self.held_ports())
        following, processes = start_next(self.folder, WITH_PARENT)
        self.assertEqual(following, prepared)
        self.started += processes.values()
        self.addCleanup(stop_all, following)
        ports = replica_ports(following)
        self.submit(["6.1.1"], ports)
        again = made_txs(1, 1)[0]       # final in the session before
        self.assertEqual(asyncio.run(ports[0].ask(f"submit {again}")), "ok 0 1")
        self.settle(following, 2)
        batches = asyncio.run(first_batches(ports[0], 2))
        self.assertEqual(sorted(batches), ["5.1.1", "6.1.1"])


@unittest.skipIf(why_no_host(), why_no_host())
class LostLog(unittest.TestCase):
    """A replica is given up, as its log is lost. The others end the session and begin the next."""

    def test_a_session_ends_without_a_replica_that_was_given_up(self) -> None:
        folder = Path(tempfile.mkdtemp(prefix="themis-"))
        self.addCleanup(shutil.rmtree, folder)
        held = held_ports(10)
        for it in held:
            self.addCleanup(it.close)
        session = make(folder, replace(FEW, ports=ports_of(held)))
        processes = start_all(session, WITH_PARENT)
        for process in processes.values():
            self.addCleanup(process.wait, LIMIT)
        self.addCleanup(stop_all, session)      # the last one added is called first
        ports = replica_ports(session)
        first = Client(ports, 1, Load(made_txs(1, 5), rate=100))
        self.assertTrue(asyncio.run(first.run(LIMIT)))
        processes[3].kill()
        processes[3].wait(LIMIT)
        (session / "3.log").unlink()
        second = Client(ports, 1, Load(made_txs(2, 5), rate=100, only=[0, 1, 2, 4]))
        self.assertTrue(asyncio.run(second.run(LIMIT)))
        with self.assertRaises(ServiceError) as refused:
            close_session(session, LIMIT, {2, 3})
        self.assertEqual(refused.exception.status, Exit.USAGE)
        report = close_session(session, LIMIT, {3})
        self.assertEqual((report.broken, report.verdict, report.is_settled), ([], "yes", True))
        self.assertEqual(report.transactions, 10)
        again = close_stopped(session, {3})
        self.assertEqual(asdict(again), asdict(report))
        with self.assertRaises(ServiceError) as refused:
            audit_session(session, set(), True)
        self.assertEqual(refused.exception.status, Exit.LOG_REFUSED)
        self.assertIn("--faulty 3", str(refused.exception))


@unittest.skipIf(why_no_host(), why_no_host())
class BadLogs(unittest.TestCase):
    """What a start says to a log, a secret or a configuration that it can't use."""

    def setUp(self) -> None:
        self.folder = Path(tempfile.mkdtemp(prefix="themis-"))
        self.addCleanup(shutil.rmtree, self.folder)
        held = held_ports(10)
        for it in held:
            self.addCleanup(it.close)
        plan = Plan(views=6, height=5, transport="plain", ports=ports_of(held))
        self.session = make(self.folder, plan)
        self.log = self.session / "0.log"
        found = setups(self.session)[0]
        core = Core(found.role(), found.secret(), found.cluster.public_keys(), b"")
        self.addCleanup(core.close)
        records = [core.prepare(it) for it in map(log_event, range(3))]
        self.whole = self.log.read_bytes() + b"".join(records)
        self.sizes = list(map(len, records))

    def opened(self) -> int:
        """The bytes of the log once the replica has started, and was stopped."""
        process = start(self.session, 0, WITH_PARENT)
        self.addCleanup(process.kill)
        wait_up(self.session, {0: process})
        process.terminate()
        self.assertEqual(process.wait(LIMIT), Exit.STOPPED, last_line(self.session, 0))
        return self.log.stat().st_size

    def check_refusal(self, status: Exit, text: str = "") -> None:
        ended, cause = start_alone(self.session / "0.toml")
        self.assertEqual((ended, text in cause), (status, True), cause)

    def test_torn_ends_are_truncated(self) -> None:
        last = self.sizes[-1]
        for cut in (1, last - 1):
            self.log.write_bytes(self.whole[:-cut])
            self.assertEqual(self.opened(), len(self.whole) - last)
        self.assertEqual(self.log.read_bytes(), self.whole[:-last])

    def test_corrupt_records_are_refused_with_their_place(self) -> None:
        second = log.HEADER_BYTES + self.sizes[0]
        for at in (second, second + 5, second + 15, len(self.whole) - 1):
            data = bytearray(self.whole)
            data[at] ^= 4
            self.log.write_bytes(data)
            place = second if at < second + self.sizes[1] else second + self.sizes[1]
            self.check_refusal(Exit.LOG_REFUSED, f"at byte {place}")

    def test_other_lost_and_empty_logs_are_refused(self) -> None:
        other = (self.session / "1.log").read_bytes()
        for data in (other, b"junk" * 30, b"", self.whole[:50]):
            self.log.write_bytes(data)
            self.check_refusal(Exit.LOG_REFUSED)
        self.log.unlink()
        self.check_refusal(Exit.LOG_REFUSED, "there is no log")

    def test_secrets(self) -> None:
        secret = self.session / "0.secret"
        secret.chmod(0o644)
        self.check_refusal(Exit.CONFIG, "chmod 600")
        secret.chmod(0o600)
        secret.write_text("00" * 48)
        self.check_refusal(Exit.LOG_REFUSED)

    def test_a_port_in_use(self) -> None:
        port = setups(self.session)[0].cluster.clients[0]
        self.assertEqual(asyncio.run(self.started_while_taken(*address(port))), Exit.NETWORK)

    async def started_while_taken(self, host: str, port: int) -> int:
        """How replica 0 ends where something else listens on its port."""
        server = await asyncio.start_server(lambda reader, writer: None, host, port)
        async with server:
            process = start(self.session, 0, WITH_PARENT)
            self.addCleanup(process.kill)
            return await asyncio.to_thread(process.wait, LIMIT)

    def test_configurations(self) -> None:
        path = self.session / "0.toml"
        text = path.read_text()
        bads = ("timeout = \"x\"", "fsync = 1", "no_such = 1", "= 3", "deeds = [\"mute\"]")
        for bad in bads:
            name = bad.split(" ")[0]
            lines = [it for it in text.splitlines(True) if not it.startswith(f"{name} ")]
            path.write_text("".join(lines) + bad + "\n")
            self.check_refusal(Exit.CONFIG, "mute" if name == "deeds" else "")


def log_event(number: int) -> Event:
    return Tick(0) if number == 1 else Arrived((Tx(1, number, 0),))


if __name__ == "__main__":
    unittest.main()
