"""A replica that misbehaves, among four honest ones: `themisd-faulty`."""

from __future__ import annotations

import asyncio
import json
import shutil
import tempfile
import unittest
from pathlib import Path

from service.client import Client, Load
from service.endless import Endless
from service.folder import replica_ports
from service.making import Plan, held_ports, make, ports_of
from service.processes import FAULTY, PIDS, WITH_PARENT, start_all, stop_all
from service.tests import why_no_host

LIMIT = 1800.0      # seconds of a wait, which ends once what it waits for is there
FAULTY_ONE = 4


@unittest.skipIf(why_no_host(), why_no_host())
class Faulty(unittest.TestCase):
    """Five replicas, of which the last one sends garbage."""

    def test_its_garbage_is_refused_and_the_others_go_on(self) -> None:
        folder = Path(tempfile.mkdtemp(prefix="themis-"))
        self.addCleanup(shutil.rmtree, folder)
        held = held_ports(10)
        for it in held:
            self.addCleanup(it.close)
        session = make(folder, Plan(
            views=200, height=505, transport="plain", deeds={FAULTY_ONE: ["garbage"]},
            ports=ports_of(held),
        ))
        for process in start_all(session, WITH_PARENT).values():
            self.addCleanup(process.wait, LIMIT)
        self.addCleanup(stop_all, session)      # the last one added is called first
        ports = replica_ports(session)
        client = Client(ports, 1, Load([f"1.{k}.7" for k in range(1, 11)], rate=100))
        self.assertTrue(asyncio.run(client.run(LIMIT)), client.summary())

        async def wait_refused() -> None:
            """Until an honest replica has refused a message of the faulty one, or dropped it."""
            async with asyncio.timeout(LIMIT):
                while True:
                    status = json.loads(await ports[0].order("status"))
                    if any(f"{what} of {FAULTY_ONE}" in status for what in ("unfit", "refused")):
                        return
                    await asyncio.sleep(0.05)
        asyncio.run(wait_refused())
        words = Path(f"/proc/{self.pid_of(session)}/cmdline").read_bytes().split(b"\0")
        self.assertEqual(Path(words[0].decode()).name, FAULTY)
        self.assertIn("a FAULTY replica", (session / f"{FAULTY_ONE}.out").read_text())

    @staticmethod
    def pid_of(session: Path) -> int:
        return int(json.loads((session / PIDS).read_text())[str(FAULTY_ONE)])


@unittest.skipIf(why_no_host(), why_no_host())
class OverSessions(unittest.TestCase):
    """Five replicas, of which the last one lies about markers and keys."""

    def test_sessions_end_and_follow_one_another(self) -> None:
        folder = Path(tempfile.mkdtemp(prefix="themis-"))
        self.addCleanup(shutil.rmtree, folder)
        cluster = Endless(folder / "run", Plan(
            views=200, height=505, transport="plain",
            deeds={FAULTY_ONE: ["early_marker", "two_keys", "false_history", "stale"]},
        ))
        self.addCleanup(cluster.stop)
        lists = asyncio.run(self.lists_of(cluster))
        self.assertEqual(cluster.broken, [])
        self.assertEqual(lists, [lists[0]] * len(cluster.honest))
        out = cluster.session / str(FAULTY_ONE) / f"{FAULTY_ONE}.out"
        self.assertIn("a FAULTY replica", out.read_text())

    async def lists_of(self, cluster: Endless) -> list[list[str]]:
        """The lists of the honest replicas after two sessions with ten transactions each."""
        await cluster.start_all()
        for session in range(2):
            first = 1 + 10 * session
            load = Load([f"1.{k}.7" for k in range(first, first + 10)], rate=100)
            client = Client(cluster.ports, 1, load)
            self.assertTrue(await client.run(LIMIT), client.summary())
            await cluster.end_sessions(session)
            await cluster.until_level("all honest replicas run")
        return await cluster.lists()


if __name__ == "__main__":
    unittest.main()
