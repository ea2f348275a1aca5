"""The account of a replica: what `themisd account` prints is what an audit reads from the log."""

from __future__ import annotations

import asyncio
import json
import shutil
import subprocess
import tempfile
import unittest
from dataclasses import asdict
from pathlib import Path

from service.account import account_of
from service.audit import audit_session
from service.client import Client, Load
from service.folder import replica_ports, setups
from service.making import Plan, held_ports, make, ports_of
from service.processes import WITH_PARENT, start_all, stop_all
from service.program import program
from service.status import Exit, ServiceError
from service.tests import why_no_host

LIMIT = 1800.0      # seconds of a wait, which ends once what it waits for is there


@unittest.skipIf(why_no_host(), why_no_host())
class Accounts(unittest.TestCase):
    """A session in which ten transactions became final, and which is stopped."""

    @classmethod
    def setUpClass(cls) -> None:
        cls.folder = Path(tempfile.mkdtemp(prefix="themis-"))
        cls.addClassCleanup(shutil.rmtree, cls.folder)
        held = held_ports(10)
        for it in held:
            cls.addClassCleanup(it.close)
        cls.session = make(cls.folder, Plan(views=200, height=505, ports=ports_of(held)))
        started = start_all(cls.session, WITH_PARENT)
        client = Client(replica_ports(cls.session), 1, Load([f"1.{k}.7" for k in range(10)]))
        is_final = asyncio.run(client.run(LIMIT))
        stop_all(cls.session)
        for process in started.values():
            process.wait(LIMIT)
        assert is_final, client.summary()

    def setUp(self) -> None:
        self.account = self.session / "0.account"
        self.addCleanup(self.account.unlink, True)

    def test_without_the_secret(self) -> None:
        """The audit finds the same, whether it has a replica's secret or its account."""
        words = [program(), "account", self.session / "0.toml"]
        made = subprocess.run(words, capture_output=True, text=True, timeout=LIMIT, check=True)
        secret = self.session / "0.secret"
        self.assertNotIn(secret.read_text(), made.stdout)
        self.account.write_text(made.stdout)
        whole = account_of(setups(self.session)[0])
        by_logs = audit_session(self.session, set(), False)
        secret.rename(self.session / "elsewhere")
        self.addCleanup((self.session / "elsewhere").rename, secret)
        self.assertEqual(account_of(setups(self.session)[0]), whole)
        by_account = audit_session(self.session, set(), False)
        self.assertEqual(*(json.dumps(asdict(it[0])) for it in (by_logs, by_account)))
        self.assertEqual(by_account[0].verdict, "yes")
        self.check_refusals(made.stdout)

    def check_refusals(self, text: str) -> None:
        """Of an account that is cut off, of another replica, or of another session."""
        lines = text.splitlines(True)
        first = json.loads(lines[0])
        other = [json.dumps(first | {key: value}) + "\n" for key, value in
                 (("replica", 1), ("session", "00"))]
        for bad in ("", "".join(lines[:-1]), text[:-9], *(it + "".join(lines[1:]) for it in other)):
            self.account.write_text(bad)
            with self.assertRaises(ServiceError) as refused:
                account_of(setups(self.session)[0])
            self.assertEqual(refused.exception.status, Exit.LOG_REFUSED)


if __name__ == "__main__":
    unittest.main()
