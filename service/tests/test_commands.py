"""Commands that are refused: with which status, and what they leave."""

from __future__ import annotations

import contextlib
import errno
import io
import os
import shutil
import tempfile
import unittest
from collections.abc import Callable
from pathlib import Path
from unittest.mock import patch

from service import client, cluster
from service.ending import CARRIED
from service.folder import RESULT, setups
from service.processes import PIDS
from service.status import Exit
from service.tests import why_no_library

MAKE = ["make", "--one-session", "--plain", "--views", "6", "--height", "5"]


@unittest.skipIf(why_no_library(), why_no_library())
class Refusals(unittest.TestCase):
    """Each refused command has its status and says why, and no session is half made."""

    def setUp(self) -> None:
        self.folder = Path(tempfile.mkdtemp(prefix="themis-"))
        self.addCleanup(shutil.rmtree, self.folder)
        self.at = str(self.folder)

    def status(self, main: Callable[[], int], *words: str) -> tuple[int, str]:
        """How a command ends, and what it says of it."""
        output = io.StringIO()
        with (patch("sys.argv", ["command", *words]), contextlib.redirect_stdout(output),
              contextlib.redirect_stderr(output)):
            try:
                return main(), output.getvalue()
            except SystemExit as end:       # of argparse
                return int(end.code or 0), output.getvalue()

    def check(self, main: Callable[[], int], status: Exit, text: str, *words: str) -> None:
        ended, output = self.status(main, *words)
        self.assertEqual((ended, text in output), (status, True), output)

    def test_a_session_is_made_once(self) -> None:
        self.check(cluster.main, Exit.STOPPED, "made", *MAKE, self.at)
        keys = setups(self.folder / "1")[0].cluster.publics
        self.check(cluster.main, Exit.USAGE, "exists already", *MAKE, self.at)
        self.assertEqual(setups(self.folder / "1")[0].cluster.publics, keys)

    def test_what_no_cluster_can_have(self) -> None:
        for status, text, words in (
            (Exit.USAGE, "no valid setting", ["--n", "4"]),
            (Exit.USAGE, "no valid setting", ["--gamma", "1/2"]),
            (Exit.USAGE, "fewer than 5 seals", ["--views", "7"]),
            (Exit.USAGE, "none of 5, 10, 505 and 510", ["--height", "6"]),
            (Exit.USAGE, "invalid fraction", ["--gamma", "all"]),
            (Exit.USAGE, "no TOML", ["--set", "timeout"]),
            (Exit.CONFIG, "no_such", ["--set", "no_such=1"]),
            (Exit.CONFIG, "timeout has to be", ["--set", "timeout='x'"]),
        ):
            self.check(cluster.main, status, text, *MAKE, self.at, *words)
            self.assertEqual(list(self.folder.iterdir()), [])

    def test_a_folder_without_a_session(self) -> None:
        for command in ("start", "status", "stop", "close", "prepare", "next"):
            self.check(cluster.main, Exit.USAGE, "has no session", command, self.at)
        self.check(client.main, Exit.USAGE, "has no session", self.at, "1.1.1")

    def test_a_closed_session_is_not_started_again(self) -> None:
        self.check(cluster.main, Exit.STOPPED, "made", *MAKE, self.at)
        self.check(cluster.main, Exit.USAGE, "no session was closed", "next", self.at)
        self.check(cluster.main, Exit.USAGE, "no replica runs", "close", self.at)
        closing = ["close", self.at, "--stopped"]
        self.check(cluster.main, Exit.STOPPED, "verdict yes, 0 batches", *closing)
        (self.folder / "1" / RESULT).touch()
        self.check(cluster.main, Exit.USAGE, "session 1 was closed", "start", self.at)

    def test_a_prepared_session_is_started_by_next(self) -> None:
        self.check(cluster.main, Exit.STOPPED, "made", *MAKE, self.at)
        self.check(cluster.main, Exit.STOPPED, "made", "prepare", self.at)
        (self.folder / "1" / RESULT).touch()
        self.check(cluster.main, Exit.CONFIG, "`cluster next` writes it", "start", self.at)

    def test_a_damaged_list_of_processes(self) -> None:
        """It was cut off, or something else is in it: nobody knows which replicas run."""
        self.check(cluster.main, Exit.STOPPED, "made", *MAKE, self.at)
        for text in ("", "{", "[1]", '{"0": "x"}', '{"x": 1}', '{"0": null}'):
            (self.folder / "1" / PIDS).write_text(text)
            for command in ("start", "stop", "close"):
                self.check(cluster.main, Exit.CONFIG, "pids.json can't be read", command, self.at)

    def test_a_full_disk_at_the_end(self) -> None:
        """The session is closed by one more `close`, once there is space."""
        self.check(cluster.main, Exit.STOPPED, "made", *MAKE, self.at)
        session, closing = self.folder / "1", ["close", self.at, "--stopped"]
        for name in (CARRIED, RESULT):
            (session / f"{name}.new").symlink_to("/dev/full")
            self.check(cluster.main, Exit.DISK, f"{name}: No space left", *closing)
            self.assertFalse((session / RESULT).exists())
        self.check(cluster.main, Exit.STOPPED, "verdict yes, 0 batches", *closing)

    def test_a_full_disk_at_the_beginning(self) -> None:
        with patch("os.fsync", side_effect=OSError(errno.ENOSPC, os.strerror(errno.ENOSPC))):
            self.check(cluster.main, Exit.DISK, "No space left", *MAKE, self.at)
        self.assertEqual(list(self.folder.iterdir()), [])

    def test_what_is_no_transaction(self) -> None:
        for text in ("1.1", "1.1.1.1", "a.1.1", "1.4294967296.1"):
            self.check(client.main, Exit.USAGE, f"no transaction: {text}", self.at, text)
        missing = str(self.folder / "txs")
        self.check(client.main, Exit.USAGE, "No such file", self.at, "--file", missing)


if __name__ == "__main__":
    unittest.main()
