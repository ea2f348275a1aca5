"""The soak: what it checks, whom its faults hit, and its short form, some sessions in which
replicas die."""

from __future__ import annotations

import os
import random
import re
import shutil
import subprocess
import sys
import tempfile
import unittest
from pathlib import Path
from types import SimpleNamespace
from typing import Any

from service.endless import Endless
from service.follower import Watch
from service.processes import start_behind_others
from service.program import TOP
from service.session_faults import BRIEF, FAULTS, Faults
from service.soak import Soak
from service.tests import why_no_host, why_no_library
from service.tests.endless import why_no_program

LIMIT = 1800.0
SESSIONS = 3        # that many end at least in the short form


class Gaps(unittest.TestCase):
    """How long clients were without a batch around the end of a session."""

    def test_the_longer_one_of_before_and_after(self) -> None:
        watch = Watch()
        for at, txs in ((1.0, ["1.1.0"]), (1.5, ["1.2.0"]), (3.0, ["0.0.0", "1.3.0"]),
                        (3.5, ["4294967280.8.0"]), (4.0, ["0.1.0"])):
            watch.take([txs], at)
        self.assertEqual(watch.cuts, {0: 2, 1: 4})
        self.assertEqual((watch.gap_at(0), watch.gap_at(1)), (1.5, None))

    def test_one_fault_at_a_time(self) -> None:
        cluster: Any = Endless.__new__(Endless)
        cluster.n, cluster.honest = 5, [0, 1, 2, 4]
        up = {"session": 4, "stage": "running", "heard": 4, "commit": 30}
        self.assertTrue(cluster.is_level([up, up, up, None, up]))       # 3 is faulty
        for other in (None, up | {"session": 5}, up | {"stage": "out"}, up | {"heard": 3},
                      up | {"commit": 19}):     # it still fetches blocks, so it can't vote
            self.assertFalse(cluster.is_level([up, up, up, None, other]), other)

    def test_memory_has_to_be_level(self) -> None:
        soak: Any = Soak.__new__(Soak)
        soak.cluster = SimpleNamespace(honest=[0, 1])
        soak.memory = {3: {0: 50.0}, 4: {0: 60.0}, 5: {0: 71.0}, 6: {0: 72.0}}
        self.assertEqual(list(soak._check_memory()), [])
        soak.memory[6][1] = 73.0
        self.assertEqual(len(list(soak._check_memory())), 1)
        soak.memory[6] = {4: 90.0}      # of a faulty replica nothing is asked
        self.assertEqual(list(soak._check_memory()), [])


class WhoIsHit(unittest.TestCase):
    """f is 1: next to a faulty replica no other one may miss the end of a session."""

    def test_faults_spare_honest_replicas_next_to_a_faulty_one(self) -> None:
        everyone = set(range(5))
        for faulty in (set(), {3}):
            cluster: Any = SimpleNamespace(n=5, faulty=faulty)
            faults = Faults(cluster, random.Random(1), FAULTS)
            for name in FAULTS:
                hit = {faults._draw_replica(name) for _ in range(200)}
                self.assertEqual(hit, everyone if name in BRIEF else faulty or everyone, name)

    def test_each_fault_has_its_maker(self) -> None:
        cluster: Any = SimpleNamespace(n=5, faulty=set())
        self.assertEqual(set(Faults(cluster, random.Random(1), FAULTS).makers), set(FAULTS))


class Priorities(unittest.TestCase):
    """What the audits take from the replicas."""

    def test_others_come_first_also_among_sessions_of_processes(self) -> None:
        with tempfile.TemporaryDirectory(prefix="themis-") as folder:
            process = start_behind_others(["sleep", "600"], Path(folder) / "out")
            try:
                self.assertEqual(os.getsid(process.pid), process.pid)
                group = Path(f"/proc/{process.pid}/autogroup")
                # Empty where sessions of processes share nothing out.
                if group.exists() and (text := group.read_text()):
                    self.assertIn("nice 10", text)
            finally:
                process.kill()
                process.wait()


@unittest.skipIf(why_no_library() or why_no_program(), why_no_library() or why_no_program())
class Short(unittest.TestCase):
    """All that a soak checks, but for times."""

    def run_short(self, *more: str) -> None:
        folder = tempfile.mkdtemp(prefix="themis-")
        self.addCleanup(shutil.rmtree, folder)
        words = [sys.executable, "-B", "-m", "service.soak", folder, "--short", *more]
        ran = subprocess.run(words, cwd=TOP, stdin=subprocess.DEVNULL, capture_output=True,
                             text=True, timeout=LIMIT, check=False)
        self.assertEqual(ran.returncode, 0, ran.stdout[-4000:] + ran.stderr[-4000:])
        audits = re.search(r"\| audits that say yes \| (\d+)", ran.stdout)
        self.assertTrue(audits and int(audits[1]) >= SESSIONS, ran.stdout)

    def test_three_sessions(self) -> None:
        self.run_short()

    @unittest.skipIf(why_no_host(), why_no_host())
    def test_a_faulty_replica(self) -> None:
        self.run_short("--deeds", "two_keys,early_marker")


if __name__ == "__main__":
    unittest.main()
