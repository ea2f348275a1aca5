"""Chaos runs as a command: what ends a run, and what its arguments mean."""

from __future__ import annotations

import argparse
import tempfile
import unittest
from pathlib import Path

from service import chaos, chaos_sessions
from service.runs import Weather, names_of, perform_all


class Command(unittest.TestCase):
    """What needs no replicas."""

    def test_names(self) -> None:
        read = names_of(["kill", "tear"])
        self.assertEqual(read("tear,kill,tear"), ("tear", "kill", "tear"))
        self.assertEqual(read("none"), ())
        for text in ("", "kill,", "kil", "none,kill"):
            with self.assertRaises(argparse.ArgumentTypeError):
                read(text)

    def test_a_run_that_ends_by_a_fault_is_reported_and_others_go_on(self) -> None:
        for perform in (chaos.perform, chaos_sessions.perform):
            with tempfile.NamedTemporaryFile() as no_folder:
                at, both = Path(no_folder.name), [Weather(1), Weather(2)]
                outcomes = list(perform_all(perform, at, both, 2))
            self.assertEqual(sorted(it.seed for it in outcomes), [1, 2])
            for it in outcomes:
                self.assertFalse(it.has_passed)
                self.assertIn("NotADirectoryError", it.text())


if __name__ == "__main__":
    unittest.main()
