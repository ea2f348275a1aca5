"""Lines of chaos runs, and the table of many."""

from __future__ import annotations

import unittest

from service.tally import Outcome, Reuse, outcome_of, outcomes_of, table

GOOD = Outcome(
    seed=1, faulty=1, deeds=("forge", "two_heads"), faults={"kill": 2, "one_way": 1}, final=300,
    median=0.4, p99=1.25, is_settled=True, pairs=1000, seals=500, equivocations=3, verdict="yes",
    has_passed=True,
)
PLAIN = Outcome(
    seed=2, faults={"kill": 1, "full": 1}, final=200, median=0.6, p99=2.5, is_settled=True,
    pairs=10, seals=7, verdict="yes", has_passed=True,
)
ENDED = Outcome(seed=3, details=("ServiceError: replica 4 does not start",))
SESSIONS = Outcome(
    seed=5, faulty=0, deeds=("two_keys",), faults={"step": 2, "lost": 1}, final=450, median=0.5,
    p99=1.5, is_settled=True, pairs=90, seals=80, verdict="yes", sessions=7, without=3,
    has_passed=True,
)
DROPPED = Outcome(
    seed=4, faults={"kill": 2}, final=9, median=0.5, p99=0.75, is_settled=True, verdict="forged",
    broken=3, reuse=Reuse(20, 7, 3, 0), has_passed=True,
)


class Lines(unittest.TestCase):
    """What a line says is read back."""

    def test_lines_are_read_back(self) -> None:
        for it in (GOOD, PLAIN, SESSIONS, DROPPED):
            self.assertEqual(outcome_of(it.line()), it)
        read = outcome_of(ENDED.line())
        assert read is not None
        self.assertEqual((read.seed, read.has_passed, read.details), (3, False, ()))

    def test_other_lines_are_no_runs(self) -> None:
        lines = [*GOOD.text().splitlines(), *ENDED.text().splitlines(), "", "| seed=1 | 2 |",
                 "seed=1 faulty=none", table([GOOD])]
        self.assertEqual([it.seed for it in outcomes_of(lines)], [1, 3])


class Tables(unittest.TestCase):
    """The sums of several runs."""

    def test_a_table(self) -> None:
        self.assertEqual(table([GOOD, PLAIN, ENDED]).splitlines(), [
            "| Of all runs | |",
            "| --- | --- |",
            "| runs that passed | 2 of 3 |",
            "| faults | 3 kills, 1 one-way cuts, 1 full disks |",
            "| runs with a faulty replica | 1: forge 1, two_heads 1 |",
            "| runs with a burst | 0 |",
            "| transactions final | 500 |",
            "| latency | median of the medians 0.50 s, greatest p99 2.50 s |",
            "| pairs whose order was promised | 1,010 |",
            "| seals compared | 507 |",
            "| equivocations that honest replicas accepted | 3 |",
            "| runs in which the proved audit found nothing | 2 |",
            "| broken checks | 0 |",
            "| seeds that failed | 3 |",
        ])

    def test_what_was_dropped_on_purpose_has_a_row(self) -> None:
        self.assertIn("| records dropped on purpose | 20; leaves that sealed another statement"
                      " before 7, accepted 3, not found 0 |", table([DROPPED]))

    def test_sessions_have_a_row(self) -> None:
        lines = table([SESSIONS, SESSIONS])
        self.assertIn("| sessions that were audited | 14, 6 of them without the account of one"
                      " replica |", lines)
        self.assertIn("| faults | 4 deaths at a step of a change, 2 lost logs |", lines)
        self.assertNotIn("sessions", table([GOOD]))

    def test_no_runs(self) -> None:
        self.assertIn("| runs that passed | 0 of 0 |", table([]))


if __name__ == "__main__":
    unittest.main()
