"""Makes, starts, stops and closes a cluster of replicas on this machine.

usage: python3 -m service.cluster make|start|status|stop|close|prepare|next FOLDER

The sessions of a cluster follow one another without an operator: after `make` and `start`, nothing
more has to be typed for as long as nothing breaks. `close` has the session that runs end early, and
the next one runs at once.

With `make --one-session` a folder holds sessions, 1, 2 and so on, each with its own keys, logs and
configurations. A session ends at its last view or by `close`; `next` starts the one after it, with
the transactions that were not final. The other commands mean the first session that was not closed.
"""

from __future__ import annotations

import argparse
import asyncio
import sys
import tomllib
from pathlib import Path
from typing import Any

from service.chain_audit import Audits, line_of_report
from service.ending import close_session, close_stopped, end_running, prepare_next, start_next
from service.folder import RESULT, current, is_endless, sessions
from service.making import Plan, make, make_endless
from service.processes import start_all, status_lines, statuses, stop_all
from service.status import Exit, ServiceError


def arguments() -> argparse.Namespace:
    parser = argparse.ArgumentParser(description="Makes and runs a cluster on this machine.")
    commands = parser.add_subparsers(dest="command", required=True)
    made = commands.add_parser("make", help="make the files of a cluster")
    made.add_argument("folder", type=Path)
    made.add_argument("--n", type=int, default=5, help="replicas")
    made.add_argument("--f", type=int, default=1, help="how many of them may be faulty")
    made.add_argument("--gamma", type=fraction, default=(1, 1), metavar="P/Q",
                      help="the fairness")
    made.add_argument("--views", type=int, default=2600, help="the last view of a session")
    made.add_argument("--height", type=int, default=510, help="of the keys: 5, 10, 505, 510")
    made.add_argument("--plain", action="store_true", help="no TLS between replicas")
    made.add_argument("--one-session", action="store_true",
                      help="one session, which `close` ends and audits; `next` makes another")
    made.add_argument("--after", type=Path, metavar="FOLDER",
                      help="the cluster that it continues, once that has ended (last_session)")
    made.add_argument("--set", type=toml_line, action="append", default=[], metavar="KEY=VALUE",
                      help="more of each replica's configuration, in TOML")
    for name, text in COMMANDS.items():
        commands.add_parser(name, help=text).add_argument("folder", type=Path)
    closing = commands.add_parser("close", help="end the session that runs; of one session: make"
                                                " all replicas level, audit, store the result")
    closing.add_argument("folder", type=Path)
    closing.add_argument("--wait", type=float, default=60.0, help="seconds for what waits")
    closing.add_argument("--faulty", type=int, nargs="*", default=[], metavar="REPLICA",
                         help="replicas that were given up")
    closing.add_argument("--stopped", action="store_true",
                         help="no replica runs any more, on any machine: go by the logs alone")
    return parser.parse_args()


COMMANDS = {
    "start": "start all replicas that are not running",
    "status": "print a line for each replica",
    "stop": "stop all replicas",
    "prepare": "make the keys and configurations of the next session ahead",
    "next": "start the next session, with what was not final in the closed one",
}


def fraction(text: str) -> tuple[int, int]:
    p, _, q = text.partition("/")
    return int(p), int(q or 1)


def toml_line(text: str) -> dict[str, Any]:
    try:
        return tomllib.loads(text)
    except tomllib.TOMLDecodeError as fault:
        raise argparse.ArgumentTypeError(f"{text!r} is no TOML: {fault}") from fault


def plan_of(given: argparse.Namespace) -> Plan:
    more: dict[str, Any] = {}
    for table in given.set:
        more |= table
    return Plan(
        n=given.n, f=given.f, p=given.gamma[0], q=given.gamma[1], views=given.views,
        height=given.height, transport="plain" if given.plain else "tls", more=more,
        after=given.after and given.after.resolve(),
    )


def print_status(session: Path) -> None:
    print("\n".join(status_lines(asyncio.run(statuses(session)))))


def print_audits(folder: Path) -> None:
    """What audits have found of ended sessions, in a line."""
    reports = Audits.of_folder(folder).reports()
    if bad := [it for it in reports if not it.is_well()]:
        print(f"audits found something: {line_of_report(bad[-1])}")
    elif reports:
        print(f"audited up to session {reports[-1].session}: yes")


def named_text(faulty: list[int]) -> str:
    """The faulty replicas: the audit claims nothing of them."""
    return f", faulty {' '.join(map(str, faulty))}" if faulty else ""


def perform(given: argparse.Namespace) -> Exit:
    folder: Path = given.folder.resolve()
    if given.command == "make":
        makes = make if given.one_session else make_endless
        print(f"made {makes(folder, plan_of(given))}")
        return Exit.STOPPED
    session = current(folder)
    if is_endless(session):
        return perform_endless(given, session)
    match given.command:
        case "start":
            if (session / RESULT).exists():
                text = f"session {session.name} was closed; `cluster next` starts the next one"
                raise ServiceError(Exit.USAGE, text)
            start_all(session)
            print_status(session)
        case "status":
            print_status(session)
        case "stop":
            stop_all(session)
        case "close":
            faulty = set(given.faulty)
            if given.stopped:
                report = close_stopped(session, faulty)
            else:
                report = close_session(session, given.wait, faulty)
            print(f"closed session {session.name}: verdict {report.verdict},"
                  f" {report.batches} batches, {report.transactions} transactions,"
                  f" {'level' if report.is_settled else 'not level'}{named_text(report.faulty)}")
            print(*report.broken, sep="\n", end="\n" if report.broken else "")
            if not report.is_well():
                return Exit.CHECK_FAILED
            return Exit.STOPPED if report.is_settled else Exit.NOT_FINAL
        case "prepare":
            print(f"made {prepare_next(sessions(folder)[-1])}")
        case "next":
            print_status(start_next(folder)[0])
    return Exit.STOPPED


def perform_endless(given: argparse.Namespace, session: Path) -> Exit:
    """The same where sessions follow one another."""
    match given.command:
        case "start":
            start_all(session)
            print_status(session)
        case "status":
            print_status(session)
            print_audits(session.parent)
        case "stop":
            stop_all(session)
        case "close":
            if given.stopped or given.faulty:
                text = "sessions follow one another: `close` has the running one end, and no more"
                raise ServiceError(Exit.USAGE, text)
            ended, position, goes_on = asyncio.run(end_running(session, given.wait))
            then = "the next one runs" if goes_on else "it was the last one"
            print(f"session {ended} has ended with {position} batches in all; {then}")
        case _:
            text = f"sessions follow one another by themselves: there is no `{given.command}`"
            raise ServiceError(Exit.USAGE, text)
    return Exit.STOPPED


def main() -> int:
    try:
        return perform(arguments())
    except ServiceError as fault:
        print(f"cluster: {fault}", file=sys.stderr)
        return fault.status
    except OSError as fault:        # of files, such as a disk that is full
        print(f"cluster: {fault}", file=sys.stderr)
        return Exit.DISK


if __name__ == "__main__":
    sys.exit(main())
