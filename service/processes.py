"""Starts and stops the replicas of a session as processes of this machine."""

from __future__ import annotations

import asyncio
import json
import os
import signal
import socket
import subprocess
import time
from collections.abc import Iterator, Sequence
from contextlib import suppress
from pathlib import Path
from typing import Any

from service.config import Config, Setup
from service.files import write_whole
from service.folder import config_path, replica_ports, setups
from service.ports import Port
from service.program import FAULTY, TOP, themisd
from service.status import Exit, ServiceError

START_WITHIN = 600.0        # a start plays the whole log again; one that ends is seen at once
HEARD_WITHIN = 5.0
STOP_WITHIN = 120.0         # a process that runs then hangs
WITH_PARENT = "--with-parent"       # for tests: no replica outlives them
PIDS = "pids.json"


def program_of(setup: Setup) -> Path:
    """The host of this replica; ServiceError where it is not built."""
    return themisd(FAULTY if setup.config.deeds else None)


def start(session: Path, replica: int, *more: str) -> subprocess.Popen[bytes]:
    """Starts the process of one replica. What it logs is added to REPLICA.out."""
    config = config_path(session, replica)
    words = [program_of(Config.load(config)), "run", config, *more]
    with open(config.with_suffix(".out"), "ab") as out:
        return subprocess.Popen(
            words, cwd=TOP, stdout=out, stderr=out, stdin=subprocess.DEVNULL,
            start_new_session=True,     # it outlives the terminal
        )


def start_behind_others(words: Sequence[str | Path], out: Path) -> subprocess.Popen[bytes]:
    """Starts a process that lets others have the processors first, and adds what it prints to a
    file. Linux shares the processors out among sessions of processes before it looks at priorities
    (autogroups), so it gets a session of its own, with a tenth of what others get."""
    with open(out, "ab") as to:
        process = subprocess.Popen(
            ["nice", "-n", "19", *words], cwd=TOP, stdout=to, stderr=to,
            stdin=subprocess.DEVNULL, start_new_session=True,
        )
    with suppress(OSError):     # a kernel without autogroups, or a process that has ended
        while not has_set(Path(f"/proc/{process.pid}/autogroup"), "10"):
            time.sleep(0.05)
    return process


def has_set(path: Path, text: str) -> bool:
    """Writes to a file of the kernel; false where it takes that later: of one who is not root it
    takes a change of an autogroup each 0.1 seconds, in all."""
    try:
        path.write_text(text)
    except BlockingIOError:
        return False
    return True


def last_line(session: Path, replica: int) -> str:
    lines = config_path(session, replica).with_suffix(".out").read_text().splitlines()
    return lines[-1] if lines else ""


def is_up(at: Port) -> bool:
    try:
        socket.create_connection((at.host, at.port), 0.5).close()
    except OSError:
        return False
    return True


def wait_up(session: Path, processes: dict[int, subprocess.Popen[bytes]]) -> None:
    """Waits until the client ports are open; ServiceError where a process ends before."""
    ports = replica_ports(session)
    end = time.monotonic() + START_WITHIN
    for i, process in processes.items():
        while not is_up(ports[i]):
            if process.poll() is not None or time.monotonic() > end:
                text = f"replica {i} does not start: {last_line(session, i)}"
                raise ServiceError(exit_of(process), text)
            time.sleep(0.1)


def exit_of(process: subprocess.Popen[bytes]) -> Exit:
    """How a replica ended that should run."""
    try:
        return Exit(process.returncode or Exit.NETWORK)
    except ValueError:
        return Exit.NETWORK


def running(session: Path) -> dict[int, int]:
    """The processes that `start` noted and that still run this session, by replica."""
    noted = noted_pids(session / PIDS)
    return {i: pid for i, pid in noted.items() if is_ours(session, i, pid)}


def noted_pids(path: Path) -> dict[int, int]:
    """The processes that a file names, by replica; none where there is no file."""
    try:
        return {int(i): int(pid) for i, pid in json.loads(path.read_text()).items()}
    except FileNotFoundError:
        return {}
    except (OSError, ValueError, AttributeError, TypeError) as fault:
        text = f"{path} can't be read ({fault}): remove it once none of these replicas runs"
        raise ServiceError(Exit.CONFIG, text) from fault


def is_ours(session: Path, replica: int, pid: int) -> bool:
    """Whether a process is that replica's, and not one that got its number later."""
    try:
        words = Path(f"/proc/{pid}/cmdline").read_bytes().split(b"\0")
    except OSError:
        return False
    return str(config_path(session, replica)).encode() in words


def start_all(session: Path, *more: str) -> dict[int, subprocess.Popen[bytes]]:
    """Starts the replicas that do not run, and waits until they are up; returns the new ones."""
    up = running(session)
    missing = [setup.me for setup in setups(session) if setup.me not in up]
    processes = {i: start(session, i, *more) for i in missing}
    pids = up | {i: process.pid for i, process in processes.items()}
    write_whole(session / PIDS, json.dumps(pids))
    wait_up(session, processes)
    wait_heard(session)
    return processes


def wait_heard(session: Path) -> None:
    """Waits until each replica that is up hears a quorum; not for long, since some may be down."""
    cluster = setups(session)[0].cluster
    end = time.monotonic() + HEARD_WITHIN
    while time.monotonic() < end:
        up = [it for it in asyncio.run(statuses(session)) if it is not None]
        if all(it["heard"] >= cluster.n - cluster.f for it in up):
            return
        time.sleep(0.1)


def stop_all(session: Path) -> None:
    """Ends the replicas that `start` started, each by its number."""
    pids = running(session)
    for pid in pids.values():
        with suppress(ProcessLookupError):      # it may have ended by itself meanwhile
            os.kill(pid, signal.SIGTERM)
    end = time.monotonic() + STOP_WITHIN
    while running(session) and time.monotonic() < end:
        time.sleep(0.1)
    for pid in running(session).values():
        with suppress(ProcessLookupError):
            os.kill(pid, signal.SIGKILL)


async def statuses(session: Path) -> list[dict[str, Any] | None]:
    """The status of each replica; None of one that does not answer."""
    return list(await asyncio.gather(*map(status_of, replica_ports(session))))


async def status_of(at: Port) -> dict[str, Any] | None:
    """The status of a replica; None where it does not answer."""
    try:
        answer: dict[str, Any] = json.loads(await at.order("status"))
    except (OSError, TimeoutError, ValueError):
        return None
    return answer


def status_lines(found: list[dict[str, Any] | None]) -> Iterator[str]:
    for i, it in enumerate(found):
        if it is None:
            yield f"replica {i} does not answer"
            continue
        yield (
            f"replica {i} session={it['session']} view={it['view']}/{it['views']}"
            f" commit={it['commit']} batches={it['batches']} digest={it['digest'][:16]}"
            f" pending={it['pending']} heard={it['heard']} log={it['log_bytes'] >> 10}KB"
            + (" over" if it["is_over"] else "") + (" closing" if it["is_closing"] else "")
            + (f" {it['stage']}" if it.get("stage", "running") != "running" else "")
        )
