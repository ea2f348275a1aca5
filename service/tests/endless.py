"""What tests of sessions that follow one another share: commands, and what they wait for."""

from __future__ import annotations

import asyncio
import contextlib
import io
from collections.abc import Callable
from pathlib import Path
from unittest.mock import patch

from service.chain import agreed_keys
from service.chain_audit import Audits
from service.core import KEY_BYTES, Tx, tx_of_text
from service.folder import replica_ports
from service.program import themisd
from service.status import ServiceError
from service.tests import why_no_library

LIMIT = 1800.0      # seconds of a wait, which ends once what it waits for is there


def why_no_program() -> str:
    """Why no such cluster can run here; empty where one can."""
    try:
        themisd()
    except ServiceError as fault:
        return str(fault)
    return why_no_library()


def ended(main: Callable[[], int], *words: str) -> tuple[int, str]:
    """How a command ends, and what it prints."""
    output = io.StringIO()
    with (patch("sys.argv", ["command", *words]), contextlib.redirect_stdout(output),
          contextlib.redirect_stderr(output)):
        return main(), output.getvalue()


async def wait_for_keys(session: Path, n: int, number: int) -> None:
    """Until the keys of all replicas are final for a session: each has a part in it, and so an
    account."""
    reader, writer = await replica_ports(session)[0].open()
    writer.write(b"follow 0\n")
    batches: list[list[Tx]] = []
    async with asyncio.timeout(LIMIT):
        while None in agreed_keys(n, number, ["00" * KEY_BYTES], batches):
            line = (await reader.readline()).decode()
            assert line, "the replica has ended"
            batches.append([tx_of_text(it) for it in line.split()[2:]])
    writer.close()


async def wait_for_accounts(folder: Path, numbers: list[int]) -> None:
    """Until all replicas have exported their accounts of these sessions."""
    audits = Audits.of_folder(folder)
    async with asyncio.timeout(LIMIT):
        while any(len(audits.paths(it)) < audits.cluster.n for it in numbers):
            await asyncio.sleep(0.2)
