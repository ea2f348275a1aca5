"""The log of one replica, in the library's format (docs/FORMATS.md, "Event log"): a new one, and the
events of one that a replica wrote."""

from __future__ import annotations

import os
from collections.abc import Iterator
from pathlib import Path

from service.files import sync_folder

HEADER_BYTES = 76
LENGTH_BYTES, CHECK_BYTES = 4, 8


def create(path: Path, header: bytes) -> None:
    """Makes the log of a new replica: its header, durable. An existing file is left alone."""
    file = os.open(path, os.O_WRONLY | os.O_CREAT | os.O_EXCL, 0o600)
    with os.fdopen(file, "wb") as out:
        out.write(header)
        out.flush()
        os.fsync(file)
    sync_folder(path.parent)


def bodies(data: bytes, kind: int | None = None) -> Iterator[bytes]:
    """The events' bytes of the whole records of a log whose checks the library has verified: of
    all, or of those that start with the byte `kind`."""
    at = HEADER_BYTES
    while at + LENGTH_BYTES + CHECK_BYTES <= len(data):
        start = at + LENGTH_BYTES + CHECK_BYTES
        end = start + int.from_bytes(data[at:at + LENGTH_BYTES], "big")
        if end + CHECK_BYTES > len(data):
            return
        if kind is None or start < end and data[start] == kind:
            yield data[start:end]
        at = end + CHECK_BYTES
