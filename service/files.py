"""Files that are there whole and durable, or not at all."""

from __future__ import annotations

import os
from contextlib import suppress
from pathlib import Path

from service.status import Exit, ServiceError


def write_whole(path: Path, text: str) -> None:
    """Writes a file, instead of an older one; ServiceError where that fails, and the older one is
    still there then."""
    aside = path.with_name(f"{path.name}.new")
    try:
        with open(aside, "w", encoding="ascii") as out:
            out.write(text)
            out.flush()
            os.fsync(out.fileno())
        aside.rename(path)
        sync_folder(path.parent)
    except OSError as fault:
        with suppress(OSError):
            aside.unlink(missing_ok=True)
        raise ServiceError(Exit.DISK, f"{path}: {fault.strerror}") from fault


def sync_folder(folder: Path) -> None:
    """Makes the names in a folder durable."""
    sync_file(folder)


def sync_file(path: Path) -> None:
    """Makes what was written to a file durable."""
    file = os.open(path, os.O_RDONLY)
    try:
        os.fsync(file)
    finally:
        os.close(file)
