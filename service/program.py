"""Where `themisd` is, the program that runs a replica and makes its files."""

from __future__ import annotations

import os
import subprocess
from pathlib import Path

from service.status import Exit, ServiceError

TOP = Path(__file__).resolve().parent.parent
THEMISD = TOP / "out" / "themisd"
FAULTY = "themisd-faulty"   # of replicas with deeds, for tests; next to the other one


def program() -> Path:
    """What tools/build-host has built, or what THEMIS_HOST names. It need not be there."""
    return Path(os.environ.get("THEMIS_HOST") or THEMISD).absolute()


def themisd(name: str | None = None) -> Path:
    """The program, or another one next to it; ServiceError where it is not built."""
    path = program().with_name(name) if name else program()
    if not path.exists():
        text = f"there is no {path}: tools/build-host builds it"
        raise ServiceError(Exit.CONFIG, text)
    return path


def call(*words: str | Path) -> str:
    """What a command of `themisd` prints; ServiceError where it is refused."""
    done = subprocess.run([themisd(), *words], capture_output=True, text=True, check=False,
                          stdin=subprocess.DEVNULL)
    if done.returncode:
        text = done.stderr.strip().removeprefix("themisd: ") or f"{words[0]} failed"
        raise ServiceError(exit_of(done.returncode), text)
    return done.stdout


def exit_of(status: int) -> Exit:
    """How a command ended."""
    try:
        return Exit(status)
    except ValueError:
        return Exit.CONFIG
