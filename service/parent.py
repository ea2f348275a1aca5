"""Processes that end with the one that started them, so that nothing outlives a test."""

from __future__ import annotations

import ctypes
import signal
import sys

PR_SET_PDEATHSIG = 1


def stop_with_parent() -> None:
    """Has Linux send SIGTERM to this process once its parent has ended. Other systems have no such
    call."""
    if sys.platform == "linux":
        ctypes.CDLL(None).prctl(PR_SET_PDEATHSIG, signal.SIGTERM)
