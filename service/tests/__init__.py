"""Tests of the service: `python3 -m unittest discover service`.

Most need the library. Those that start replicas on loopback need `themisd` too, and those with a
faulty one `themisd-faulty`.
"""

from __future__ import annotations

import os
import sys
from functools import cache
from pathlib import Path

sys.path.insert(0, str(Path(__file__).resolve().parent.parent.parent))


@cache
def why_no_library() -> str:
    """Why the library can't be called; empty where it can."""
    from service.core import SECRET_BYTES, ThemisError, public_key
    try:
        public_key(5, os.urandom(SECRET_BYTES))
    except (OSError, ThemisError) as fault:
        return str(fault)
    return ""


@cache
def why_no_host() -> str:
    """Why no replicas can be started; empty where they can."""
    from service.program import FAULTY, program
    if why := why_no_library():
        return why
    missing = [it for it in (program(), program().with_name(FAULTY)) if not it.exists()]
    return f"there is no {missing[0]}: tools/build-host builds it" if missing else ""
