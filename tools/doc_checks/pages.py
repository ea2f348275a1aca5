"""The pages that are checked, and how a finding names one."""

from __future__ import annotations

import pathlib
import re
import sys

sys.dont_write_bytecode = True

from common import TOP  # noqa: E402

README, HEADLINE = TOP / "README.md", TOP / "docs/HEADLINE.md"
TRUST, ARCHITECTURE = TOP / "docs/TRUST.md", TOP / "docs/ARCHITECTURE.md"
PROVED, DECISIONS = TOP / "docs/PROVED.md", TOP / "docs/DECISIONS.md"
FORMATS, EMBEDDING = TOP / "docs/FORMATS.md", TOP / "docs/EMBEDDING.md"
PROTOCOL, CONTRIBUTING = TOP / "docs/PROTOCOL.md", TOP / "CONTRIBUTING.md"
SERVICE, HOSTING = TOP / "docs/SERVICE.md", TOP / "docs/HOSTING.md"
TESTING = TOP / "docs/TESTING.md"
EXAMPLES = TOP / "examples/README.md"
PAGES = [
    README, CONTRIBUTING, EXAMPLES, TOP / "host/README.md", *sorted((TOP / "docs").glob("*.md")),
]


def name_of(path: pathlib.Path) -> str:
    return str(path.relative_to(TOP))


def part_of(page: pathlib.Path, heading: str) -> str:
    """What stands under a heading, up to the next one of the same or a higher level."""
    level = len(heading) - len(heading.lstrip("#"))
    text = page.read_text().split(heading + "\n", 1)[-1]
    return re.split(rf"(?m)^#{{1,{level}}} ", text, maxsplit=1)[0]


def stands_on() -> dict[str, list[str]]:
    """The crates that crates.txt names, in its order, each with those that it stands on."""
    lines = (TOP / "crates.txt").read_text().splitlines()
    parts = [line.split(":") for line in lines if line and not line.startswith("#")]
    return {name.split()[0]: others.split() for name, others in parts}


def crates() -> list[str]:
    return list(stands_on())


def crates_of_the_toolchain() -> list[str]:
    given = stands_on()
    return sorted({other for others in given.values() for other in others} - given.keys())
