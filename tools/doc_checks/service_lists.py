"""Whether what the pages list of the service is what the host and its tools have: metrics, keys of
a configuration, exit statuses, misbehaviour of tests, and the tests of bounds."""

from __future__ import annotations

import pathlib
import re
import sys
from collections.abc import Iterator

sys.dont_write_bytecode = True

from common import TOP  # noqa: E402

from doc_checks.lists import body_of, differing  # noqa: E402
from doc_checks.pages import HOSTING, SERVICE, TESTING, name_of, part_of  # noqa: E402

SHELL = "host/shell/src"


def cells(page: pathlib.Path, heading: str, column: int) -> list[str]:
    """The cells of a column of the tables under a heading, from 0."""
    rows = [line for line in part_of(page, heading).splitlines() if line.startswith("| ")]
    return [row.split("|")[column + 1].strip() for row in rows]


def wrong_metrics() -> Iterator[str]:
    """Metrics that the page does not name. It names some more than once, to compare them."""
    text = (TOP / SHELL / "metrics.rs").read_text().split("#[cfg(test)]")[0]
    heads = re.findall(r'\b(?:head|gauge|counter|histogram)\(\s*"(\w+)"', text)
    counts = re.findall(r'\(\s*"[a-z ]+",\s*"(\w+)"', text)
    found = re.findall(r"`themis_(\w+)`", part_of(SERVICE, "### Metrics and health"))
    named = sorted({re.sub(r"_(?:sum|count)$", "", name) for name in found})
    yield from differing(SERVICE, "metric", named, [*heads, *counts])


def wrong_keys() -> Iterator[str]:
    """Keys of a replica's configuration that have not one row."""
    fields = re.findall(r"(?m)^    (?:pub(?:\(super\))? )?(\w+): ",
                        body_of(f"{SHELL}/config/own.rs", "pub struct Config {"))
    named = re.findall(r"`(\w+)`", " ".join(cells(SERVICE, "## Configuration", 0)))
    yield from differing(SERVICE, "key", named, fields)


def wrong_host_statuses() -> Iterator[str]:
    """Exit statuses of `themisd` and of the tools, 0 and 1 among them."""
    texts = [(TOP / file).read_text() for file in (f"{SHELL}/exit.rs", "service/status.py")]
    numbers = {number for text in texts for number in re.findall(r"(?m)^    \w+ = (\d+)", text)}
    given = [cell for cell in cells(SERVICE, "### Exit statuses", 0) if cell.isdigit()]
    yield from differing(SERVICE, "exit status", given, sorted({"0", "1"} | numbers))


def wrong_deeds() -> Iterator[str]:
    names = re.findall(r'\(Deed::\w+, "(\w+)"\)', (TOP / "host/deeds/src/deed.rs").read_text())
    named = re.findall(r"`(\w+)`", " ".join(cells(TESTING, "## Misbehaviour", 0)))
    yield from differing(TESTING, "deed", named, names)


def wrong_bounds() -> Iterator[str]:
    """Tests of bounds that do not exist."""
    files = [*TOP.glob("host/**/*.rs"), *TOP.glob("service/tests/*.py")]
    texts = "".join(path.read_text() for path in files if "target" not in path.parts)
    tests = set(re.findall(r"\b(?:fn|def) (\w+)", texts))
    for cell in cells(HOSTING, "## All bounds", 3):
        for name in re.findall(r"`(\w+_\w+|sizes)`", cell):
            if name not in tests:
                yield f"{name_of(HOSTING)}: no test {name}"


def wrong_heads() -> Iterator[str]:
    """Files whose first line does not say their job, as host/README.md promises."""
    files = [*TOP.glob("host/*/src/**/*.rs"), *TOP.glob("service/*.py")]
    for path in sorted(files):
        is_test = path.stem.endswith("tests") or "tests" in path.parts
        if not is_test and not path.read_text().startswith(("//! ", '"""')):
            yield f"{path.relative_to(TOP)}: its first line does not say its job"


def wrong_service_lists() -> Iterator[str]:
    yield from wrong_heads()
    yield from wrong_metrics()
    yield from wrong_keys()
    yield from wrong_host_statuses()
    yield from wrong_deeds()
    yield from wrong_bounds()
