"""Whether the lists that pages hold are those of the code: crates, decisions, statuses, reasons,
lines without a proof, scripts, examples, and what a page shows of runs and settings."""

from __future__ import annotations

import pathlib
import re
import sys
from collections import Counter
from collections.abc import Iterator

sys.dont_write_bytecode = True

from common import TOP  # noqa: E402

from doc_checks.pages import (  # noqa: E402
    ARCHITECTURE, CONTRIBUTING, DECISIONS, EMBEDDING, EXAMPLES, FORMATS, HEADLINE, PAGES,
    PROTOCOL, PROVED, README, TRUST, crates, crates_of_the_toolchain, name_of, part_of,
)

# Where docs/HEADLINE.md has a table of the facts of a record.
FACTS = (
    ("and `trace`: `KeepsOrder`**", "KeepsOrder", "themis_calls/specs/Headline.antt"),
    ("**`audit`: `KeepsAudit`**", "KeepsAudit", "themis_calls/specs/Audited.antt"),
)
CRATE_ROW = re.compile(r"\| (`\w+`(?:, `\w+`)*) \| [^|]* \| [^|]* \|$")


def differing(page: pathlib.Path, what: str, given: list[str], actual: list[str]) -> Iterator[str]:
    """What a page lists not once, or the code has not."""
    for name in sorted({*given, *actual}):
        if given.count(name) != 1 or name not in actual:
            where = "" if name in actual else ", which is not in the code"
            yield f"{name_of(page)}: {given.count(name)} times the {what} {name}{where}"


def wrong_crates() -> Iterator[str]:
    """Crates that have not one row in docs/ARCHITECTURE.md, or no place in docs/PROVED.md."""
    page = part_of(ARCHITECTURE, "## The crates")
    rows = [row[1] for line in page.splitlines() if (row := CRATE_ROW.match(line))]
    named = [crate for row in rows for crate in re.findall(r"\w+", row)]
    yield from differing(ARCHITECTURE, "crate", named, crates())
    proved = PROVED.read_text()
    for crate in crates():
        is_proved = not crate.startswith("tests_") and crate != "themis_main"
        if is_proved and f"`{crate}`" not in proved:
            yield f"{name_of(PROVED)}: nothing of the crate {crate}"


def wrong_dependencies() -> Iterator[str]:
    """Crates of the toolchain that the last lines of README.md have to name."""
    last = README.read_text().split("depends on the toolchain's", 1)[-1]
    named = re.findall(r"`(\w+)`", last)
    yield from differing(README, "crate of the toolchain", named, crates_of_the_toolchain())


def wrong_edits() -> Iterator[str]:
    """Crates without must-fail edits, other than those of tests, of laws and those that the
    decision on edits names."""
    lines = DECISIONS.read_text().splitlines()
    named = set(re.findall(r"`(\w+)`", " ".join(it for it in lines if "no edit at all" in it)))
    laws = set(re.findall(r"`(\w+)`", " ".join(
        line for line in ARCHITECTURE.read_text().splitlines()
        if CRATE_ROW.match(line) and re.search(r"\b(laws?|obeys)\b", line.split("|")[2])
    )))
    for crate in crates():
        has_edits = any((TOP / "crates" / crate).glob("must-fail/*.edit"))
        if has_edits and crate in named:
            yield f"{name_of(DECISIONS)}: {crate} has edits"
        if not has_edits and crate not in named | laws and not crate.startswith("tests_"):
            yield f"{name_of(DECISIONS)}: {crate} has no edit"


def wrong_facts() -> Iterator[str]:
    """Facts of records that a table of docs/HEADLINE.md has not, or that are no fact of them."""
    for heading, record, file in FACTS:
        text = (TOP / "crates" / file).read_text().split(f"record {record} ", 1)[1]
        fields = re.findall(r"(?m)^  pub (\w+) :", re.split(r"\n\n", text, maxsplit=1)[0])
        part = HEADLINE.read_text().split(heading, 1)[-1]
        table = part.split("\n\n|", 1)[1].split("\n\n", 1)[0]
        cells = " ".join(line.split("|")[1] for line in table.splitlines()[1:])
        yield from differing(HEADLINE, f"fact of {record}", re.findall(r"`(\w+)`", cells), fields)


def numbers_in(cell: str) -> Iterator[int]:
    for first, last in re.findall(r"(\d+)(?: to (\d+))?", cell):
        yield from range(int(first), int(last or first) + 1)


def wrong_decisions() -> Iterator[str]:
    """Numbers that are not in their order, not in one row of the table of subjects, or cited and
    not there."""
    text = DECISIONS.read_text()
    numbers = [int(number) for number in re.findall(r"(?m)^(\d+)\. ", text)]
    if numbers != list(range(1, len(numbers) + 1)):
        yield f"{name_of(DECISIONS)}: the numbers are not 1 to {len(numbers)}"
    rows = re.findall(r"(?m)^\| [^|]* \| ([\d, to]+) \|$", text)
    listed = Counter(number for row in rows for number in numbers_in(row))
    for number in sorted({*numbers, *listed}):
        if listed[number] != 1 or number not in numbers:
            yield f"{name_of(DECISIONS)}: {listed[number]} subjects of the decision {number}"
    for page in PAGES:
        for cited in re.findall(r"DECISIONS(?:\]\([^)]*\))?,? (\d+)", page.read_text()):
            if int(cited) not in numbers:
                yield f"{name_of(page)}: no decision {cited}"


def body_of(file: str, opening: str) -> str:
    """What stands between the opening of an enum or a function and its end."""
    text = (TOP / file).read_text().split(opening, 1)[1]
    return re.split(r"(?m)^ {0,4}\}", text, maxsplit=1)[0]


def wrong_exit_statuses() -> Iterator[str]:
    """Exit statuses of docs/FORMATS.md, with the lines that go to standard error."""
    outcome = "crates/themis_calls/src/outcome.rt"
    numbers = dict(re.findall(r"Status::(\w+).*=> (\d+)", body_of(outcome, "fn number(")))
    printed = r'Status::(\w+).*write!\(f, "([^"{]*)'
    texts = dict(re.findall(printed, body_of(outcome, "impl fmt::Display for Status ")))
    texts["Done"] = ""
    part = part_of(FORMATS, "## Exit statuses")
    given = re.findall(r"(?m)^\| (\d+) \|(?: `themis: ([^`]*)`)?", part)
    yield from differing(
        FORMATS, "status", [f"{number} {text}".strip() for number, text in given],
        [f"{number} {texts[name]}".strip() for name, number in numbers.items()],
    )


def wrong_statuses() -> Iterator[str]:
    """Statuses of the C interface, those of audits and histories too, in docs/EMBEDDING.md."""
    header = (TOP / "bindings/c/themis.h").read_text()
    declared = re.findall(r"(?s)(?:enum themis_\w*status|THEMIS_BAD_TRACE) .*?\}", header)
    names = set(re.findall(r"THEMIS_(\w+) = ", " ".join(declared))) - {"OK"}
    part = part_of(EMBEDDING, "### What a host does with a status")
    rows = [line.split("|")[1] for line in part.splitlines() if line.startswith("| `")]
    named = re.findall(r"`(\w+)`", " ".join(rows))
    yield from differing(EMBEDDING, "status", named, sorted(names))


def wrong_reasons() -> Iterator[str]:
    """Reasons of docs/PROTOCOL.md, and their numbers in a trace in docs/FORMATS.md."""
    body = body_of("crates/node_core/src/event.rt", "pub enum Reason {")
    reasons = re.findall(r"(?m)^    (\w+)", body)
    tested = [reason for reason in reasons if reason not in ("Done", "BadWire")]
    part = part_of(PROTOCOL, "## A node's turn")
    listed = re.findall(r"(?m)^\| ([A-Z]\w+) \| ", part)[1:]
    yield from differing(PROTOCOL, "reason", listed, tested)
    if ", ".join(tested) not in FORMATS.read_text():
        yield f"{name_of(FORMATS)}: the reasons are {', '.join(tested)}"


def lines_of_function(path: pathlib.Path, name: str) -> int:
    """How many lines a function has, from its `fn` to the bracket that closes it."""
    lines = path.read_text().splitlines()
    first = next(k for k, line in enumerate(lines) if re.match(rf"\s*fn {name}\b", line))
    indent = len(lines[first]) - len(lines[first].lstrip())
    last = next(k for k in range(first, len(lines)) if lines[k] == " " * indent + "}")
    return last - first + 1


def wrong_unproved_lines() -> Iterator[str]:
    """Counts of the lines of docs/TRUST.md that no proof covers, and their sum."""
    text = TRUST.read_text()
    total = 0
    for row in re.findall(r"(?m)^\| `[\w/]+\.rt`, .*$", text):
        file = re.findall(r"`([\w/]+\.rt)`", row)[0]
        for given, name in re.findall(r"(\d+)(?: lines)? of `(\w+)`", row):
            actual = lines_of_function(TOP / "crates" / file, name)
            total += actual
            if actual != int(given):
                yield f"{name_of(TRUST)}: {name} of {file} has {actual} lines"
    if f"these {total} lines" not in text:
        yield f"{name_of(TRUST)}: the lines without a proof are {total}"


def wrong_scripts() -> Iterator[str]:
    """Scripts of tools/ that no page for maintainers names, and examples without a part."""
    pages = CONTRIBUTING.read_text() + ARCHITECTURE.read_text()
    for path in sorted((TOP / "tools").iterdir()):
        if path.is_file() and not path.suffix and f"tools/{path.name}" not in pages:
            yield f"{name_of(ARCHITECTURE)}: nothing of tools/{path.name}"
    for path in sorted((TOP / "examples").iterdir()):
        if path.suffix in (".txt", ".toml") and f"`{path.name}`" not in EXAMPLES.read_text():
            yield f"{name_of(EXAMPLES)}: nothing of {path.name}"


def wrong_examples() -> Iterator[str]:
    """Batches that the table of plans gives, and that the text next to the plan has not first."""
    for line in part_of(EXAMPLES, "## Plans").splitlines():
        if row := re.match(r"\| `(\w+)\.toml` \| .* \| (.*) \|$", line):
            text = (TOP / "examples" / f"{row[1]}.out").read_text()
            first = re.split(r"(?m)^(?:replica|end) ", text)[1]
            actual = re.findall(r"(?m)^batch \d+ (.*)$", first)
            if re.findall(r"`([^`]*)`", row[2]) != actual:
                yield f"{name_of(EXAMPLES)}: the batches of {row[1]} are {actual}"


RUN = re.compile(r"(?m)^    \$ themis (order|line|replay) < (examples/\w+)\.\w+\n((?:    .*\n)+)")


def wrong_runs() -> Iterator[str]:
    """Runs that a page shows with other lines than those in which the text next to the input
    begins."""
    for page in PAGES:
        for command, example, shown in RUN.findall(page.read_text()):
            text = TOP / f"{example}{'.line' if command == 'line' else ''}.out"
            actual = text.read_text().splitlines() if text.exists() else []
            lines = [line.strip() for line in shown.splitlines()]
            if lines != actual[:len(lines)]:
                yield f"{name_of(page)}: {command} of {example} does not print what is shown"


def wrong_gammas() -> Iterator[str]:
    """Rows of the table of README.md on gamma that do not follow from n and f. Above the bound
    (n+4f)/(2n) more than (n+4f)/2 replicas are asked for, f of which may be faulty."""
    row = r"(?m)^\| (\d+) \| (\d+) \| ([\d.]+) \| (\d+) of (\d+) \|$"
    for n, f, bound, least, honest in re.findall(row, part_of(README, "## The promise")):
        received, faulty = int(n) + 4 * int(f), int(f)
        actual = f"{received / (2 * int(n)):.3f}", received // 2 - faulty + 1, int(n) - faulty
        if actual != (bound, int(least), int(honest)):
            yield f"{name_of(README)}: for n={n} f={f} gamma and the replicas are {actual}"


NUMBER = re.compile(r"\b\d{1,3}(?:,\d{3})+\b")


def is_power(number: int) -> bool:
    """Whether a number is a power of two, or one less: a range of a type, or the seals of a key."""
    return number & (number - 1) == 0 or number & (number + 1) == 0


def wrong_numbers() -> Iterator[str]:
    """Large numbers of README.md that no other page has, and limits of plans in docs/FORMATS.md
    that the code has not."""
    others = {number for page in PAGES if page != README
              for number in NUMBER.findall(page.read_text())}
    for number in sorted(set(NUMBER.findall(README.read_text())) - others):
        yield f"{name_of(README)}: no other page has {number}"
    sources = (TOP / "crates/plan_text").rglob("*.*t")
    text = " ".join(path.read_text() for path in sources if path.suffix in (".rt", ".antt"))
    known = {int(number.replace("_", "")) for number in re.findall(r"\b\d[\d_]*\b", text)}
    for number in sorted(set(NUMBER.findall(part_of(FORMATS, "## Plans")))):
        value = int(number.replace(",", ""))
        if value not in known and not is_power(value):
            yield f"{name_of(FORMATS)}: the code of plans has no {number}"


def cases_of(crate: str) -> list[str]:
    """The rows of the tables of a crate of tests: constants of a text with a column after `|`."""
    rows = []
    for path in sorted((TOP / "crates" / crate / "src").glob("*.rt")):
        for text in re.findall(r'(?s)const \w+: &str = "(.*?)";\n', path.read_text()):
            joined = re.sub(r"\\\n\s*", "", text).replace("\\n", "\n")
            lines = [line for line in joined.splitlines() if line]
            rows += lines if all("|" in line for line in lines) else []
    return [row.rsplit("|", 1)[1] for row in rows]


def wrong_cases() -> Iterator[str]:
    """How many cases of plans and of audits docs/TRUST.md says are tested."""
    plans, audits = cases_of("tests_plans"), cases_of("tests_audit")
    rules = sum("rule" in answer for answer in audits)
    fields = sum(answer.startswith("bad") for answer in audits)
    for said in (
        f"{len(plans)} cases, of which {plans.count('read')} are read",
        f"{len(audits)} traces of three runs",
        f"the first rule broken ({rules}), the first faulty field ({fields}), "
        f"or nothing ({len(audits) - rules - fields})",
    ):
        if said not in TRUST.read_text():
            yield f"{name_of(TRUST)}: does not say: {said}"


def wrong_counts() -> Iterator[str]:
    """Numbers of crates and of must-fail edits that a page gives."""
    counts = {"crates": len(crates()), "edits": len(list(TOP.glob("crates/*/must-fail/*.edit")))}
    pattern = re.compile(r"\b(\d+) (?:must-fail )?(crates|edits)\b")
    for page in PAGES:
        for given, what in pattern.findall(page.read_text()):
            if int(given) != counts[what]:
                yield f"{name_of(page)}: there are {counts[what]} {what}"


def wrong_lists() -> Iterator[str]:
    yield from wrong_crates()
    yield from wrong_dependencies()
    yield from wrong_edits()
    yield from wrong_facts()
    yield from wrong_decisions()
    yield from wrong_exit_statuses()
    yield from wrong_statuses()
    yield from wrong_reasons()
    yield from wrong_unproved_lines()
    yield from wrong_scripts()
    yield from wrong_examples()
    yield from wrong_runs()
    yield from wrong_gammas()
    yield from wrong_numbers()
    yield from wrong_cases()
    yield from wrong_counts()
