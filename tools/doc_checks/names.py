"""Whether the names that pages cite exist, and where they are said to stand."""

from __future__ import annotations

import pathlib
import re
import sys
from collections.abc import Iterator

sys.dont_write_bytecode = True

from common import TOP  # noqa: E402

from doc_checks.pages import (  # noqa: E402
    PAGES, PROVED, crates, crates_of_the_toolchain, name_of,
)

SOURCES = (
    "crates/**/*.rt", "crates/**/*.antt", "bindings/**/*", "service/**/*.py", "host/**/*.rs",
    "host/**/*.toml", "tools/**/*", "examples/*", "docs/*.png", "docs/*.svg",
)
# Names of other programs.
FOREIGN = {"IntoIter", "SystemMaxUse", "callgrind_annotate", "histogram_quantile"}
CITED = re.compile(r"[A-Za-z]\w*")
NAMED_IN_CRATE = re.compile(r"((?:`\w+`(?:, | and |: )?)+)[,;]? ?(?:in |of )?\(?`(\w+)`")
PATH = r"\w+/(?:specs|src|proofs)/[\w/]+\.(?:rt|antt)"
NAMED_IN_FILE = re.compile(rf"((?:`\w+`(?:, | and )?)+),? ?\(?`({PATH})`")
FOLDER = r"\w+/(?:specs|src|proofs)"
NAMED_IN_FOLDER = re.compile(rf"((?:`\w+`(?:, | and )?)+),? in `({FOLDER})`")
FILE = re.compile(r"`([\w/]*\w\.(?:rt|antt|edit|py|rs|h|c))`")


def words_of(path: pathlib.Path) -> set[str]:
    try:
        return set(re.findall(r"[A-Za-z]\w*", path.read_text()))
    except (OSError, UnicodeDecodeError):
        return set()


def words_of_sources() -> set[str]:
    found = (path for pattern in SOURCES for path in TOP.glob(pattern))
    files = [path for path in found if "target" not in path.parts]
    named = [*files, *TOP.glob("crates/*"), *TOP.glob("crates/*/must-fail/*")]
    words = {path.stem for path in named}.union(crates_of_the_toolchain())
    return words.union(*(words_of(path) for path in files if path.is_file()))


def words_of_crates() -> dict[str, set[str]]:
    return {
        crate: set[str]().union(*(
            words_of(path) | {path.stem} for path in (TOP / "crates" / crate).rglob("*")
            if path.suffix in (".rt", ".antt")
        ))
        for crate in crates()
    }


def prose_of(page: pathlib.Path) -> str:
    """A page without its blocks of code."""
    return re.sub(r"(?m)^    .*$", "", re.sub(r"(?ms)^```.*?^```$", "", page.read_text()))


def is_known(name: str, words: set[str]) -> bool:
    """Whether sources have a name. A metric has a prefix of its own, and a name that ends with `_`
    stands for all that begin so."""
    short = name.removeprefix("themis_")
    if name in words or name in FOREIGN or short in words:
        return True
    return name.endswith("_") and any(word.startswith((name, short)) for word in words)


def wrong_names() -> Iterator[str]:
    """Names of several words that no source has."""
    words = words_of_sources()
    for page in PAGES:
        spans = re.findall(r"`([^`\n]+)`", prose_of(page))
        names = {name for span in spans for name in CITED.findall(span)}
        for name in sorted(names):
            if ("_" in name or re.search(r"[a-z][A-Z]", name)) and not is_known(name, words):
                yield f"{name_of(page)}: no source has {name}"


def wrong_places() -> Iterator[str]:
    """Names that the crate or the file that is given for them has not, and files that do not
    exist."""
    owners = words_of_crates()
    files = [path.relative_to(TOP) for pattern in SOURCES for path in TOP.glob(pattern)]
    for page in PAGES:
        text = prose_of(page)
        for file in sorted(set(FILE.findall(text))):
            if not any(f"/{path}".endswith(f"/{file}") for path in files):
                yield f"{name_of(page)}: no file {file}"
        for named, crate in NAMED_IN_CRATE.findall(text):
            for name in re.findall(r"`(\w+)`", named):
                if crate in owners and name not in owners and name not in owners[crate]:
                    yield f"{name_of(page)}: no {name} in {crate}"
        for named, file in NAMED_IN_FILE.findall(text):
            words = words_of(TOP / "crates" / file)
            for name in re.findall(r"`(\w+)`", named):
                if words and name not in words:
                    yield f"{name_of(page)}: no {name} in {file}"
        for named, folder in NAMED_IN_FOLDER.findall(text):
            paths = list((TOP / "crates" / folder).rglob("*"))
            words = {path.stem for path in paths}.union(*(words_of(path) for path in paths))
            for name in re.findall(r"`(\w+)`", named):
                if name not in words:
                    yield f"{name_of(page)}: no {name} in {folder}"


def parts_of_crates() -> Iterator[tuple[list[str], str]]:
    """The parts of docs/PROVED.md that start with crates: parts under a heading, items, rows."""
    for part in re.split(r"(?m)^(?=### |- \*\*`|\| `|## )", PROVED.read_text()):
        head = part.partition("\n")[0]
        if head.startswith("### "):
            yield re.findall(r"`(\w+)`", head), part
        elif head.startswith("- **`"):
            yield re.findall(r"`(\w+)`", head.split("**")[1]), part
        elif head.startswith("| `"):
            yield re.findall(r"`(\w+)`", head.split("|")[1]), head


def wrong_parts() -> Iterator[str]:
    """Names in a part of docs/PROVED.md that neither its crates have, nor another crate that it
    names."""
    owners = words_of_crates()
    for heads, part in parts_of_crates():
        named = [crate for crate in re.findall(r"`(\w+)`", part) if crate in owners]
        words = set(owners).union(*(owners[crate] for crate in named))
        spans = [span for span in re.findall(r"`([^`\n]+)`", part) if "/" not in span]
        if any(crate in owners for crate in heads):
            for name in sorted({it for span in spans for it in CITED.findall(span)} - words):
                yield f"{name_of(PROVED)}: no {name} in {', '.join(heads)}"
