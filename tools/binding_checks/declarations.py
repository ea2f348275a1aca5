"""The declarations of the C interface in four languages, read into one form.

- the exports of crate `themis_c`, from its sources;
- `bindings/c/themis.h`;
- what `bindings/python` declares for ctypes;
- what `bindings/rust` declares as extern.

A slice of the sources is a pointer and a count in C, a reference is a pointer, and an allocator is
no argument. The names of arguments are those of the header; the sources have other names for some.
"""

from __future__ import annotations

import ctypes
import re
import sys
from collections.abc import Iterator
from dataclasses import dataclass, field
from typing import Any, NamedTuple

sys.dont_write_bytecode = True

from common import TOP  # noqa: E402

SOURCES = TOP / "crates/themis_c/src"
HEADER = TOP / "bindings/c/themis.h"
PYTHON = TOP / "bindings/python"
RUST = TOP / "bindings/rust/src"

# How the sources name an argument, and how the header does.
HEADER_NAMES = {
    "handle": "replica", "at": "position", "public": "public_key", "publics": "public_keys",
    "commit": "commit_view",
}
HANDLES = {"Handle": "replica", "History": "history", "VerifierHandle": "verifier"}
FREES = ("themis_free", "themis_history_free", "themis_verifier_free")
HEADER_STANDINGS = {"FINAL": "SETTLED"}
COUNT_NAME = re.compile(r"(\w+_)?(count|size|room)")


class Unreadable(Exception):
    """A declaration that these readers do not understand."""


class Argument(NamedTuple):
    """The name and the type of an argument: `u32`, or `const u8*` for a pointer; and the length
    of an array that it leads to, where one is declared."""

    name: str
    type: str
    length: str = ""

    def __str__(self) -> str:
        return f"{self.name}: {self.type}{self.length}"


@dataclass
class Declared:
    """What one language declares. The numbers of enums have their names in the header's spelling,
    but for `heights`; `structs` have their fields."""

    functions: dict[str, list[Argument]] = field(default_factory=dict)
    structs: dict[str, list[Argument]] = field(default_factory=dict)
    statuses: dict[str, int] = field(default_factory=dict)
    reasons: dict[str, int] = field(default_factory=dict)
    taken: dict[str, int] = field(default_factory=dict)
    standings: dict[str, int] = field(default_factory=dict)
    heights: list[int] = field(default_factory=list)


def split(text: str) -> list[str]:
    """The parts between commas, without empty ones."""
    return [part.strip() for part in text.split(",") if part.strip()]


def snake(name: str) -> str:
    """`BadWire` as `BAD_WIRE`."""
    return re.sub(r"(?<=[a-z0-9])(?=[A-Z])", "_", name).upper()


def numbers_of(found: list[tuple[str, str]]) -> dict[str, int]:
    """The numbers of names, these in the header's spelling."""
    return {snake(name): int(number) for name, number in found}


# ---- the exports of the sources

EXPORT = re.compile(r'no_mangle\)\]\s*pub extern "C" fn (\w+)\(([^)]*)\)\s*(-> u32)?')
RT_STRUCT = re.compile(r"#\[repr\(C\)\][^{;]*?pub struct C(\w+) \{([^}]*)\}")
RT_STATUS = re.compile(r"^pub const ([A-Z_]+): u32 = (\d+);", re.MULTILINE)
RT_REASON = re.compile(r"Reason::(\w+)(?:\(_\))? => (\d+),")
RT_TAKEN = re.compile(r"Taken::(\w+) => (\d+),")
RT_STANDING = re.compile(r"Standing::(\w+) => (\d+),")
RT_HEIGHT = re.compile(r"^\s*(\d+) => Some\(Height::", re.MULTILINE)
NUMBERS = {"u32", "u64", "usize"}


def element(text: str) -> str:
    """The type that a pointer leads to: `[u8; 48]` and `CTx` as `u8` and `tx`."""
    array = re.fullmatch(r"\[(\w+); \d+\]", text)
    name = array.group(1) if array else text
    if name in HANDLES:
        return HANDLES[name]
    return name[1:].lower() if re.fullmatch(r"C[A-Z]\w*", name) else name


def arguments_of_rt(text: str) -> Iterator[Argument]:
    name, _, of = (part.strip() for part in text.partition(":"))
    name = HEADER_NAMES.get(name, name)
    if of == "Global":
        return
    if of in NUMBERS:
        yield Argument(name, of)
        return
    reference = re.fullmatch(r"&(mut )?(.+)", of)
    if reference is None:
        raise Unreadable(f"argument {text}")
    is_mutable, target = reference.groups()
    const = "" if is_mutable else "const "
    slice_of = re.fullmatch(r"\[([^;]+|\[\w+; \d+\])\]", target)
    if slice_of:
        yield Argument(name, f"{const}{element(slice_of.group(1))}*")
        yield Argument("", "usize")
    else:
        array = re.fullmatch(r"\[\w+; (\d+)\]", target)
        yield Argument(name, f"{const}{element(target)}*", f"[{array.group(1)}]" if array else "")


def declared_by_sources() -> Declared:
    out = Declared()
    text = "\n".join(path.read_text() for path in sorted(SOURCES.glob("*.rt")))
    for name, arguments, answers in EXPORT.findall(text):
        if bool(answers) == (name in FREES):
            raise Unreadable(f"what {name} answers")
        parts = split(re.sub(r"\s+", " ", arguments))
        out.functions[name] = [a for part in parts for a in arguments_of_rt(part)]
    for name, fields in RT_STRUCT.findall(text):
        out.structs[name.lower()] = [
            Argument(name, element(of)) for name, of in re.findall(r"pub (\w+): (\w+),", fields)
        ]
    out.statuses = numbers_of(RT_STATUS.findall(text))
    out.reasons = numbers_of(RT_REASON.findall(text))
    out.taken = numbers_of(RT_TAKEN.findall(text))
    standings = numbers_of(RT_STANDING.findall(text))
    out.standings = {HEADER_STANDINGS.get(name, name): it for name, it in standings.items()}
    out.heights = sorted(int(number) for number in RT_HEIGHT.findall(text))
    return out


# ---- the header

C_FUNCTION = re.compile(r"^(uint32_t|void) (themis_\w+)\(([^;]*)\);", re.MULTILINE)
C_STRUCT = re.compile(r"typedef struct(?: themis_\w+)? \{([^}]*)\} themis_(\w+);")
C_ENUM = re.compile(r"enum themis_(\w+) \{([^}]*)\};")
C_TYPES = {
    "uint8_t": "u8", "uint32_t": "u32", "uint64_t": "u64", "size_t": "usize", "void": "void",
}


def c_type(text: str) -> str:
    return C_TYPES.get(text, text.removeprefix("themis_"))


def argument_of_c(text: str) -> Argument:
    declared = re.fullmatch(r"(const )?(\w+) (\*)?\(?(\*)?(\w+)\)?(\[\d+\])?", text)
    if declared is None:
        raise Unreadable(f"argument {text} of the header")
    const, of, star, star_of_array, name, array = declared.groups()
    is_pointer = star or star_of_array or array
    length = array if array and not star_of_array else ""
    return Argument(name, f"{const or ''}{c_type(of)}{'*' if is_pointer else ''}", length)


def fields_of_c(text: str) -> Iterator[Argument]:
    for line in text.split(";"):
        words = line.strip()
        if not words:
            continue
        of, _, names = words.partition(" ")
        for name in split(names):
            star = "*" if name.startswith("*") else ""
            yield Argument(name.removeprefix("*"), c_type(of) + star)


def declared_by_header() -> Declared:
    out = Declared()
    text = re.sub(r"/\*.*?\*/", "", HEADER.read_text(), flags=re.DOTALL)
    for answer, name, arguments in C_FUNCTION.findall(text):
        if (answer == "void") != (name in FREES):
            raise Unreadable(f"what {name} answers in the header")
        parts = split(re.sub(r"\s+", " ", arguments))
        out.functions[name] = [argument_of_c(part) for part in parts]
    for fields, name in C_STRUCT.findall(text):
        out.structs[name] = list(fields_of_c(fields))
    numbers = {
        name: numbers_of(re.findall(r"THEMIS_(\w+) = (\d+)", constants))
        for name, constants in C_ENUM.findall(text)
    }
    out.statuses = numbers["status"] | numbers["audit_status"] | numbers["history_status"]
    out.statuses |= numbers["verifier_status"]
    out.reasons = numbers["reason"]
    out.taken, out.standings = numbers["taken"], numbers["standing"]
    out.heights = sorted(numbers["height"].values())
    return out


# ---- Python

# On machines of 64 bits ctypes has one type for u64 and usize.
CTYPES: dict[Any, str] = {
    ctypes.c_uint8: "u8", ctypes.c_uint32: "u32", ctypes.c_size_t: "usize",
    ctypes.c_char_p: "const u8*", ctypes.c_void_p: "void*",
}


def type_of_ctypes(of: Any) -> str:
    if of in CTYPES:
        return CTYPES[of]
    target = getattr(of, "_type_", None)
    if isinstance(target, type):
        return f"{type_of_ctypes(target)}*"
    return element(of.__name__)


def declared_by_python() -> Declared:
    sys.path.insert(0, str(PYTHON))
    import themis
    import themis_library as library

    out = Declared()
    for function, arguments in library.DECLARATIONS.items():
        out.functions[function] = [Argument(name, type_of_ctypes(of)) for name, of in arguments]
    structs = ("CReplica", "CRole", "CRun", "CTx", "CReceipt", "CFinding", "CHistory", "CVerifier")
    for name in structs:
        fields = getattr(library, name)._fields_
        out.structs[name[1:].lower()] = [Argument(name, type_of_ctypes(of)) for name, of in fields]
    out.statuses = {status.name: status.value for status in themis.Status}
    out.reasons = {reason.name: reason.value for reason in themis.Reason}
    out.taken = {taken.name: taken.value for taken in themis.Taken}
    out.standings = {standing.name: standing.value for standing in themis.Standing}
    out.heights = sorted(height.value for height in themis.Height)
    return out


# ---- Rust

RUST_FUNCTION = re.compile(r"pub fn (themis_\w+)\(([^)]*)\)( -> u32)?;")
RUST_STRUCT = re.compile(r"#\[repr\(C\)\][^{;]*?pub struct C(\w+) \{([^}]*)\}")
RUST_HEIGHT = re.compile(r"^    H\w+ = (\d+),", re.MULTILINE)
RUST_MODULE = re.compile(r"pub mod (\w+) \{([^}]*)\}")
RUST_CONSTANT = re.compile(r"pub const ([A-Z_]+): u32 = (\d+);")
RUST_REASONS = re.compile(r"const REASONS[^=]*= \[([^\]]*)\]")


def type_of_rust(text: str) -> str:
    pointer = re.fullmatch(r"\*(mut|const) (\w+)", text)
    if pointer is None:
        return element(text)
    const = "const " if pointer.group(1) == "const" else ""
    target = pointer.group(2)
    return f"{const}{'void' if target == 'c_void' else element(target)}*"


def argument_of_rust(text: str) -> Argument:
    name, _, of = text.partition(":")
    return Argument(name.strip(), type_of_rust(of.strip()))


def declared_by_rust() -> Declared:
    out = Declared()
    text, values = (RUST / "c.rs").read_text(), (RUST / "values.rs").read_text()
    for name, arguments, answers in RUST_FUNCTION.findall(text):
        if bool(answers) == (name in FREES):
            raise Unreadable(f"what {name} answers in Rust")
        out.functions[name] = [argument_of_rust(part) for part in split(arguments)]
    for name, fields in RUST_STRUCT.findall(text):
        parts = re.findall(r"pub (\w+: [^,]+),", fields)
        out.structs[name.lower()] = [argument_of_rust(part) for part in parts]
    out.statuses = numbers_of(RT_STATUS.findall(text))
    modules = dict(RUST_MODULE.findall(text))
    out.taken = numbers_of(RUST_CONSTANT.findall(modules["taken"]))
    out.standings = numbers_of(RUST_CONSTANT.findall(modules["standing"]))
    reasons = RUST_REASONS.search(values)
    names = re.findall(r"Reason::(\w+)", reasons.group(1)) if reasons else []
    out.reasons = {snake(name): number for number, name in enumerate(names)}
    out.heights = sorted(int(number) for number in RUST_HEIGHT.findall(values))
    return out


# ---- comparing


def type_for_ctypes(of: str) -> str:
    """A type as ctypes can tell it: u64 is usize there, and only bytes can be const."""
    of = of.replace("u64", "usize")
    return of if of == "const u8*" else of.removeprefix("const ")


def is_same(given: Argument, header: Argument, language: str) -> bool:
    """Whether an argument is as the header has it. The count of a slice of the sources has no name
    there; only the sources and the header have lengths."""
    expected = type_for_ctypes(header.type) if language == "Python" else header.type
    name = given.name or (header.name if COUNT_NAME.fullmatch(header.name) else "")
    has_length = language != "themis_c" or given.length == header.length
    return given.type == expected and name == header.name and has_length


def text_of(arguments: list[Argument] | None) -> str:
    return "missing" if arguments is None else f"({', '.join(map(str, arguments))})"


def different_lists(
    what: str, given: dict[str, list[Argument]], header: dict[str, list[Argument]], language: str
) -> Iterator[str]:
    for name in sorted(given.keys() | header.keys()):
        mine, theirs = given.get(name), header.get(name)
        if mine is None or theirs is None or len(mine) != len(theirs) or not all(
            is_same(a, b, language) for a, b in zip(mine, theirs)
        ):
            yield f"{what} {name}: {text_of(mine)}; the header: {text_of(theirs)}"


def different_numbers(
    what: str, given: dict[str, int], header: dict[str, int]
) -> Iterator[str]:
    for name in sorted(given.keys() | header.keys()):
        if given.get(name) != header.get(name):
            yield f"{what} {name}: {given.get(name)}; the header: {header.get(name)}"


def differences(given: Declared, header: Declared, language: str) -> Iterator[str]:
    """How declarations differ from those of the header, a line each."""
    yield from different_lists("function", given.functions, header.functions, language)
    yield from different_lists("struct", given.structs, header.structs, language)
    yield from different_numbers("status", given.statuses, header.statuses)
    yield from different_numbers("reason", given.reasons, header.reasons)
    yield from different_numbers("answer", given.taken, header.taken)
    yield from different_numbers("standing", given.standings, header.standings)
    if given.heights != header.heights:
        yield f"heights {given.heights}; the header: {header.heights}"


def all_differences() -> list[str]:
    """The differences of all languages from the header, each with its language."""
    header = declared_by_header()
    sources = declared_by_sources()
    for handle in HANDLES.values():     # compared by their pointers
        sources.structs[handle] = header.structs[handle]
    languages = {
        "themis_c": sources, "Python": declared_by_python(), "Rust": declared_by_rust(),
    }
    return [
        f"{language}: {difference}"
        for language, declared in languages.items()
        for difference in differences(declared, header, language)
    ]
