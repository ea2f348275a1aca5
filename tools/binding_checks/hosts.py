"""Builds and runs the hosts in C, Python and Rust over a built library."""

from __future__ import annotations

import os
import pathlib
import re
import shutil
import subprocess
import sys
import tempfile
import time
from collections.abc import Callable, Iterator
from dataclasses import dataclass

sys.dont_write_bytecode = True

from binding_checks.declarations import declared_by_header  # noqa: E402
from common import TOP  # noqa: E402

C = TOP / "bindings/c"
PYTHON = TOP / "bindings/python"
RUST = TOP / "bindings/rust"
# What takes longer hangs.
MAX_SECONDS = 3600

WARNINGS = ["-std=c11", "-Wall", "-Wextra", "-Wpedantic", "-Wshadow", "-Werror"]
SANITIZERS = ["-g", "-fsanitize=address,undefined", "-fno-sanitize-recover=all"]
REFUSING = ["-Wl,--wrap=malloc,--wrap=realloc,--wrap=free"]
STEP = "3"  # with sanitizers only each third allocation fails
VALGRIND = ["valgrind", "--quiet", "--error-exitcode=1", "--leak-check=full"]


class Failed(Exception):
    """A command that failed, with what it printed."""


class Skipped(Exception):
    """A check that this machine can't do, and why."""


def need(program: str) -> str:
    """A program that a check needs: the check is skipped where the machine has none."""
    found = shutil.which(program)
    if found is None:
        raise Skipped(f"no {program}")
    return found


def run(words: list[str], env: dict[str, str] | None = None, cwd: pathlib.Path = TOP) -> str:
    """Runs a command, and returns what it wrote."""
    try:
        ran = subprocess.run(
            words, cwd=cwd, env={**os.environ, **(env or {})}, stdin=subprocess.DEVNULL,
            stdout=subprocess.PIPE, stderr=subprocess.STDOUT, text=True, timeout=MAX_SECONDS,
        )
    except subprocess.TimeoutExpired:
        raise Failed(f"{' '.join(words)}: over {MAX_SECONDS} seconds") from None
    if ran.returncode:
        raise Failed(f"{' '.join(words)}: status {ran.returncode}\n{ran.stdout}")
    return ran.stdout


@dataclass
class Hosts:
    """The hosts, the library's folder, and a folder for what is built."""

    library: pathlib.Path
    scratch: pathlib.Path

    def compiled(self, name: str, options: list[str]) -> str:
        """Compiles a host in C against the archive, and returns the path of the program."""
        compiler = need(os.environ.get("CC", "cc"))
        program = str(pathlib.Path(tempfile.mkdtemp(dir=self.scratch)) / name)
        source = str(C / f"{name}.c")
        archive = str(self.library / "libthemis.a")
        run([compiler, *WARNINGS, *options, f"-I{C}", source, archive, "-o", program])
        return program

    def exports(self) -> str:
        """The archive has the functions of the header, and no other of their kind."""
        listed = run([need("nm"), "-g", "--defined-only", str(self.library / "libthemis.a")])
        exported = set(re.findall(r" T (themis_\w+)$", listed, re.MULTILINE))
        declared = set(declared_by_header().functions)
        if exported != declared:
            names = " ".join(sorted(exported ^ declared))
            raise Failed(f"only in the archive or only in the header: {names}")
        return ""

    def c_alone(self) -> str:
        return run([self.compiled("five", [])])

    def c_in_cpp(self) -> str:
        """The header is one of C++ too."""
        compiler = need("c++")
        source = self.scratch / "header.cpp"
        source.write_text('#include "themis.h"\n')
        return run([compiler, "-Wall", "-Wextra", "-Wpedantic", "-Werror", f"-I{C}", "-c",
                    str(source), "-o", str(self.scratch / "header.o")])

    def sanitized(self, name: str, options: list[str], *words: str) -> str:
        try:
            program = self.compiled(name, [*SANITIZERS, *options])
        except Failed as fault:
            if "libasan" in str(fault) or "libubsan" in str(fault):
                raise Skipped("the compiler has no sanitizers") from None
            raise
        return run([program, *words])

    def c_sanitized(self) -> str:
        return self.sanitized("five", [])

    def c_under_valgrind(self) -> str:
        need("valgrind")
        return run([*VALGRIND, self.compiled("five", ["-g"])])

    def c_misuse(self) -> str:
        return run([self.compiled("misuse", [])])

    def c_misuse_sanitized(self) -> str:
        return self.sanitized("misuse", [])

    def c_logs(self) -> str:
        return run([self.compiled("log", [])])

    def c_logs_sanitized(self) -> str:
        return self.sanitized("log", [])

    def c_refused(self) -> str:
        return run([self.compiled("oom", REFUSING)])

    def c_refused_sanitized(self) -> str:
        return self.sanitized("oom", REFUSING, STEP)

    def python(self) -> str:
        env = {
            "THEMIS_LIBRARY": str(self.library / "libthemis.so"), "PYTHONDONTWRITEBYTECODE": "1",
        }
        return run([sys.executable, str(PYTHON / "five.py")], env)

    def rust(self) -> str:
        need("cargo")
        env = {
            "THEMIS_LIB_DIR": str(self.library), "CARGO_TARGET_DIR": str(self.scratch / "rust"),
        }
        return run(["cargo", "test", "--offline", "--locked", "--quiet"], env, RUST)

    def checks(self) -> Iterator[tuple[str, Callable[[], str]]]:
        yield "the exports of the archive", self.exports
        yield "C++: the header", self.c_in_cpp
        yield "C: five replicas", self.c_alone
        yield "C: five replicas, under valgrind", self.c_under_valgrind
        yield "C: five replicas, with sanitizers", self.c_sanitized
        yield "C: what is refused", self.c_misuse
        yield "C: what is refused, with sanitizers", self.c_misuse_sanitized
        yield "C: logs of others and damaged ones", self.c_logs
        yield "C: logs of others and damaged ones, with sanitizers", self.c_logs_sanitized
        yield "C: each allocation refused", self.c_refused
        yield "C: each allocation refused, with sanitizers", self.c_refused_sanitized
        yield "Python: five replicas", self.python
        yield "Rust: five replicas", self.rust


@dataclass(frozen=True)
class Outcome:
    """How a check ended, with a line for those that did not run."""

    is_failed: bool = False
    skipped: str | None = None


def outcome(name: str, check: Callable[[], str], verbose: bool) -> Outcome:
    """Runs a check, prints a line, and returns how it ended."""
    start = time.monotonic()
    try:
        printed = check()
    except Skipped as why:
        print(f"skipped {name}: {why}\n", end="", flush=True)
        return Outcome(skipped=f"{name} ({why})")
    except (Failed, OSError) as fault:
        print(f"FAILED  {name}: {fault}\n", end="", flush=True)
        return Outcome(is_failed=True)
    line = f"ok      {name}, {time.monotonic() - start:.1f} s\n"
    print(line + (printed if verbose else ""), end="", flush=True)
    return Outcome()
