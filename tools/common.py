"""What several scripts of this folder share."""

import argparse
import pathlib
import shlex

TOP = pathlib.Path(__file__).resolve().parent.parent
PROGRAM = TOP / "crates/themis_main/out/themis_main"
EXAMPLES = TOP / "examples"


def parser_of(doc: str | None) -> argparse.ArgumentParser:
    """A parser whose help is the docstring of a script, with its line breaks."""
    return argparse.ArgumentParser(
        description=doc, formatter_class=argparse.RawDescriptionHelpFormatter
    )


def add_program(parser: argparse.ArgumentParser) -> None:
    """Adds the optional argument PROGRAM, a command line."""
    parser.add_argument(
        "program",
        nargs="?",
        metavar="PROGRAM",
        help=f"the program to run (default: {PROGRAM.relative_to(TOP)})",
    )


def command_line(parser: argparse.ArgumentParser, program: str | None) -> list[str]:
    """The command line of the program; ends the script where it is not built."""
    if program:
        return shlex.split(program)
    if not PROGRAM.exists():
        parser.error("the program is not built: `rt run` in crates/themis_main builds it")
    return [str(PROGRAM)]
