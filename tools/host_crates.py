"""The crates and the library that the host is built with."""

import os
import pathlib
import re
import shutil
import subprocess
import sys

from common import TOP

HOST = TOP / "host"
DEBIAN = pathlib.Path("/usr/share/cargo/registry")
OLDEST_CARGO = (1, 82)
# What takes longer hangs. On a busy machine nothing may count as missing because it is slow.
MAX_SECONDS = 1800
# Crates that the host names, as Debian packages them.
CRATES = (
    "bytes", "clap", "hyper", "libc", "rand", "rand-chacha", "rusqlite", "rustls-pemfile", "serde",
    "serde-json", "sha2", "socket2", "tokio", "tokio-rustls", "toml", "tracing", "tracing-subscriber",
)
# One of them is the library that rusqlite is linked with.
PACKAGES = ["libsqlite3-dev", *(f"librust-{crate}-dev" for crate in CRATES)]
INSTALL = ["apt-get", "install", "-y", "--no-install-recommends", *PACKAGES]


class Missing(Exception):
    """What the machine lacks, so that the host can't be built here."""


class NoCrates(Missing):
    """There are no crates. INSTALL installs them."""


def library_folder() -> pathlib.Path:
    """Where libthemis.a is. Without it the script ends, in the gate too."""
    folder = pathlib.Path(os.environ.get("THEMIS_LIB_DIR", TOP / "out")).resolve()
    if not (folder / "libthemis.a").exists():
        sys.exit(f"there is no {folder}/libthemis.a: tools/build-library makes it")
    return folder


def target_folder() -> pathlib.Path:
    """Where cargo puts what it makes."""
    return HOST / os.environ.get("CARGO_TARGET_DIR", "target")


def succeeds(words: list[str], limit: float, where: pathlib.Path = HOST) -> bool:
    """Whether a command succeeds. What it prints is not shown."""
    env = os.environ | {"DEBIAN_FRONTEND": "noninteractive"}
    try:
        done = subprocess.run(
            words, cwd=where, stdin=subprocess.DEVNULL, capture_output=True, env=env, timeout=limit
        )
    except (subprocess.TimeoutExpired, FileNotFoundError):
        return False
    return done.returncode == 0


def resolves(cargo: list[str], host: pathlib.Path) -> bool:
    """Whether cargo finds all crates. It writes a new lock file.

    A lock file names the versions of one source alone, so none is kept in the repository.
    """
    (host / "Cargo.lock").unlink(missing_ok=True)
    return succeeds([*cargo, "generate-lockfile"], MAX_SECONDS, host)


def links_sqlite(scratch: pathlib.Path) -> bool:
    """Whether the library of SQLite is there to be linked with."""
    made = ["-shared", "-x", "c", os.devnull, "-lsqlite3", "-o", str(scratch / "sqlite.so")]
    return succeeds(["cc", *made], MAX_SECONDS)


def is_installed() -> bool:
    """Installs Debian's packages, and says whether that succeeds."""
    succeeds(["apt-get", "update"], MAX_SECONDS)
    return succeeds(INSTALL, MAX_SECONDS)


def cargo_version() -> tuple[int, int]:
    """The version of cargo; zeros where there is none that runs."""
    if not shutil.which("cargo"):
        return (0, 0)
    asked = subprocess.run(["cargo", "--version"], capture_output=True, text=True)
    found = re.match(r"cargo (\d+)\.(\d+)", asked.stdout)
    return (int(found[1]), int(found[2])) if found else (0, 0)


def cargo_words(
    scratch: pathlib.Path,
    host: pathlib.Path = HOST,
    *,
    is_debian_first: bool = False,
    may_install: bool = False,
) -> list[str]:
    """How cargo is called: with the public registry, or with Debian's packages.

    Those are taken where the registry can't be reached, or first of all, since their versions stay
    the same.
    """
    if cargo_version() < OLDEST_CARGO:
        raise Missing("there is no cargo, or one that is too old")
    config = scratch / "debian.toml"
    config.write_text(
        '[source.crates-io]\nreplace-with = "debian"\n'
        f'[source.debian]\ndirectory = "{DEBIAN}"\n'
    )
    if not links_sqlite(scratch) and not (may_install and is_installed()):
        raise NoCrates("there is no library of SQLite to link with")
    public, debian = ["cargo"], ["cargo", "--config", str(config), "--offline"]
    if not is_debian_first and resolves(public, host):
        return public
    if resolves(debian, host) or may_install and is_installed() and resolves(debian, host):
        return debian
    if is_debian_first and resolves(public, host):
        return public
    raise NoCrates("no registry of crates is reachable, and not all of Debian's packages are here")
