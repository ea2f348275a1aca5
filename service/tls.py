"""Certificates for TLS, which the command `openssl` makes: each replica's own, which it signed itself,
and those of clients' authorities."""

from __future__ import annotations

import os
import subprocess
from collections.abc import Sequence
from pathlib import Path

from service.files import sync_file
from service.status import Exit, ServiceError

DAYS = 3650
EC_KEY = ["-newkey", "ec", "-pkeyopt", "ec_paramgen_curve:P-256", "-nodes"]


def make_certificate(
    folder: Path, name: str, hosts: Sequence[str] = (), is_authority: bool = False,
) -> tuple[str, str]:
    """Writes NAME.tls.key and NAME.crt, which signs itself; returns these names. The hosts, in
    numbers, are for clients that compare names, as `curl` does."""
    key, certificate = f"{name}.tls.key", f"{name}.crt"
    words = ["req", "-x509", *EC_KEY, "-days", str(DAYS), "-subj", f"/CN={name}"]
    if hosts:
        words += ["-addext", "subjectAltName=" + ",".join(f"IP:{it}" for it in hosts)]
    if is_authority:
        words += ["-addext", "keyUsage=critical,keyCertSign"]
    openssl(folder, words, folder / key, folder / certificate)
    return key, certificate


def openssl(folder: Path, words: list[str], key: Path, certificate: Path) -> None:
    """Calls the command `openssl`, which makes a key and a certificate. Both are durable then, and
    the key is its owner's alone from the beginning."""
    os.close(os.open(key, os.O_WRONLY | os.O_CREAT, 0o600))
    try:
        subprocess.run(["openssl", *words, "-keyout", key, "-out", certificate], cwd=folder,
                       check=True, capture_output=True)
    except (OSError, subprocess.CalledProcessError) as fault:
        cause = fault.stderr.decode() if isinstance(fault, subprocess.CalledProcessError) else fault
        text = f"openssl made no certificate ({cause}); `--plain` goes without TLS"
        raise ServiceError(Exit.CONFIG, text) from fault
    for path in (key, certificate, folder):
        sync_file(path)
