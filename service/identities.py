"""Who clients are: the operators' authority signs a certificate for each client, with the client's
number as its common name. A replica takes from a connection only transactions of that number.

FOLDER/clients has the key and the certificate of the authority, and those of clients, for all
sessions of FOLDER. Replicas need the authority's certificate alone, so their machines can't make a
client. `openssl` makes the certificates.
"""

from __future__ import annotations

import shutil
from pathlib import Path

from service.files import sync_file, sync_folder
from service.status import Exit, ServiceError
from service.tls import EC_KEY, make_certificate, openssl

CLIENTS, AUTHORITY = "clients", "authority"
AUTHORITY_FILE = "client_authority.crt"     # in the folder of a session
DAYS = 3650
FIRST = 1       # the client whose certificate `make` makes


def folder_of(session: Path) -> Path:
    """The folder of clients' keys of the cluster that has this session."""
    return session.parent / CLIENTS


def make_authority(cluster: Path) -> Path:
    """Makes the authority, and a first client, where there is none. Returns its certificate."""
    folder = cluster / CLIENTS
    certificate = folder / f"{AUTHORITY}.crt"
    if not certificate.exists():
        folder.mkdir(mode=0o700, exist_ok=True)
        make_certificate(folder, AUTHORITY, is_authority=True)
        sync_folder(cluster)
        make_client(folder, FIRST)
    return certificate


def take_clients(before: Path, cluster: Path) -> None:
    """Copies the authority and its clients from the cluster that this one continues: clients keep
    their certificates."""
    if (before / CLIENTS).is_dir() and not (cluster / CLIENTS).exists():
        shutil.copytree(before / CLIENTS, cluster / CLIENTS)
        sync_folder(cluster)


def give_authority(cluster: Path, session: Path) -> str:
    """Copies the authority's certificate to a session's folder; makes the authority where there is
    none. Returns the name of the copy."""
    shutil.copyfile(make_authority(cluster), session / AUTHORITY_FILE)
    sync_file(session / AUTHORITY_FILE)
    return AUTHORITY_FILE


def make_client(folder: Path, number: int) -> None:
    """Writes NUMBER.tls.key and NUMBER.crt, which the authority signs."""
    if not 0 < number < 1 << 32:
        raise ServiceError(Exit.USAGE, f"no client has the number {number}")
    key, certificate = folder / f"{number}.tls.key", folder / f"{number}.crt"
    signed = ["-CA", f"{AUTHORITY}.crt", "-CAkey", f"{AUTHORITY}.tls.key", "-days", str(DAYS)]
    use = ["-addext", "basicConstraints=critical,CA:FALSE",
           "-addext", "extendedKeyUsage=clientAuth"]
    openssl(folder, ["req", "-x509", *EC_KEY, *signed, *use, "-subj", f"/CN={number}"],
            key, certificate)


def key_pair(folder: Path, number: int) -> tuple[Path, Path]:
    """The certificate and the key of a client. They are made where the authority's key is there, as
    it is on the machine that made the cluster."""
    certificate, key = folder / f"{number}.crt", folder / f"{number}.tls.key"
    if not certificate.exists():
        if not (folder / f"{AUTHORITY}.tls.key").exists():
            text = f"{certificate}: client {number} has no certificate here"
            raise ServiceError(Exit.CONFIG, text)
        make_client(folder, number)
    return certificate, key
