"""The folder of a cluster.

Where sessions follow one another, `replicas` has a folder for each replica, as on a machine of its
own. Otherwise there are sessions 1, 2 and so on, each with its keys, logs and configurations. Where
a function takes a `session`, it takes `replicas` too.
"""

from __future__ import annotations

from pathlib import Path

from service.config import Config, Setup, address
from service.identities import folder_of
from service.ports import Port
from service.status import Exit, ServiceError

RESULT = "result.json"      # in the folder of a session that was closed
REPLICAS = "replicas"


def is_endless(session: Path) -> bool:
    """Whether sessions follow one another there."""
    return session.name == REPLICAS


def config_path(session: Path, replica: int) -> Path:
    """The configuration of a replica. Its other files are next to it."""
    own = session / str(replica) if is_endless(session) else session
    return own / f"{replica}.toml"


def sessions(folder: Path) -> list[Path]:
    """The folders of the sessions, in their order."""
    found = [it for it in folder.iterdir() if it.name.isdigit()] if folder.is_dir() else []
    if not found:
        raise ServiceError(Exit.USAGE, f"{folder} has no session: `cluster make` makes one")
    return sorted(found, key=lambda it: int(it.name))


def setups(session: Path) -> list[Setup]:
    """The configurations of all replicas of a session."""
    found = session.glob("*/*.public.toml") if is_endless(session) else session.glob("*.toml")
    count = len([it for it in found if it.name.split(".")[0].isdigit()])
    return [Config.load(config_path(session, i)) for i in range(count)]


def replica_ports(session: Path) -> list[Port]:
    """Where clients and operators reach the replicas of a session."""
    found = setups(session)
    cluster, clients = found[0].cluster, folder_of(session)
    files: list[Path | None] = [found[0].folder / it for it in cluster.certificates]
    certificates = files if cluster.transport == "tls" else [None] * cluster.n
    return [
        Port(*address(at), setup.operator_path(), certificate, clients)
        for at, setup, certificate in zip(cluster.clients, found, certificates)
    ]


def current(folder: Path) -> Path:
    """Where sessions follow one another, `replicas`; otherwise the first session that was not
    closed, or the last one, where all were."""
    if (folder / REPLICAS).is_dir():
        return folder / REPLICAS
    found = sessions(folder)
    return next((it for it in found if not (it / RESULT).exists()), found[-1])


def chosen(folder: Path, number: int | None) -> Path:
    """The session with a number, or the current one."""
    if number is None:
        return current(folder)
    found = [it for it in sessions(folder) if it.name == str(number)]
    if not found:
        raise ServiceError(Exit.USAGE, f"{folder} has no session {number}")
    return found[0]
