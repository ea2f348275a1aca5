"""Configurations, in TOML: one file that all replicas share, and one for each replica.

The shared file holds what is public. Paths are relative to the folder of the file that names them.
"""

from __future__ import annotations

import json
import tomllib
from dataclasses import astuple, dataclass, field, fields
from hashlib import sha256
from pathlib import Path
from typing import Any, TypeVar

from service.core import KEY_BYTES, SECRET_BYTES, Role, Tx, tx_of_text
from service.files import write_whole
from service.status import Exit, ServiceError

TRANSPORTS = ("tls", "plain")


@dataclass(frozen=True)
class After:
    """Where the cluster ended that another one continues."""

    cluster: str        # the digest that names it, in hex
    session: int        # its last one
    position: int       # how many batches were final by then
    digest: str         # chains all of these, in hex


@dataclass(frozen=True)
class Cluster:
    """What all replicas of a session agree on."""

    session: int                # counted from 1; where sessions follow one another, from 0
    n: int
    f: int
    p: int
    q: int
    views: int                  # the last view of the session
    height: int                 # of the keys: 5, 10, 505 or 510, as in themis.h
    peers: list[str]            # host:port where each replica takes its peers
    clients: list[str]          # host:port where each replica takes clients
    publics: list[str]          # public keys, 60 bytes each, in hex
    certificates: list[str]     # a file for each replica, in PEM; empty without TLS
    transport: str = "tls"      # "plain" turns authentication and encryption off
    client_authority: str = ""  # the certificate that signs those of clients; empty without TLS
    after: After | None = None  # where sessions follow one another: what the cluster continues

    def check(self, path: Path) -> None:
        """Raises where the lists do not have an item for each replica."""
        lists = [self.peers, self.clients, self.publics]
        if self.transport == "tls":
            lists.append(self.certificates)
            if not self.client_authority:
                raise config_error(path, "client_authority is missing: who signs the certificates"
                                         " of clients")
        if any(len(it) != self.n for it in lists):
            raise config_error(path, f"each list needs {self.n} items")
        if self.transport not in TRANSPORTS:
            raise config_error(path, f"transport is one of {', '.join(TRANSPORTS)}")
        if any(len(key) != KEY_BYTES for key in self.public_keys()):
            raise config_error(path, f"a public key has {KEY_BYTES} bytes")
        for text in self.peers + self.clients:
            address(text)

    def public_keys(self) -> list[bytes]:
        return [bytes.fromhex(key) for key in self.publics]

    def digest(self) -> bytes:
        """Names the session: peers with another digest are refused."""
        agreed = [self.session, self.n, self.f, self.p, self.q, self.views, self.height]
        after = [list(astuple(self.after))] if self.after else []
        return sha256(json.dumps([*agreed, self.publics, *after]).encode()).digest()


@dataclass(frozen=True)
class Config:
    """What one replica is given. Times are in seconds."""

    replica: int
    cluster_file: str
    secret_file: str                # random bytes, in hex; readable by its owner alone
    log: str = ""                   # of the one session
    tls_key: str = ""               # the private key of this replica's certificate
    carried: str = ""               # transactions of the session before that were not final
    settled: str = ""               # those that were final in any session before
    timeout: float = 0.3            # least time without a new view before a tick
    max_timeout: float = 10.0
    interval: float = 0.0           # least time between proposals: saves views, costs latency
    hold: bool = True               # proposals wait while no transaction does
    share_after: float = 0.5        # time after which peers are told of waiting ones again
    max_waiting: int = 16_000       # of clients, that wait; above it clients hear `busy`
    max_of_client: int = 1000       # of these, of one client
    hold_asks: bool = True          # an Ask waits until f+1 replicas are in its view
    fetch_rate: float = 100.0       # blocks a second that a peer may ask for
    view_floor: float = 0.025       # least time between views after some that were free
    idle_view_floor: float = 0.1    # the same while little waits
    sessions: bool = False          # sessions follow one another; the secret is a master secret
    keep_logs: bool = False         # the logs of sessions that have ended stay
    accounts: int = 8               # accounts of such sessions that stay; older ones go
    last_session: int | None = None # no later one is opened: the cluster ends with it
    seal_threads: int | None = None # threads that check seals; none: by the processors
    fsync: bool = True
    allow_faults: bool = False      # for tests: the operator may order a `fault`
    log_receipts: bool = False      # for tests: REPLICA.receipts says what was received and heard
    deeds: list[str] = field(default_factory=list)      # for tests: what a faulty replica does

    @classmethod
    def load(cls, path: Path) -> Setup:
        """Reads both files, and checks them; ServiceError with the cause."""
        config = read_toml(cls, path)
        shared = path.parent / config.cluster_file
        cluster = read_toml(Cluster, shared)
        cluster.check(shared)
        if not 0 <= config.replica < cluster.n:
            raise config_error(path, f"no replica {config.replica} of {cluster.n}")
        return Setup(config, cluster, path.parent.resolve())


@dataclass(frozen=True)
class Setup:
    """A replica's configuration with that of its cluster, and the folder of its files."""

    config: Config
    cluster: Cluster
    folder: Path

    @property
    def me(self) -> int:
        return self.config.replica

    def role(self) -> Role:
        it = self.cluster
        return Role(n=it.n, f=it.f, p=it.p, q=it.q, views=it.views, me=self.me, height=it.height)

    def log_path(self) -> Path:
        return self.folder / self.config.log

    def account_path(self) -> Path:
        """What `themisd account` printed, where the secret is not here."""
        return self.folder / f"{self.me}.account"

    def secret_path(self) -> Path:
        return self.folder / self.config.secret_file

    def operator_path(self) -> Path:
        """The operator's socket."""
        return self.folder / f"{self.me}.sock"

    def secret(self) -> bytes:
        """The 48 bytes of the secret file, which others must not be able to read."""
        path = self.secret_path()
        try:
            if path.stat().st_mode & 0o077:
                raise config_error(path, "others can read this secret: chmod 600")
            secret = bytes.fromhex(path.read_text())
        except (OSError, ValueError) as fault:
            raise config_error(path, str(fault)) from fault
        if len(secret) != SECRET_BYTES:
            raise config_error(path, f"a secret has {SECRET_BYTES} bytes")
        return secret

    def carried_over(self) -> list[Tx]:
        """What was not final in the session before, in the order in which it arrived here."""
        return self._txs(self.config.carried)

    def settled_before(self) -> set[Tx]:
        """What was final in an earlier session."""
        return set(self._txs(self.config.settled))

    def _txs(self, name: str) -> list[Tx]:
        """The transactions of a file, which the first session does not have."""
        path = self.folder / name
        if self.cluster.session == 1 or not name:
            return []
        try:
            return [tx_of_text(text) for text in path.read_text().split()]
        except FileNotFoundError as fault:
            raise config_error(path, "it is missing: `cluster next` writes it") from fault
        except (OSError, ValueError) as fault:
            raise config_error(path, str(fault)) from fault


def config_error(path: Path, text: str) -> ServiceError:
    return ServiceError(Exit.CONFIG, f"{path}: {text}")


Table = TypeVar("Table", After, Cluster, Config)


def read_toml(kind: type[Table], path: Path) -> Table:
    """A dataclass from a TOML file."""
    try:
        table = tomllib.loads(path.read_text())
    except (OSError, ValueError) as fault:
        raise config_error(path, str(fault)) from fault
    return table_of(kind, table, path)


def table_of(kind: type[Table], table: dict[str, Any], path: Path) -> Table:
    """A dataclass from the table of a file, whose keys and kinds of values have to be its own."""
    try:
        return kind(**checked(kind, table))
    except (TypeError, ValueError) as fault:
        raise config_error(path, str(fault)) from fault


KINDS: dict[str, tuple[type, ...]] = {
    "int": (int,), "int | None": (int,), "str": (str,), "bool": (bool,), "float": (int, float),
    "list[str]": (list,), "After | None": (dict,),
}


def checked(kind: type[Table], table: dict[str, Any]) -> dict[str, Any]:
    """The table, where each value has the kind of its field. A table in it is one of [after]."""
    values = dict(table)
    for it in fields(kind):
        value = table.get(it.name)
        if value is None:
            continue
        is_right = isinstance(value, KINDS[str(it.type)])
        if isinstance(value, bool) and it.type != "bool" or not is_right:
            raise ValueError(f"{it.name} has to be of kind {it.type}")
        if isinstance(value, dict):
            values[it.name] = After(**checked(After, value))
    return values


def toml_of(value: Any) -> str:
    """A number, text, truth value or list as TOML writes it."""
    if isinstance(value, bool):
        return str(value).lower()
    if isinstance(value, list):
        return "[" + ", ".join(map(toml_of, value)) + "]"
    return json.dumps(value) if isinstance(value, str) else repr(value)


def write_toml(path: Path, table: Cluster | Config) -> None:
    """Writes a table of one session: what it can't have is None, and left out."""
    values = ((it.name, getattr(table, it.name)) for it in fields(table))
    lines = [f"{name} = {toml_of(value)}\n" for name, value in values if value is not None]
    write_whole(path, "".join(lines))


def address(text: str) -> tuple[str, int]:
    """The host and port of host:port; ValueError where the text is none."""
    host, _, port = text.rpartition(":")
    if not host or not port.isdigit() or not 0 < int(port) < 1 << 16:
        raise ValueError(f"no address: {text}")
    return host, int(port)
