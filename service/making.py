"""Makes the files of a cluster: of one whose sessions follow one another, by `themisd init` and
`themisd join` as its operators would, or of one session, with keys, certificates, configurations,
and logs that hold their headers."""

from __future__ import annotations

import os
import random
import secrets
import shutil
import socket
from collections.abc import Iterable
from dataclasses import dataclass, field
from pathlib import Path
from typing import Any

from service import core, log
from service.config import (
    Cluster, Config, Setup, checked, config_error, table_of, toml_of, write_toml,
)
from service.core import SECRET_BYTES, Core
from service.files import sync_folder, write_whole
from service.folder import REPLICAS, config_path
from service.identities import give_authority, make_authority, take_clients
from service.program import call
from service.status import Exit, ServiceError
from service.tls import make_certificate

HOST = "127.0.0.1"
FIRST_PORT, LAST_PORT = 20_000, 32_000      # below the ports that systems give to clients
CLUSTER_FILE, SETTLED = "cluster.toml", "settled.txt"


@dataclass(frozen=True)
class Plan:
    """What `make` is given."""

    n: int = 5
    f: int = 1
    p: int = 1
    q: int = 1
    views: int = 2600
    height: int = 510
    transport: str = "tls"
    more: dict[str, Any] = field(default_factory=dict)      # of each replica's configuration
    deeds: dict[int, list[str]] = field(default_factory=dict)
    ports: tuple[int, ...] = ()     # for peers, then for clients; drawn where there are none
    after: Path | None = None       # where sessions follow one another: the cluster it continues


def held_ports(count: int) -> list[socket.socket]:
    """Sockets that are bound to ports of the loopback interface. While they are open, nobody else
    draws these ports; replicas listen on them all the same, as both sides allow the reuse."""
    held: list[socket.socket] = []
    for port in random.Random(os.urandom(8)).sample(range(FIRST_PORT, LAST_PORT), 500):
        tried = socket.socket()
        try:
            tried.bind((HOST, port))
        except OSError:
            tried.close()
            continue
        tried.setsockopt(socket.SOL_SOCKET, socket.SO_REUSEADDR, 1)
        held.append(tried)
        if len(held) == count:
            return held
    raise ServiceError(Exit.NETWORK, f"fewer than {count} ports are free")


def ports_of(held: Iterable[socket.socket]) -> tuple[int, ...]:
    return tuple(it.getsockname()[1] for it in held)


def free_ports(count: int) -> tuple[int, ...]:
    """Ports of the loopback interface that nothing uses now."""
    held = held_ports(count)
    ports = ports_of(held)
    for it in held:
        it.close()
    return ports


def write_secret(path: Path) -> bytes:
    """Draws 48 bytes from the system into a file that its owner alone can read."""
    secret = secrets.token_bytes(SECRET_BYTES)
    file = os.open(path, os.O_WRONLY | os.O_CREAT | os.O_EXCL, 0o600)
    with os.fdopen(file, "w") as out:
        out.write(secret.hex())
        out.flush()
        os.fsync(out.fileno())
    return secret


def make_endless(folder: Path, plan: Plan) -> Path:
    """Makes a cluster whose sessions follow one another: a folder for each replica. Its secret is
    drawn there, and leaves it never. It is made aside, and is there only once it is complete."""
    at, aside = folder / REPLICAS, folder / f"{REPLICAS}.new"
    if at.exists() or (folder / "1").exists():
        raise ServiceError(Exit.USAGE, f"{folder} has a cluster already")
    shutil.rmtree(aside, ignore_errors=True)
    aside.mkdir(parents=True)
    try:
        init_all(aside, plan)
        join_all(aside, plan)
        aside.rename(at)
        sync_folder(folder)
    finally:
        shutil.rmtree(aside, ignore_errors=True)
    return at


def init_all(at: Path, plan: Plan) -> None:
    """What each replica has of its own, and its public part."""
    ports = [f"{HOST}:{port}" for port in plan.ports or free_ports(2 * plan.n)]
    first = 0 if plan.after is None else last_session(plan.after) + 1
    for i in range(plan.n):
        call("init", at / str(i), "--replica", str(i), "--height", str(plan.height),
             "--peer", ports[i], "--client", ports[plan.n + i], "--first-session", str(first))


def last_session(before: Path) -> int:
    """The session with which the operators end a cluster."""
    path = config_path(before / REPLICAS, 0)
    last = Config.load(path).config.last_session
    if last is None:
        raise ServiceError(Exit.USAGE, f"{path} has no last_session: the cluster goes on")
    return last


def what_continues(before: Path, replica: int) -> Path:
    """What `join` gets of the cluster before: the folder of the replica with this number, or for a
    new member a store."""
    own = config_path(before / REPLICAS, replica).parent
    return own if own.is_dir() else config_path(before / REPLICAS, 0).with_name("0.store")


def join_all(at: Path, plan: Plan) -> None:
    """The rest, from the public parts of all."""
    parts = [at / str(i) / f"{i}.public.toml" for i in range(plan.n)]
    is_tls = plan.transport == "tls"
    if is_tls and plan.after is not None:
        take_clients(plan.after, at.parent)
    how: list[str | Path] = ["--plain"]
    if is_tls:
        how = ["--client-authority", make_authority(at.parent)]
    for i in range(plan.n):
        after: list[str | Path] = []
        if plan.after is not None:
            after = ["--after", what_continues(plan.after, i)]
        call("join", at / str(i), "--replica", str(i), "--f", str(plan.f), "--gamma",
             f"{plan.p}/{plan.q}", "--views", str(plan.views), *how, *after, *parts)
        deeds = {"deeds": plan.deeds[i]} if i in plan.deeds else {}
        add_keys(at / str(i) / f"{i}.toml", plan.more | deeds)


def add_keys(config: Path, more: dict[str, Any]) -> None:
    """Adds keys to a configuration that `join` has made."""
    try:
        lines = [f"{key} = {toml_of(value)}\n" for key, value in checked(Config, more).items()]
    except ValueError as fault:
        raise config_error(config, str(fault)) from fault
    write_whole(config, config.read_text() + "".join(lines))
    Config.load(config)     # a key that no configuration has, or that is there twice


def make(folder: Path, plan: Plan, session: int = 1) -> Path:
    """Makes the folder of a session: keys, certificates, configurations, and new logs. It is made
    aside, and is there only once it is complete."""
    at, aside = folder / str(session), folder / f"{session}.new"
    if at.exists():
        raise ServiceError(Exit.USAGE, f"{at} exists already")
    shutil.rmtree(aside, ignore_errors=True)
    aside.mkdir(parents=True)
    try:
        fill(aside, plan, session)
        aside.rename(at)
        sync_folder(folder)
    except core.ThemisError as fault:
        raise ServiceError(Exit.USAGE, f"no such cluster: {fault}") from fault
    finally:
        shutil.rmtree(aside, ignore_errors=True)
    return at


def fill(at: Path, plan: Plan, session: int) -> None:
    """Writes the files of a session into a new folder."""
    keys = [write_secret(at / f"{i}.secret") for i in range(plan.n)]
    is_tls = plan.transport == "tls"
    tls = [make_certificate(at, str(i), [HOST]) for i in range(plan.n) if is_tls]
    authority = give_authority(at.parent, at) if is_tls else ""
    ports = [f"{HOST}:{port}" for port in plan.ports or free_ports(2 * plan.n)]
    cluster = Cluster(
        session=session, n=plan.n, f=plan.f, p=plan.p, q=plan.q, views=plan.views,
        height=plan.height, peers=ports[:plan.n], clients=ports[plan.n:],
        publics=[core.public_key(plan.height, secret).hex() for secret in keys],
        certificates=[certificate for _, certificate in tls], transport=plan.transport,
        client_authority=authority,
    )
    write_toml(at / CLUSTER_FILE, cluster)
    for i, secret in enumerate(keys):
        own = {
            "replica": i, "cluster_file": CLUSTER_FILE, "secret_file": f"{i}.secret",
            "log": f"{i}.log", "tls_key": tls[i][0] if tls else "", "carried": f"{i}.carried",
            "settled": SETTLED,
            "deeds": plan.deeds.get(i, []),
        }
        config = table_of(Config, plan.more | own, at / f"{i}.toml")
        write_toml(at / f"{i}.toml", config)
        replica = Core(Setup(config, cluster, at).role(), secret, cluster.public_keys(), b"")
        log.create(at / f"{i}.log", replica.header())
        replica.close()
