"""Submits transactions to a cluster over HTTP, and follows the batches.

usage: python3 -m service.http_client FOLDER TX .. [--position P] [--wait SECONDS]

`Replica` has all calls of one replica, and needs Python's standard library alone. A batch is final for a client once f+1 replicas have
reported it at its position, since one of them is honest; and a client should submit to all
replicas.

With TLS each transaction goes over a connection with the certificate of its own client, as those of
`service.client` do.
"""

from __future__ import annotations

import argparse
import http.client
import json
import queue
import ssl
import sys
import threading
import time
from collections.abc import Callable, Iterator
from dataclasses import dataclass
from pathlib import Path
from typing import Any

from service.client import Batches, client_of
from service.core import tx_of_text
from service.folder import current, replica_ports, setups
from service.identities import FIRST, key_pair
from service.ports import Port, context_of
from service.status import Exit, ServiceError

ANSWER_WITHIN = 90.0        # a submission is answered once it is durable, within a minute
QUIET_FOR = 40.0            # a stream has an event or a comment every 15 seconds
RETRY_AFTER = 0.5
MAX_SUBMITTED = 1000        # transactions of one request: a body has at most 64 KB


class Refused(Exception):
    """A replica answers with an error; `word` says which."""

    def __init__(self, status: int, word: str, cause: str) -> None:
        super().__init__(f"{status} {word}: {cause}")
        self.status, self.word = status, word


@dataclass(frozen=True)
class Replica:
    """The client port of one replica. With TLS the context has the client's certificate."""

    host: str
    port: int
    tls: ssl.SSLContext | None = None

    def submit(self, txs: list[str]) -> int:
        """Submits transactions, each client.number.payload, and waits until they are durable.
        Returns how many are new to the replica."""
        new: int = self._call("POST", "/v1/transactions", json.dumps(txs))["new"]
        return new

    def state(self, tx: str) -> dict[str, Any]:
        """What has become of a transaction: `state` is unknown, waiting or final."""
        return self._call("GET", f"/v1/transactions/{tx}")

    def status(self) -> dict[str, Any]:
        """Where the replica stands."""
        return self._call("GET", "/v1/status")

    def batches(self, start: int, limit: int = 100) -> list[list[str]]:
        """Final batches from a position on."""
        found = self._call("GET", f"/v1/batches?from={start}&limit={limit}")["batches"]
        return [it["transactions"] for it in found]

    def follow(self, position: int) -> Iterator[tuple[int, list[str]]]:
        """Each final batch from a position on, with its position, until the connection ends."""
        connection = self._connect(QUIET_FOR)
        try:
            connection.request("GET", f"/v1/batches/events?from={position}")
            response = connection.getresponse()
            if response.status != 200:
                raise refusal(response.status, response.read())
            while line := response.readline():
                if line.startswith(b"data:"):
                    batch = json.loads(line[5:])
                    yield batch["position"], batch["transactions"]
        finally:
            connection.close()

    def _connect(self, timeout: float) -> http.client.HTTPConnection:
        if self.tls is None:
            return http.client.HTTPConnection(self.host, self.port, timeout=timeout)
        return http.client.HTTPSConnection(
            self.host, self.port, timeout=timeout, context=self.tls
        )

    def _call(self, method: str, path: str, body: str | None = None) -> dict[str, Any]:
        connection = self._connect(ANSWER_WITHIN)
        try:
            connection.request(method, path, body)
            response = connection.getresponse()
            data = response.read()
            if response.status != 200:
                raise refusal(response.status, data)
            answer: dict[str, Any] = json.loads(data)
            return answer
        finally:
            connection.close()


def refusal(status: int, data: bytes) -> Refused:
    """The error of an answer, which is JSON unless something between has answered."""
    try:
        answer = json.loads(data)
        return Refused(status, str(answer["error"]), str(answer["cause"]))
    except (ValueError, KeyError, TypeError):
        return Refused(status, "unknown", data[:200].decode(errors="replace"))


def replica_of(port: Port, client: int = FIRST) -> Replica:
    """A replica as a client of this cluster reaches it."""
    if port.certificate is None:
        return Replica(port.host, port.port)
    context = context_of(port.certificate, *key_pair(port.clients, client))
    return Replica(port.host, port.port, context)


def submit_all(replica: Replica, txs: list[str]) -> None:
    """Submits until the replica has taken all. Submitting a transaction again does no harm."""
    for start in range(0, len(txs), MAX_SUBMITTED):
        while True:
            try:
                replica.submit(txs[start : start + MAX_SUBMITTED])
                break
            except Refused as cause:
                if cause.status < 500:      # it would refuse them again
                    print(f"{replica.host}:{replica.port}: {cause}", file=sys.stderr)
                    return
            except (OSError, http.client.HTTPException):
                pass
            time.sleep(RETRY_AFTER)


Report = tuple[int, int, str]       # the replica, a position, and the batch there


def follow_on(
    number: int, replica: Replica, position: int, reports: queue.SimpleQueue[Report]
) -> None:
    """Reports all batches of a replica, for ever. Where a connection ends, it makes another."""
    while True:
        try:
            for at, txs in replica.follow(position):
                reports.put((number, at, " ".join(txs)))
                position = at + 1
        except (OSError, http.client.HTTPException, Refused, ValueError):
            pass
        time.sleep(RETRY_AFTER)


def start(task: Callable[..., None], *words: object) -> None:
    threading.Thread(target=task, args=words, daemon=True).start()


def run(
    replicas: Callable[[int], list[Replica]], f: int, txs: list[str], position: int, wait: float
) -> bool:
    """Submits to all replicas, and prints the final batches. Whether they hold all that was
    submitted within `wait` seconds. `replicas` has them as a client reaches them."""
    by_client: dict[int, list[str]] = {}
    for tx in txs:
        by_client.setdefault(client_of(tx), []).append(tx)
    for client, own in by_client.items():
        for replica in replicas(client):
            start(submit_all, replica, own)
    reports: queue.SimpleQueue[Report] = queue.SimpleQueue()
    for number, replica in enumerate(replicas(next(iter(by_client), FIRST))):
        start(follow_on, number, replica, position, reports)
    batches, missing, end = Batches(f + 1, position), set(txs), time.monotonic() + wait
    while missing or not txs:
        try:
            report = reports.get(timeout=max(0.0, end - time.monotonic()))
        except queue.Empty:
            return not txs
        first = batches.position
        for at, batch in enumerate(batches.hear(*report), first):
            ours = missing.intersection(batch.split())
            missing -= ours
            if ours or not txs:
                print(f"batch {at} {batch}", flush=True)
    return True


def arguments() -> argparse.Namespace:
    parser = argparse.ArgumentParser(description="Submits over HTTP and follows the batches.")
    parser.add_argument("folder", type=Path, help="the folder of `cluster make`")
    parser.add_argument("txs", nargs="*", help="transactions, client.number.payload")
    parser.add_argument("--position", type=int, default=0, help="the first batch to follow")
    parser.add_argument("--wait", type=float, default=60.0, help="seconds until it gives up")
    return parser.parse_args()


def perform(given: argparse.Namespace) -> int:
    try:
        for text in given.txs:
            tx_of_text(text)
    except ValueError as fault:
        raise ServiceError(Exit.USAGE, str(fault)) from fault
    session = current(given.folder.resolve())
    ports, f = replica_ports(session), setups(session)[0].cluster.f

    def replicas(client: int) -> list[Replica]:
        return [replica_of(port, client) for port in ports]

    is_done = run(replicas, f, given.txs, given.position, given.wait)
    return Exit.STOPPED if is_done else Exit.NOT_FINAL


def main() -> int:
    try:
        return perform(arguments())
    except ServiceError as fault:
        print(f"client: {fault}", file=sys.stderr)
        return fault.status


if __name__ == "__main__":
    sys.exit(main())
