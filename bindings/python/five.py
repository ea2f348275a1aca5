#!/usr/bin/env python3
"""Five replicas in one process, each with its log in a file: what a host does, in Python.

    python3 bindings/python/five.py

Clients send transactions in two orders, and replica 4 hears of them from its peers alone. Some
messages are lost. Replica 3 gets no message for some views; then replica 0 gives it the blocks that
it lacks. Later replica 4 crashes: the end of its log is lost, and it recovers from the rest. At the
end the final batches of each replica are printed. Before the run, misuse is tried: each mistake has
to be answered with its error. The exit status is 1 where anything is otherwise.

No proof covers this program; what it owes to the library stands at the head of `themis.h`.
"""

from __future__ import annotations

import argparse
import os
import secrets
import sys
import tempfile
from collections.abc import Callable, Iterable
from dataclasses import replace
from pathlib import Path

import themis
from themis import (
    Arrived, Delivered, Event, Held, Reason, Replica, Role, Standing, Status, Taken, ThemisError,
    Tick, Tx,
)

N = 5
VIEWS = 20
LOST_OF = 61
SLOW = 3
LAST = 4
LOST_VIEWS = range(4, 8)
HEIGHT = themis.Height.HEIGHT_5_5
TXS = [Tx(1, 1, 11), Tx(2, 1, 22), Tx(3, 1, 33), Tx(4, 1, 44)]
GARBAGE = b"no message"
MOST_TOLD = 100         # receipts at a time
NO_STAMP = 1 << 63      # no honest clock reaches it


def prepare(replica: Replica, event: Event) -> bytes:
    """Prepares an event, and returns its record."""
    if not isinstance(event, Delivered):
        return replica.prepare(event)
    changes = replica.would_change(event.sender, event.data)
    record = replica.prepare(event)
    require(changes == bool(record), "an event that changes the replica has a record")
    return record


def text_of(batch: list[Tx]) -> str:
    return "[" + " ".join(".".join(map(str, tx)) for tx in sorted(batch)) + "]"


def require(is_so: bool, what: str) -> None:
    """Ends the program where something is otherwise than it has to be."""
    if not is_so:
        sys.exit(f"five.py: not so: {what}")


class Log:
    """A file that is appended to, and made durable."""

    def __init__(self, path: Path) -> None:
        self._file = open(path, "a+b", buffering=0)

    def read(self) -> bytes:
        self._file.seek(0)
        return self._file.read()

    def truncate(self, size: int) -> None:
        self._file.truncate(size)
        os.fsync(self._file.fileno())

    def append(self, data: bytes) -> None:
        """Appends bytes. They are durable when this returns."""
        if data:
            self._file.write(data)
            os.fsync(self._file.fileno())

    def close(self) -> None:
        self._file.close()


class Host:
    """A replica with its log. A host reads from its log what arrived before; here it is passed."""

    def __init__(
        self, role: Role, secret: bytes, keys: list[bytes], path: Path, arrived: list[Tx]
    ) -> None:
        self.me, self.arrived, self.settled = role.me, arrived, 0
        self.log = Log(path)
        self.replica = Replica.open(role, secret, keys, self.log.read())
        self.log.truncate(self.replica.used)
        if self.replica.used == 0:
            self.log.append(self.replica.header())
        self.settle()
        for tx in arrived:
            self.replica.restore(tx)

    # ---- receipt

    def receive(self, txs: list[Tx]) -> None:
        """Clients send transactions, and send them again."""
        for expected in (Taken.NEW, Taken.HELD):
            taken = [self.replica.submit(tx) for tx in txs]
            require(taken == [expected] * len(txs), f"they are {expected.name}")

    def hear(self, peer: Host) -> None:
        """A peer reports its receipts and its clock."""
        for tx, stamp in peer.replica.receipts(0, MOST_TOLD):
            taken = self.replica.hear(peer.me, tx, stamp)
            require(taken in (Taken.NEW, Taken.HELD), "a peer's receipt is taken")
        self.replica.hear_clock(peer.me, peer.replica.clock())

    def arrivals(self) -> list[Event]:
        """What arrives now."""
        txs, given = self.replica.arrive()
        require(given == 0, "no chain is stuck, so nothing is an exception")
        self.arrived += txs
        return [Arrived(tuple(txs))] if txs else []

    def settle(self) -> None:
        """What became final is no longer held."""
        for at in range(self.settled, self.replica.batch_count()):
            self.replica.settle(self.replica.batch(at))
            self.settled = at + 1

    # ---- turns

    def turns(self, events: Iterable[Event]) -> list[tuple[int, Delivered]]:
        """The turns on these events: one fsync for all. Returns what they send, and to whom."""
        waiting, sent = list(events), []
        while waiting:
            self.log.append(b"".join(prepare(self.replica, event) for event in waiting))
            again = []
            for event in waiting:
                try:
                    reason = self.replica.act()
                except themis.Again:
                    again.append(event)
                    continue
                if reason == Reason.DONE and isinstance(event, Delivered):
                    self.replica.accepted(event.data)       # where it is a block
                sent += [(to, Delivered(self.me, data)) for to, data in self.replica.sends()]
            waiting = again
        self.settle()
        return sent

    def batches(self) -> list[list[Tx]]:
        return [self.replica.batch(at) for at in range(self.replica.batch_count())]

    def close(self) -> None:
        self.replica.close()
        self.log.close()


class Run:
    """Five hosts, and the network between them."""

    def __init__(self, folder: Path) -> None:
        self.folder = folder
        self.secrets = [secrets.token_bytes(48) for _ in range(N)]
        self.keys = [themis.public_key(HEIGHT, secret) for secret in self.secrets]
        self.carried = 0
        self.hosts = [self.opened(me, []) for me in range(N)]

    def role(self, me: int) -> Role:
        return Role(n=N, f=1, p=1, q=1, views=VIEWS, me=me, height=HEIGHT)

    def path(self, me: int) -> Path:
        return self.folder / f"{me}.log"

    def opened(self, me: int, arrived: list[Tx]) -> Host:
        return Host(self.role(me), self.secrets[me], self.keys, self.path(me), arrived)

    def is_lost(self, view: int, to: int) -> bool:
        """Whether the network loses the next message: one of 61, and all to the slow replica for
        some views."""
        self.carried += 1
        return self.carried % LOST_OF == 0 or (to == SLOW and view in LOST_VIEWS)

    def deliver_all(self, view: int, sent: list[tuple[int, Delivered]]) -> None:
        """Delivers messages, and those that are sent on them, until there are none."""
        while sent:
            inboxes: list[list[Event]] = [[] for _ in range(N)]
            for to, message in sent:
                if not self.is_lost(view, to):
                    inboxes[to].append(message)
            sent = [send for host in self.hosts for send in host.turns(inboxes[host.me])]

    def receive(self) -> None:
        """Clients send to all replicas but the last one."""
        for host in self.hosts[:LAST]:
            host.receive(TXS if host.me % 2 == 0 else TXS[::-1])

    def play_view(self, view: int) -> None:
        sent = []
        for host in self.hosts:
            for peer in self.hosts:
                if peer is not host:
                    host.hear(peer)
        for host in self.hosts:
            sent += host.turns([*host.arrivals(), Tick(view)])
        self.deliver_all(view, sent)
        self.send_garbage(view % N)

    def send_garbage(self, to: int) -> None:
        """A message that is none has no record, and changes nothing."""
        size = self.path(to).stat().st_size
        sent = self.hosts[to].turns([Delivered(0, GARBAGE)])
        require(not sent and self.path(to).stat().st_size == size, "garbage changes nothing")

    def give_blocks(self, sender: int, to: int, above: int) -> None:
        """Gives a replica the blocks of views above one."""
        blocks = list(self.hosts[sender].replica.gives(above))
        self.hosts[to].turns([Delivered(sender, block) for block in blocks])
        held = list(self.hosts[to].replica.gives(above))
        require(len(blocks) > 1 and set(blocks) <= set(held), "it has the blocks")

    def crash(self, me: int) -> None:
        """A replica stops, and the last 3 bytes of its log were not durable."""
        self.hosts[me].close()
        path = self.path(me)
        size = path.stat().st_size
        os.truncate(path, size - 3)
        self.hosts[me] = self.opened(me, self.hosts[me].arrived)
        used = self.hosts[me].replica.used
        require(0 < used < size - 3, "the torn record is truncated")

    def play(self) -> None:
        self.receive()
        for view in range(VIEWS):
            self.play_view(view)
            if view == LOST_VIEWS[-1]:
                self.give_blocks(0, SLOW, LOST_VIEWS[0] - 1)
            if view == VIEWS // 2:
                self.crash(LAST)

    def report(self) -> None:
        """Prints the final batches, and checks that each list is a prefix of the longest."""
        lists = [host.batches() for host in self.hosts]
        longest = max(lists, key=len)
        agree = all(batches == longest[: len(batches)] for batches in lists)
        require(agree, "the lists are prefixes of one another")
        final = sorted(tx for batch in longest for tx in batch)
        require(final == TXS, "each transaction is final, once")
        for host, batches in zip(self.hosts, lists):
            replica = host.replica
            require(replica.known() == len(TXS), "all transactions arrived")
            require(all(replica.is_proposed(tx) for tx in TXS), "all are proposed")
            require(not replica.is_proposed(Tx(9, 9, 99)), "no other one is")
            require(replica.held() == Held(0, 0, 0), "no transaction is held any more")
            require(replica.submit(TXS[0]) == Taken.FINAL, "a final one is not received again")
            require(replica.standing(TXS[0]) == Standing.SETTLED, "it stays final")
            view, commit_view = replica.views()
            size = self.path(host.me).stat().st_size
            print(
                f"replica {host.me}: view {view}, committed view {commit_view}, "
                f"log of {size} bytes, batches", *(text_of(batch) for batch in batches)
            )

    def close(self) -> None:
        for host in self.hosts:
            host.close()


def refused(error: type[ThemisError], status: Status, call: Callable[[], object]) -> ThemisError:
    """The error that a call raises, which has to be of this kind and status."""
    try:
        call()
    except error as raised:
        require(raised.status == status, f"status {status.name}, and not {raised.status}")
        return raised
    sys.exit(f"five.py: no {error.__name__}")


def try_misuse(run: Run) -> None:
    """Mistakes of a host that the library can see."""
    role, keys, log = run.role(0), run.keys, run.path(0).read_bytes()

    def opening(
        role: Role = role, secret: bytes = run.secrets[0], keys: list[bytes] = keys,
        log: bytes = log,
    ) -> Callable[[], object]:
        return lambda: Replica.open(role, secret, keys, log)

    refused(ThemisError, Status.BAD_SETTING, opening(role=replace(role, f=2)))
    refused(ThemisError, Status.BAD_NUMBER, opening(role=replace(role, me=N)))
    refused(ThemisError, Status.BAD_HEIGHT, opening(role=replace(role, height=6)))
    refused(ThemisError, Status.FEW_SEALS, opening(role=replace(role, views=205)))
    refused(ThemisError, Status.KEY_COUNT, opening(keys=keys[:-1]))
    refused(themis.WrongSecret, Status.WRONG_SECRET, opening(secret=secrets.token_bytes(48)))
    refused(themis.WrongSecret, Status.WRONG_SECRET, opening(secret=run.secrets[1]))
    refused(themis.OtherLog, Status.OTHER_LOG, opening(log=run.path(1).read_bytes()))
    refused(themis.NoHeader, Status.NO_HEADER, opening(log=bytes(themis.HEADER_SIZE)))
    corrupt = refused(themis.CorruptLog, Status.CORRUPT_LOG, opening(log=log + bytes(64)))
    require(isinstance(corrupt, themis.CorruptLog) and corrupt.at == len(log), "its place")
    replica = Replica.open(role, run.secrets[0], keys, log)
    refused(themis.Unready, Status.UNREADY, replica.act)
    refused(themis.TooLong, Status.LONG, lambda: replica.prepare_deliver(256, GARBAGE))
    refused(themis.TooLong, Status.LONG, lambda: replica.would_change(256, GARBAGE))
    refused(ThemisError, Status.NONE, lambda: replica.record(0))
    refused(ThemisError, Status.NONE, lambda: replica.batch(0))
    refused(ThemisError, Status.BAD_NUMBER, lambda: replica.hear(N, TXS[0], 1))
    refused(ThemisError, Status.BAD_NUMBER, lambda: replica.hear_clock(N, 1))
    require(replica.hear(1, TXS[0], NO_STAMP) == Taken.BEYOND, "no honest clock reaches it")
    require(replica.standing(TXS[0]) == Standing.UNKNOWN, "it changes nothing")
    require(not replica.accepted(GARBAGE), "it has no block")
    verifier, other = (themis.Verifier(role.height, them) for them in (keys, keys[1:]))
    require(verifier.verify(0, 0, GARBAGE, 0, 1) == 0, "what is no message has no seals")
    replica.take_verified(verifier)
    refused(themis.OtherVerifier, Status.OTHER_VERIFIER, lambda: replica.take_verified(other))
    replica.close()
    replica.close()
    refused(themis.Vacant, Status.VACANT, replica.views)
    refused(themis.Vacant, Status.VACANT, lambda: replica.submit(TXS[0]))
    refused(themis.Vacant, Status.VACANT, lambda: replica.settle(TXS))
    refused(themis.Vacant, Status.VACANT, replica.arrive)
    refused(themis.Vacant, Status.VACANT, replica.held)


def try_history() -> None:
    """What may arrive in a session that follows another one, and what may not."""
    history, last, other = themis.History(), Tx(0, 0, 0), Tx(0, 2, 0)
    before = [*TXS, last]
    history.check(0, [], before)
    require(not history.add(0, TXS[:1]) and history.add(0, [last]), "the marker ends the session")
    left = history.carried(before)
    require(left == TXS[1:], "what is not final is carried over")
    history.check(1, before, [*left, Tx(9, 1, 9)])
    refused(themis.NotCarried, Status.NOT_CARRIED, lambda: history.check(1, before, left[::-1]))
    places = [
        refused(themis.AlreadyFinal, Status.ALREADY_FINAL, lambda: history.add(1, TXS[::-1])),
        refused(themis.AlreadyFinal, Status.ALREADY_FINAL, lambda: history.check(1, [], before)),
        refused(themis.OtherMarker, Status.OTHER_MARKER, lambda: history.check(1, [], [other])),
    ]
    require([getattr(it, "at", None) for it in places] == [3, 0, 0], "their places")
    history.check(1, before, left)


def main() -> int:
    parser = argparse.ArgumentParser(
        description=__doc__, formatter_class=argparse.RawDescriptionHelpFormatter
    )
    parser.parse_args()
    with tempfile.TemporaryDirectory() as folder:
        run = Run(Path(folder))
        try:
            try_misuse(run)
            try_history()
            run.play()
            run.report()
        finally:
            run.close()
    return 0


if __name__ == "__main__":
    sys.exit(main())
