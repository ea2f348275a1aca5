"""Five cores of one process, with a queue between them: they make the logs that tests of the audit
read. Nothing is random but keys, so a run goes the same way each time.
"""

from __future__ import annotations

import secrets
from collections import deque
from collections.abc import Iterable

from service import core
from service.core import Again, Arrived, Core, Delivered, Event, Role, Tick, Tx, public_key

HEIGHT = 505            # 1,024 seals, so 204 views; grown within a moment
N, F, VIEWS = 5, 1, 200


class Host:
    """One core, and its log."""

    def __init__(self, net: Net, me: int) -> None:
        self.net, self.me = net, me
        self.role = Role(n=N, f=F, p=1, q=1, views=VIEWS, me=me, height=HEIGHT)
        self.core = Core(self.role, net.secrets[me], net.publics, b"")
        self.records = [self.core.header()]

    def take(self, events: Iterable[Event]) -> None:
        """Turns on events, and on those that had to be prepared again."""
        todo = deque(events)
        while todo:
            event = todo.popleft()
            self.records.append(self.core.prepare(event))
            try:
                self.core.act()
            except Again:
                todo.append(event)
                continue
            self.net.sent += [(self.me, to, data) for to, data in self.core.sends()]

    def final(self) -> int:
        """How many transactions are final."""
        return sum(len(self.core.batch(at)) for at in range(self.core.batch_count()))

    def crash(self, forgotten: int) -> None:
        """A crash, and a start from the log without its last records."""
        whole = [it for it in self.records if it]
        self.records = whole[:len(whole) - forgotten]
        self.core.close()
        data = b"".join(self.records)
        self.core = Core(self.role, self.net.secrets[self.me], self.net.publics, data)


class Net:
    """The five, and what is on its way between them."""

    def __init__(self) -> None:
        self.secrets = [secrets.token_bytes(core.SECRET_BYTES) for _ in range(N)]
        self.publics = [public_key(HEIGHT, secret) for secret in self.secrets]
        self.sent: deque[tuple[int, int, bytes]] = deque()
        self.hosts: list[Host] = []
        self.hosts += [Host(self, me) for me in range(N)]

    def submit(self, txs: list[Tx]) -> None:
        """All receive these, in this order."""
        for host in self.hosts:
            host.take([Arrived(tuple(txs))])

    def run_until_final(self, count: int) -> None:
        """Rounds until all have so many final transactions. In each, what was sent in the one before
        is delivered. Where nothing was, all ask for the next view."""
        while any(host.final() < count for host in self.hosts):
            now, self.sent = self.sent, deque()
            for sender, to, data in now:
                self.hosts[to].take([Delivered(sender, data)])
            if not self.sent:
                floor = max(host.core.view() for host in self.hosts)
                for host in self.hosts:
                    host.take([Tick(floor)])

    def close(self) -> None:
        for host in self.hosts:
            host.core.close()
