"""What was sent, what became of it, and in which order replicas took their turns."""

from __future__ import annotations

from collections import Counter, defaultdict
from collections.abc import Iterable

from trace_inspection.trace import Entry, Event, Message, Send, Trace, sealed_of

NOWHERE = 1 << 30


def receivers_of(trace: Trace, entry: Entry, kind: str, view: int) -> Iterable[int]:
    """Who gets the message of a sealed statement."""
    if kind in ("Ask", "Propose"):
        return range(trace.n)
    if kind == "NewView":
        return [trace.leader(view)]
    if kind == "Vote":
        return [trace.leader(view + 1)]
    return [entry.sender] if entry.sender is not None else []


def sends_of(trace: Trace, entry: Entry) -> list[Send]:
    """What an honest replica sent in a turn, by what it sealed and by its reason."""
    me, message = entry.replica, entry.message
    has_voted = any(sealed_of(s)[0] == "Vote" for s in entry.sealed)
    out = []
    for statement in entry.sealed:
        kind, view = sealed_of(statement)
        if kind == "Order" and has_voted:
            continue
        to = receivers_of(trace, entry, kind, view)
        out += [Send(kind, view, me, r, statement) for r in to]
    if message is None or entry.sender is None:
        return out
    if entry.reason == "Orphan" and message.kind != "Fetch":
        out.append(Send("Fetch", 0, me, entry.sender, b"\x06" + message.named_block()))
    if entry.reason == "Done" and message.kind == "Fetch":
        digest = message.block_digest or b""
        out.append(Send("Give", 0, me, entry.sender, b"\x07" + digest))
    return out


Guess = tuple[Send, Message | None]


def guesses_of(trace: Trace) -> list[Guess]:
    """What faulty replicas sent, by what was delivered of it: with the copies for faulty replicas
    of what goes to everyone, and with what a leader sent to itself."""
    out: dict[object, Guess] = {}
    for entry in trace.entries():
        message, sender = entry.message, entry.sender
        if message is None or sender is None or sender not in trace.faulty:
            continue
        goes_to_all = message.kind in ("Ask", "Propose")
        for to in range(trace.n) if goes_to_all else [entry.replica]:
            is_own = to == entry.replica
            if is_own or to in trace.faulty:
                what = message.statement if is_own else (message.kind, message.view)
                send = Send(message.kind, message.view, sender, to, message.statement)
                out.setdefault((sender, to, what), (send, message))
    asked = {(send.sender, send.view) for send, _ in out.values() if send.kind == "Ask"}
    for send, _ in list(out.values()):
        own = [("NewView", send.view), ("Order", send.view)] if send.kind == "Ask" else []
        if send.kind == "Propose" and send.view > 1 and (send.sender, send.view) not in asked:
            own = [("Vote", send.view - 1)]
        for kind, view in own:
            to_itself = Send(kind, view, send.sender, send.sender, b"")
            out.setdefault((send.sender, kind, view), (to_itself, None))
    return sorted(out.values(), key=lambda guess: guess[0].to)


class Order:
    """Puts the entries of all replicas into one order, the oldest message first."""

    def __init__(self, trace: Trace) -> None:
        self.trace = trace
        self.links: dict[tuple[int, int], list[Send]] = defaultdict(list)
        self.same: dict[tuple[int, int, bytes], list[Send]] = defaultdict(list)
        self.places = self.turn = 0
        self.at = {r: 0 for r in trace.honest}
        self.entries: list[Entry] = []
        self.unseen: list[Send] = []
        self.reached: dict[int, set[object]] = {r: set() for r in trace.faulty}
        self.ticked = {
            ("tick", sealed_of(statement)[1])
            for entry in trace.entries()
            if entry.event == Event.TICK
            for statement in entry.sealed
        }
        self.promised = Counter(
            (send.sender, send.to, send.statement)
            for entry in trace.entries()
            for send in sends_of(trace, entry)
        )
        self.guesses = guesses_of(trace)

    def is_caused(self, send: Send, message: Message | None) -> bool:
        """Whether all that a faulty replica must have had before it could send this has
        reached it."""
        known, leader = self.reached[send.sender], self.trace.leader(send.view)
        if send.kind == "NewView":
            tick = ("tick", send.view)
            return tick in known or tick not in self.ticked
        if send.kind == "Ask":
            calls = sum(("NewView", send.view, r) in known for r in range(self.trace.n))
            return calls >= self.trace.quorum
        if send.kind == "Order":
            return ("Ask", send.view, leader) in known
        if send.kind == "Vote":
            return ("Propose", send.view, leader) in known
        if send.kind == "Propose":
            block = message.block if message else None
            return all(
                ("Drawn", order.view, order.replica) in known
                for order in (block.orders if block else [])
                if order.replica in self.trace.honest
            )
        return send.kind != "Give" or ("Fetch", send.statement[1:], send.to) in known

    def put(self, send: Send) -> None:
        """Puts a message into the queue."""
        send.place, send.sent, self.places = self.places, self.turn, self.places + 1
        self.links[send.sender, send.to].append(send)
        self.same[send.sender, send.to, send.statement].append(send)
        if send.to in self.trace.faulty:
            self.unseen.append(send)

    def release(self) -> None:
        """Sends what faulty replicas can send by now."""
        for guess in self.guesses[:]:
            if self.is_caused(*guess):
                self.guesses.remove(guess)
                self.put(guess[0])

    def find(self, entry: Entry) -> Send | None:
        """The message that a delivery is of: the same statement, or else, where the bytes are
        damaged, the oldest one left on the link."""
        sender = -1 if entry.sender is None else entry.sender
        if entry.message:
            key = (sender, entry.replica, entry.message.statement)
            same = self.same[key]
            left = [send for send in same if send.entry is None]
            if left:
                return left[0]
            if len(same) < self.promised[key] or sender in self.trace.faulty:
                return None
            if same:
                return same[0]
        if sender in self.trace.faulty:
            return None
        link = self.links[sender, entry.replica]
        return next((send for send in link if send.entry is None), None)

    def take(self, entry: Entry, send: Send | None) -> None:
        """The next entry of a replica."""
        self.at[entry.replica] += 1
        if entry.event == Event.DELIVERED:
            self.turn += 1
        entry.turn, entry.send = self.turn, send
        if send and send.entry is None:
            send.entry, send.turn = entry, self.turn
        elif send:
            send.again.append(entry)
        for sent in sends_of(self.trace, entry):
            entry.sends.append(sent)
            self.put(sent)
        self.entries.append(entry)

    def reach(self, send: Send) -> None:
        """A message reaches a faulty replica, of which the trace records nothing."""
        self.unseen.remove(send)
        self.turn += 1
        send.turn = self.turn
        known = self.reached[send.to]
        what = send.statement[1:] if send.kind == "Fetch" else send.view
        known.add((send.kind, what, send.sender))
        if send.kind in ("Order", "Vote"):
            known.add(("Drawn", send.view + (send.kind == "Vote"), send.sender))
        self.release()

    def is_guessed(self, entry: Entry) -> bool:
        """Whether a message of a faulty replica has not been sent yet."""
        return entry.message is not None and any(
            send.sender == entry.sender
            and send.to == entry.replica
            and send.statement == entry.message.statement
            for send, _ in self.guesses
        )

    def ready(self, heads: list[Entry]) -> list[tuple[int, Entry, Send | None]]:
        """The deliveries that may come next, each with the place of its message."""
        out: list[tuple[int, Entry, Send | None]] = []
        for entry in heads:
            if entry.event == Event.DELIVERED:
                send = self.find(entry)
                if send and send.place is not None:
                    out.append((send.place, entry, send))
                elif entry.sender in self.trace.faulty and not self.is_guessed(entry):
                    out.append((-1, entry, None))
        return out

    def tick(self, ticks: list[Entry]) -> None:
        """All replicas get a tick."""
        for entry in ticks:
            self.take(entry, None)
        views = {send.view for entry in ticks for send in entry.sends}
        for known in self.reached.values():
            known.update(("tick", view) for view in views)
        self.release()

    def heads(self) -> list[Entry]:
        """The next entry of each replica that has one."""
        journals = self.trace.journals
        return [journals[r][at] for r, at in self.at.items() if at < len(journals[r])]

    def run(self) -> Order:
        while heads := self.heads():
            arrived = next((e for e in heads if e.event == Event.ARRIVED), None)
            oldest = min(self.ready(heads), key=lambda it: it[0], default=None)
            unseen = self.unseen[0] if self.unseen else None
            unseen_place = unseen.place if unseen and unseen.place is not None else NOWHERE
            if arrived:
                self.take(arrived, None)
            elif unseen and (not oldest or unseen_place < oldest[0]):
                self.reach(unseen)
            elif oldest:
                self.take(oldest[1], oldest[2])
            elif ticks := [e for e in heads if e.event == Event.TICK]:
                self.tick(ticks)
            else:
                self.take(heads[0], None)
        return self


def may_be_on_the_way(trace: Trace, order: Order) -> bool:
    """Whether messages may have been on their way at the end: where the run is done, and where
    its last turn was reached. The plan says which turn is the last; without the plan it is the
    last turn that was taken, where that turn sent something."""
    if trace.is_done():
        return True
    if trace.max_turns is not None:
        return trace.turns >= trace.max_turns
    last = order.entries[-1] if order.entries else None
    return bool(last and last.event == Event.DELIVERED and last.sends)


def lost_and_pending(trace: Trace, order: Order) -> tuple[list[Send], list[Send]]:
    """Messages between honest replicas that were sent and never delivered, and those still on
    their way at the end. The queue gives the oldest message first, so a message that was sent
    before one that was delivered is lost."""
    sends = [send for link in order.links.values() for send in link]
    last = max((place_of(s) for s in sends if s.turn is not None), default=-1)
    honest = set(trace.honest)
    missing = sorted(
        (s for s in sends if s.entry is None and {s.sender, s.to} <= honest), key=place_of
    )
    may_wait = may_be_on_the_way(trace, order)
    lost = [s for s in missing if place_of(s) < last or not may_wait]
    return lost, [s for s in missing if place_of(s) > last and may_wait]


def place_of(send: Send) -> int:
    return NOWHERE if send.place is None else send.place


def late_of(trace: Trace, order: Order) -> list[Send]:
    """Messages between honest replicas that were delivered after one that was sent later over
    the same link."""
    out, place = [], {id(entry): k for k, entry in enumerate(order.entries)}
    for sends in order.links.values():
        came = [s for s in sends if s.entry and s.sender in trace.honest]
        places = [place[id(s.entry)] for s in came]
        out += [s for k, s in enumerate(came) if any(p < places[k] for p in places[k + 1 :])]
    return out
