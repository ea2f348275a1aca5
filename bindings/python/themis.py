"""One replica of Themis for Python: the C interface (`bindings/c/themis.h`) through ctypes.

    with themis.Replica.open(role, secret, public_keys, log) as replica:
        # truncate the log file to replica.used bytes; where that is 0, write replica.header()
        record = replica.prepare(event)                     # Arrived, Delivered or Tick
        # append the record to the log file, then fsync; an empty record needs neither
        reason = replica.act()                              # the turn
        for receiver, message in replica.sends():           # send each, in this order
            ...
        for at in range(taken, replica.batch_count()):
            replica.batch(at)                               # the final batches

A call that fails raises a ThemisError, which has the status of the C interface. It leaves the
replica as it was, except for Halted and Again, which say what they do, and NoMemory of accepted
and arrive.

The library is the file that the environment variable THEMIS_LIBRARY names, or `libthemis.so` next
to this file, or the one that `tools/build-library` leaves in `out/`. It is loaded by the first
call. A function that the loaded library lacks raises MissingFunction when it is called.

No proof covers this file. What it owes to the proved core is the list of promises at the head of
`themis.h`. It keeps promises 1 to 3 and 5 itself: a lock lets one call at a time use a handle, so
a Replica may be shared by threads. Promises 4 and 6 are those of its caller: the process is not
forked while it has threads, and the log is durable before the turn.
"""

from __future__ import annotations

import ctypes
import struct
import threading
import weakref
from collections.abc import Iterable, Iterator, Sequence
from ctypes import byref, c_size_t, c_uint8, c_uint32, c_uint64
from dataclasses import astuple, dataclass
from itertools import starmap

from themis_errors import (
    Again, AlreadyFinal, BadTrace, CorruptLog, Halted, MissingFunction, NoHeader, NoMemory,
    NotCarried, OtherKeys, OtherLog, OtherMarker, OtherRun, OtherVerifier, Status, ThemisError,
    TooLong, Unready, Vacant, WrongSecret, check,
)
from themis_history import History
from themis_library import (
    KEY_SIZE, TX_FORM, CFinding, CReceipt, CReplica, CRole, CRun, CTx, Library, c_txs, joined_keys,
    loaded, number, sized,
)
from themis_values import (
    Arrived, Delivered, Event, Held, Height, Reason, Role, Run, Standing, Taken, Tick, Tx,
)
from themis_verifier import Verifier

__all__ = [
    "Again", "AlreadyFinal", "Arrived", "BadTrace", "CorruptLog", "Delivered", "Event", "Finding",
    "Halted", "Held", "Height", "History", "MissingFunction", "NoHeader", "NoMemory", "NotCarried",
    "OtherKeys", "OtherLog", "OtherMarker", "OtherRun", "OtherVerifier", "Reason", "Replica",
    "Role", "Run", "Standing", "Status", "Taken", "ThemisError", "Tick", "TooLong", "Tx",
    "Unready", "Vacant", "Verifier", "WrongSecret", "audit", "public_key",
]

SECRET_SIZE = 48
HEADER_SIZE = 76
MAX_REPLICAS = 16
FIRST_ROOM = 1 << 16
FIRST_BATCH = 64
MAX_ARRIVALS = 480
RECEIPT_FORM = struct.Struct("=IIQQ")
TAKEN, STANDINGS = tuple(Taken), tuple(Standing)        # by their numbers


def _packed(into: CTx | CReceipt, form: struct.Struct, *fields: int) -> object:
    """A pointer to a transaction or a receipt with these fields."""
    try:
        form.pack_into(into, 0, *fields)
    except struct.error as fault:
        raise ValueError(f"a number does not fit: {fault}") from fault
    return byref(into)


# ---- Calls


def public_key(height: int, secret: bytes) -> bytes:
    """The public key, of 60 bytes, of the key that grows from a secret of 48 random bytes.

    Growing a tree of 10 levels takes a second or so.
    """
    key = (c_uint8 * KEY_SIZE)()
    check(
        loaded().call("themis_public_key", number(height), sized(secret, SECRET_SIZE), key)
    )
    return bytes(key)


class Replica:
    """A replica. Several events may be prepared before it acts on them, in the same order."""

    def __init__(self, library: Library, handle: CReplica, used: int) -> None:
        """Takes a handle that was opened. Use `open`."""
        self._library = library
        self._handle = handle
        self._used = used
        self._lock = threading.Lock()
        self._prepared = 0
        self._buffer = (c_uint8 * FIRST_ROOM)()
        self._txs = (CTx * FIRST_BATCH)()
        self._tx, self._receipt, self._answer = CTx(), CReceipt(), c_uint32()
        self._free = weakref.finalize(self, library.call, "themis_free", byref(handle))

    @classmethod
    def open(
        cls, role: Role, secret: bytes, public_keys: Sequence[bytes], log: bytes = b""
    ) -> Replica:
        """Opens a replica that stands where its turns on the events of its log lead.

        `secret` has 48 bytes, `public_keys` are those of all replicas, 60 bytes each, and `log` is
        the whole log. After it, truncate the log to `used` bytes, and where that is 0 write
        `header()` first. What the turns on the log send is not sent again.

        Raises CorruptLog, NoHeader, OtherLog, WrongSecret, NoMemory, or a ThemisError with one of
        the statuses BAD_SETTING, BAD_HEIGHT, BAD_NUMBER, FEW_SEALS and KEY_COUNT.
        """
        library, handle, used = loaded(), CReplica(), c_size_t()
        c_role = CRole(*(number(value) for value in astuple(role)))
        keys, log = joined_keys(public_keys), bytes(log)
        status = library.call(
            "themis_open", byref(handle), byref(c_role), sized(secret, SECRET_SIZE),
            keys, len(public_keys), log, len(log), byref(used),
        )
        if status == Status.CORRUPT_LOG:
            raise CorruptLog(status, used.value)
        check(status)
        return cls(library, handle, used.value)

    def __enter__(self) -> Replica:
        return self

    def __exit__(self, *_: object) -> None:
        self.close()

    def close(self) -> None:
        """Frees the replica. A later call raises Vacant; closing again does nothing."""
        with self._lock:
            self._free()

    @property
    def used(self) -> int:
        """How many bytes of the log were its header and whole records. 0: the log is new."""
        return self._used

    def header(self) -> bytes:
        """The 76 bytes with which the log begins."""
        with self._lock:
            return self._bytes("themis_header")

    # -- preparing, and the turn

    def prepare_arrived(self, txs: Sequence[Tx]) -> bytes:
        """Prepares the event that these transactions arrived, and returns its record.

        The record is appended to the log, and made durable, before the turn on the event. An empty
        record stands for none: the event changes nothing. Raises TooLong, Halted, NoMemory.
        """
        return self._prepare("themis_prepare_arrived", c_txs(txs), len(txs))

    def prepare_deliver(self, sender: int, data: bytes) -> bytes:
        """Prepares the event that replica `sender` sent these bytes; as `prepare_arrived`."""
        data = bytes(data)
        return self._prepare("themis_prepare_deliver", number(sender), data, len(data))

    def prepare_tick(self, floor: int) -> bytes:
        """Prepares a tick: the pacemaker asks for a view above the replica's own and `floor`."""
        return self._prepare("themis_prepare_tick", number(floor))

    def prepare(self, event: Event) -> bytes:
        """Prepares an event that is given as a value, and returns its record."""
        match event:
            case Arrived(txs):
                return self.prepare_arrived(txs)
            case Delivered(sender, data):
                return self.prepare_deliver(sender, data)
            case Tick(floor):
                return self.prepare_tick(floor)

    def would_change(self, sender: int, data: bytes) -> bool:
        """Whether the turn on these bytes, from replica `sender`, would change the replica now.

        Nothing is prepared. The seals are checked, and remembered for the turn. Raises Halted,
        NoMemory, TooLong.
        """
        data, yes = bytes(data), c_uint32()
        with self._lock:
            arguments = number(sender), data, len(data), byref(yes)
            check(self._call("themis_would_change", *arguments))
        return yes.value == 1

    def take_verified(self, verifier: Verifier) -> None:
        """Remembers the seals that a verifier keeps, so that they are not checked again.

        Raises OtherVerifier, where it has other public keys or keys of another height.
        """
        with self._lock:
            verifier.take(self._handle)

    def prepared(self) -> int:
        """How many events are prepared."""
        with self._lock:
            return self._prepared

    def record(self, position: int) -> bytes:
        """The record of a prepared event; at position 0 is the one that the replica acts on next.

        Raises a ThemisError with status NONE where there is none.
        """
        with self._lock:
            return self._bytes("themis_record", number(position, 64))

    def act(self) -> int:
        """The turn on the event that was prepared first. Returns its Reason.

        Raises Unready, Again, Halted, NoMemory.
        """
        reason = c_uint32()
        with self._lock:
            status = self._call("themis_act", byref(reason))
            if status in (Status.OK, Status.AGAIN, Status.HALTED):
                self._prepared -= 1
        check(status)
        return Reason(reason.value)

    # -- what the last turn gave

    def sends(self) -> list[tuple[int, bytes]]:
        """The messages that the last turn sends, each with its receiver, in their order.

        Messages to the replica itself are among them, and are delivered like others.
        """
        with self._lock:
            to = c_uint32()
            sends = []
            for position in range(self._count("themis_sends")):
                message = self._bytes("themis_send", position, byref(to))
                sends.append((to.value, message))
            return sends

    def sealed(self) -> list[bytes]:
        """The statements that the last turn sealed, in their order."""
        with self._lock:
            count = self._count("themis_sealed")
            return [self._bytes("themis_statement", position) for position in range(count)]

    # -- where it stands

    def batch_count(self) -> int:
        """How many batches are final. The list only grows with at most f faulty replicas."""
        with self._lock:
            return self._count("themis_batches")

    def batch(self, at: int) -> list[Tx]:
        """The final batch at a position. The order of its transactions says nothing.

        Raises a ThemisError with status NONE where there is none, and NoMemory.
        """
        at, count = number(at, 64), c_size_t()
        with self._lock:
            while True:
                room = len(self._txs)
                status = self._call("themis_batch", at, self._txs, room, byref(count))
                if status != Status.SHORT:
                    break
                self._txs = (CTx * count.value)()
            check(status)
            data = ctypes.string_at(self._txs, count.value * TX_FORM.size)
        return list(starmap(Tx, TX_FORM.iter_unpack(data)))

    def views(self) -> tuple[int, int]:
        """The replica's view, and the view of its committed block."""
        view, commit_view = c_uint32(), c_uint32()
        with self._lock:
            check(self._call("themis_views", byref(view), byref(commit_view)))
        return view.value, commit_view.value

    def known(self) -> int:
        """How many transactions arrived at the replica."""
        known = c_uint32()
        with self._lock:
            check(self._call("themis_known", byref(known)))
        return known.value

    def is_proposed(self, tx: Tx) -> bool:
        """Whether the blocks up to the one of the highest certificate propose the transaction."""
        yes = c_uint32()
        with self._lock:
            packed = _packed(self._tx, TX_FORM, *tx)
            check(self._call("themis_is_proposed", packed, byref(yes)))
        return yes.value != 0

    def gives(self, above: int) -> Iterator[bytes]:
        """The Give messages of the stored blocks with a view above `above`, oldest first.

        They bring a replica level that fell behind, and change nothing here.
        """
        above = number(above)
        with self._lock:
            count = self._count("themis_gives", above)
        for position in range(count):
            with self._lock:
                message = self._bytes("themis_give", above, position)
            yield message

    # -- receipt: what is received, and what of it arrives when

    def submit(self, tx: Tx) -> Taken:
        """A transaction of an own client. Raises NoMemory."""
        with self._lock:
            return self._taken("themis_submit", _packed(self._tx, TX_FORM, *tx))

    def hear(self, peer: int, tx: Tx, stamp: int) -> Taken:
        """A receipt that a peer reports, in the order in which it does. Raises NoMemory, or a
        ThemisError with status BAD_NUMBER."""
        with self._lock:
            receipt = _packed(self._receipt, RECEIPT_FORM, *tx, stamp)
            return self._taken("themis_hear", number(peer), receipt)

    def hear_clock(self, peer: int, clock: int) -> None:
        """The clock that a peer reports. Raises a ThemisError with status BAD_NUMBER."""
        with self._lock:
            check(self._call("themis_hear_clock", number(peer), number(clock, 64)))

    def restore(self, tx: Tx) -> Taken:
        """A transaction that arrived before the replica was opened: it does not arrive again.

        Raises NoMemory.
        """
        with self._lock:
            return self._taken("themis_restore", _packed(self._tx, TX_FORM, *tx))

    def settle(self, txs: Sequence[Tx]) -> None:
        """Transactions that are final: they are not received again. Raises NoMemory."""
        with self._lock:
            check(self._call("themis_settle", c_txs(txs), len(txs)))

    def accepted(self, data: bytes) -> bool:
        """The message of a block that a turn stored: a Propose or a Give. Whether it is one.

        Raises NoMemory.
        """
        data = bytes(data)
        with self._lock:
            status = self._call("themis_accepted", data, len(data))
        if status == Status.NONE:
            return False
        check(status)
        return True

    def arrive(self) -> tuple[list[Tx], int]:
        """What arrives now, for `prepare_arrived` at the next event, and how many are exceptions.

        The exceptions stand last: they arrive because the chain was stuck. Raises NoMemory.
        """
        txs, count, given = (CTx * MAX_ARRIVALS)(), c_size_t(), c_size_t()
        with self._lock:
            check(self._call("themis_arrive", txs, MAX_ARRIVALS, byref(count), byref(given)))
        data = ctypes.string_at(txs, count.value * TX_FORM.size)
        return list(starmap(Tx, TX_FORM.iter_unpack(data))), given.value

    def arrive_proposed(self) -> list[Tx]:
        """What arrives while a session is closing, where nothing more is to be received.

        Only what blocks name and the certified chain proposes, with all that wait and have smaller
        keys. Raises NoMemory.
        """
        txs, count = (CTx * MAX_ARRIVALS)(), c_size_t()
        with self._lock:
            check(self._call("themis_arrive_proposed", txs, MAX_ARRIVALS, byref(count)))
        data = ctypes.string_at(txs, count.value * TX_FORM.size)
        return list(starmap(Tx, TX_FORM.iter_unpack(data)))

    def receipts(self, after: int, most: int) -> list[tuple[Tx, int]]:
        """The own receipts of held transactions with a stamp above `after`, at most `most`.

        They stand in their order, each with its stamp. Raises NoMemory.
        """
        receipts, count = (CReceipt * max(1, most))(), c_size_t()
        with self._lock:
            arguments = number(after, 64), receipts, most, byref(count)
            check(self._call("themis_receipts", *arguments))
        data = ctypes.string_at(receipts, count.value * RECEIPT_FORM.size)
        return [(Tx(*fields[:3]), fields[3]) for fields in RECEIPT_FORM.iter_unpack(data)]

    def standing(self, tx: Tx) -> Standing:
        """What is known of a transaction."""
        with self._lock:
            packed = _packed(self._tx, TX_FORM, *tx)
            check(self._call("themis_standing", packed, byref(self._answer)))
            return STANDINGS[self._answer.value]

    def clock(self) -> int:
        """The replica's clock: the stamp of its last receipt."""
        clock = c_uint64()
        with self._lock:
            check(self._call("themis_clock", byref(clock)))
        return clock.value

    def held(self) -> Held:
        """How many transactions are received and not final."""
        everything, waiting, own = c_size_t(), c_size_t(), c_uint64()
        with self._lock:
            check(self._call("themis_held", byref(everything), byref(waiting), byref(own)))
        return Held(everything.value, waiting.value, own.value)

    # -- below: the lock is held

    def _taken(self, name: str, *arguments: object) -> Taken:
        check(self._call(name, *arguments, byref(self._answer)))
        return TAKEN[self._answer.value]

    def _call(self, name: str, *arguments: object) -> int:
        return self._library.call(name, byref(self._handle), *arguments)

    def _count(self, name: str, *arguments: object) -> int:
        count = c_size_t()
        check(self._call(name, *arguments, byref(count)))
        return count.value

    def _bytes(self, name: str, *arguments: object) -> bytes:
        """What a call copies into a buffer."""
        size = c_size_t()
        while True:
            status = self._call(name, *arguments, self._buffer, len(self._buffer), byref(size))
            if status != Status.SHORT:
                break
            self._buffer = (c_uint8 * max(size.value, 2 * len(self._buffer)))()
        check(status)
        return ctypes.string_at(self._buffer, size.value)

    def _prepare(self, name: str, *arguments: object) -> bytes:
        """Prepares an event, and returns its record."""
        with self._lock:
            check(self._call(name, *arguments))
            self._prepared += 1
            return self._bytes("themis_record", self._prepared - 1)


# ---- Audits


@dataclass(frozen=True)
class Finding:
    """What an audit found: a status, and the entry of a replica's journal where it was found.

    - OK: the promise holds of the run. Each replica outside `faulty` conforms to the protocol, no
      seal is forged, and no two blocks have the same digest. Only `faulty` has a meaning.
    - UNLAWFUL: the replica breaks `rule` at `entry`: 1 to 5; or 6 and 7, after the last entry.
    - FORGED: at `entry` the replica received a message whose part `part` has a forged seal of
      `signer`.
    - COLLIDED: at `entry` the replica received a block, and at `second` (a replica and an entry)
      came another with the same digest. None stands for the first block of every chain.

    `faulty` has the replicas that the trace names as faulty, at most f of them. The trace records
    nothing of these, and the audit claims nothing of them.
    """

    status: Status
    replica: int
    entry: int
    rule: int
    part: int
    signer: int
    second: tuple[int, int] | None
    faulty: tuple[int, ...]


FOUND = (Status.OK, Status.UNLAWFUL, Status.FORGED, Status.COLLIDED)


def audit(trace: bytes, run: Run, public_keys: Iterable[bytes]) -> Finding:
    """Checks a trace of the second form, of any length, by the run and the public keys expected.

    Raises BadTrace, OtherKeys, OtherRun, NoMemory; and a ThemisError where the run has no valid
    setting or no height.
    """
    trace, keys, found = bytes(trace), list(public_keys), CFinding()
    expected = CRun(*map(number, astuple(run)))
    status = loaded().call(
        "themis_audit", trace, len(trace), byref(expected), joined_keys(keys), len(keys),
        byref(found),
    )
    if status == Status.BAD_TRACE:
        raise BadTrace(status, found.at)
    if status not in FOUND:
        check(status)
    return Finding(
        Status(status), found.replica, found.entry, found.rule, found.part, found.signer,
        (found.second_replica, found.second_entry) if found.has_second else None,
        tuple(at for at in range(MAX_REPLICAS) if found.faulty >> at & 1),
    )
