"""The statuses of the C interface, and the exceptions that stand for them."""

from __future__ import annotations

from enum import IntEnum


class Status(IntEnum):
    """What a call of the C interface answers."""

    OK = 0
    VACANT = 1
    NO_MEMORY = 2
    BAD_SETTING = 3
    BAD_HEIGHT = 4
    BAD_NUMBER = 5
    FEW_SEALS = 6
    KEY_COUNT = 7
    WRONG_SECRET = 8
    CORRUPT_LOG = 9
    LONG = 10
    UNREADY = 11
    HALTED = 12
    NONE = 13
    SHORT = 14
    NO_HEADER = 15
    OTHER_LOG = 16
    AGAIN = 17
    BAD_TRACE = 18
    OTHER_KEYS = 19
    UNLAWFUL = 20
    FORGED = 21
    COLLIDED = 22
    OTHER_RUN = 23
    ALREADY_FINAL = 24
    OTHER_MARKER = 25
    NOT_CARRIED = 26
    OTHER_VERIFIER = 27


class ThemisError(Exception):
    """A call of the library did not answer OK. `status` says why."""

    def __init__(self, status: int) -> None:
        super().__init__(TEXTS.get(status, f"status {status}"))
        self.status = status


class MissingFunction(Exception):
    """The loaded library is older than this file, and lacks a function."""


class Vacant(ThemisError):
    """The replica was closed."""


class NoMemory(ThemisError):
    """An allocation failed. Nothing was changed, and the call may be made again."""


class WrongSecret(ThemisError):
    """The public key of the secret is not the one at the replica's number."""


class PlacedError(ThemisError):
    """An input has a fault at byte `at`, counted from its first byte; or at another `unit`."""

    unit = "byte"

    def __init__(self, status: int, at: int) -> None:
        super().__init__(status)
        self.at = at
        self.args = (f"{self.args[0]} at {self.unit} {at}",)


class CorruptLog(PlacedError):
    """At byte `at` of the log stands a whole record that is no event's. Nothing was opened."""


class NoHeader(ThemisError):
    """The log begins with no header. Nothing was opened."""


class OtherLog(ThemisError):
    """The log has the header of another setting, other views, another replica or other keys."""


class TooLong(ThemisError):
    """The event does not fit a record: 2^28 transactions, a sender above 255, or 4 GB."""


class Unready(ThemisError):
    """No event is prepared."""


class Halted(ThemisError):
    """Memory ran out in a turn. Close the replica, and open it again from its log."""


class Again(ThemisError):
    """The replica did not act, and dropped the event, which had no record: prepare it again.

    The event changed nothing when it was prepared, but would change the replica now.
    """


class BadTrace(PlacedError):
    """The bytes are no trace. The first faulty field starts at byte `at`."""


class OtherKeys(ThemisError):
    """The trace's public keys are not those of the auditor."""


class OtherRun(ThemisError):
    """The trace has another setting, other views or another height than the auditor expects."""


class AlreadyFinal(PlacedError):
    """The transaction at position `at` of a list is final already."""

    unit = "position"


class OtherMarker(PlacedError):
    """The transaction at position `at` is of client 0, and not the marker of the session."""

    unit = "position"


class NotCarried(ThemisError):
    """What is carried over does not arrive first, in its order."""


class OtherVerifier(ThemisError):
    """The verifier has other public keys than the replica, or keys of another height."""


TEXTS: dict[int, str] = {
    Status.VACANT: "the replica was closed",
    Status.NO_MEMORY: "out of memory: nothing was changed",
    Status.BAD_SETTING: "n, f, p and q are no valid setting",
    Status.BAD_HEIGHT: "the height is none of 5, 10, 505 and 510",
    Status.BAD_NUMBER: "the replica's number is not below n",
    Status.FEW_SEALS: "the keys have fewer than 5 seals for each view",
    Status.KEY_COUNT: "there is not one public key for each replica",
    Status.WRONG_SECRET: "the secret's public key is not the one at the replica's number",
    Status.CORRUPT_LOG: "the log has a corrupt record",
    Status.LONG: "the event does not fit a record",
    Status.UNREADY: "no event is prepared",
    Status.HALTED: "memory ran out in a turn: open the replica again from its log",
    Status.NONE: "there is none at this position",
    Status.SHORT: "the buffer is too small",
    Status.NO_HEADER: "the log begins with no header",
    Status.OTHER_LOG: "the log has the header of another",
    Status.AGAIN: "the event would change the replica now: prepare it again",
    Status.BAD_TRACE: "the bytes are no trace",
    Status.OTHER_KEYS: "the trace has other public keys",
    Status.OTHER_RUN: "the trace has another setting, other views or another height",
    Status.ALREADY_FINAL: "the list has a transaction that is final already",
    Status.OTHER_MARKER: "the list has a transaction of client 0 that is not the session's marker",
    Status.NOT_CARRIED: "what is carried over does not arrive first",
    Status.OTHER_VERIFIER: "the verifier has other public keys, or keys of another height",
}

ERRORS: dict[int, type[ThemisError]] = {
    Status.VACANT: Vacant,
    Status.NO_MEMORY: NoMemory,
    Status.WRONG_SECRET: WrongSecret,
    Status.LONG: TooLong,
    Status.UNREADY: Unready,
    Status.HALTED: Halted,
    Status.NO_HEADER: NoHeader,
    Status.OTHER_LOG: OtherLog,
    Status.AGAIN: Again,
    Status.OTHER_KEYS: OtherKeys,
    Status.OTHER_RUN: OtherRun,
    Status.NOT_CARRIED: NotCarried,
    Status.OTHER_VERIFIER: OtherVerifier,
}


def check(status: int) -> None:
    """Raises the exception of a status that is not OK."""
    if status != Status.OK:
        raise ERRORS.get(status, ThemisError)(status)
