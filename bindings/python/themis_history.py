"""The history of a chain of sessions, and whether replicas carried over by the rules.

    history = History()
    for session, lists, batches in chain:
        for before, arrived in lists:                   # of each replica that is not faulty
            history.check(session, before, arrived)
        for batch in batches:                           # of a replica that has ended the session
            if history.add(session, batch):
                break

No proof covers this file. A lock lets one call at a time use the handle.
"""

from __future__ import annotations

import ctypes
import threading
import weakref
from collections.abc import Sequence
from ctypes import byref, c_size_t, c_uint32
from itertools import starmap

from themis_errors import AlreadyFinal, OtherMarker, Status, check
from themis_library import TX_FORM, CHistory, CTx, c_txs, loaded, number
from themis_values import Tx


class History:
    """What is final in a chain of sessions: at first nothing.

    A call that raises leaves the history as it was. Each may raise NoMemory.
    """

    def __init__(self) -> None:
        self._library, self._handle, self._lock = loaded(), CHistory(), threading.Lock()
        free = self._library.call, "themis_history_free", byref(self._handle)
        weakref.finalize(self, *free)

    def add(self, session: int, batch: Sequence[Tx]) -> bool:
        """Adds a final batch; whether it holds the session's marker, and is the last that counts.

        Raises AlreadyFinal, with the first such transaction of the batch.
        """
        ended, at = c_uint32(), c_size_t()
        with self._lock:
            status = self._library.call(
                "themis_history_add", byref(self._handle), number(session), c_txs(batch),
                len(batch), byref(ended), byref(at),
            )
        if status == Status.ALREADY_FINAL:
            raise AlreadyFinal(status, at.value)
        check(status)
        return bool(ended.value)

    def check(self, session: int, before: Sequence[Tx], arrived: Sequence[Tx]) -> None:
        """Checks what arrived at a replica in a session. `before` arrived in the session before.

        `before` is empty where the replica was not in that session, or this is not known. Raises
        AlreadyFinal and OtherMarker, with the first such transaction that arrived, and NotCarried.
        """
        at = c_size_t()
        with self._lock:
            status = self._library.call(
                "themis_history_check", byref(self._handle), number(session), c_txs(before),
                len(before), c_txs(arrived), len(arrived), byref(at),
            )
        if status == Status.ALREADY_FINAL:
            raise AlreadyFinal(status, at.value)
        if status == Status.OTHER_MARKER:
            raise OtherMarker(status, at.value)
        check(status)

    def carried(self, arrived: Sequence[Tx]) -> list[Tx]:
        """What a replica carries over, of what arrived at it in the session that was added last."""
        into = (CTx * max(1, len(arrived)))()
        count = c_size_t()
        with self._lock:
            check(self._library.call(
                "themis_history_carried", byref(self._handle), c_txs(arrived), len(arrived),
                into, len(into), byref(count),
            ))
        size = count.value * TX_FORM.size
        return list(starmap(Tx, TX_FORM.iter_unpack(ctypes.string_at(into, size))))
