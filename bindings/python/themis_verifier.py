"""Seals that are checked ahead, on other threads.

    verifiers = [Verifier(role.height, public_keys) for _ in range(3)]
    with ThreadPoolExecutor(3) as pool:                 # of a message, before it is prepared
        for k, verifier in enumerate(verifiers):
            pool.submit(verifier.verify, view, sender, data, k, 3)
    for verifier in verifiers:
        replica.take_verified(verifier)

No proof covers this file. A lock lets one call at a time use the handle.
"""

from __future__ import annotations

import threading
import weakref
from collections.abc import Sequence
from ctypes import byref, c_size_t

from themis_errors import check
from themis_library import CReplica, CVerifier, joined_keys, loaded, number


class Verifier:
    """Checks the seals of messages on a thread of its own, and holds no secret."""

    def __init__(self, height: int, public_keys: Sequence[bytes]) -> None:
        """Checks by the public keys of all replicas, of this height. Raises NoMemory."""
        self._library, self._handle, self._lock = loaded(), CVerifier(), threading.Lock()
        weakref.finalize(self, self._library.call, "themis_verifier_free", byref(self._handle))
        keys = joined_keys(public_keys)
        check(self._library.call(
            "themis_verifier_new", byref(self._handle), number(height), keys, len(public_keys),
        ))

    def verify(self, view: int, sender: int, data: bytes, share: int, shares: int) -> int:
        """Checks a share of the seals of a message, for a replica in this view.

        These are the seals whose number modulo `shares` is `share`. Those that fit are kept until
        the next call. Returns how many these are.
        """
        data, kept = bytes(data), c_size_t()
        with self._lock:
            check(self._library.call(
                "themis_verify", byref(self._handle), number(view), number(sender), data,
                len(data), number(share), number(shares), byref(kept),
            ))
        return kept.value

    def take(self, replica: CReplica) -> None:
        """Lets a replica of the library take the seals that are kept."""
        with self._lock:
            check(self._library.call("themis_take_verified", byref(replica), byref(self._handle)))
