"""The C interface (`bindings/c/themis.h`) as ctypes declares it, and the shared object.

tools/check-bindings compares these declarations with the exports of crate `themis_c`. No proof
covers this file.
"""

from __future__ import annotations

import ctypes
import os
import struct
from collections.abc import Callable, Sequence
from ctypes import POINTER, c_char_p, c_size_t, c_uint8, c_uint32, c_uint64, c_void_p
from functools import cache
from pathlib import Path
from typing import Any

from themis_errors import MissingFunction

KEY_SIZE = 60
TX_FORM = struct.Struct("=IIQ")


class CReplica(ctypes.Structure):
    """`themis_replica`: opaque; all zero, it holds no replica."""

    _fields_ = [("at", c_void_p)]


class CHistory(ctypes.Structure):
    """`themis_history`: opaque; all zero, nothing is final in it."""

    _fields_ = [("at", c_void_p)]


class CVerifier(ctypes.Structure):
    """`themis_verifier`: opaque; all zero, it holds no verifier."""

    _fields_ = [("at", c_void_p)]


class CRole(ctypes.Structure):
    """`themis_role`."""

    _fields_ = [(name, c_uint32) for name in ("n", "f", "p", "q", "views", "me", "height")]


class CRun(ctypes.Structure):
    """`themis_run`."""

    _fields_ = [(name, c_uint32) for name in ("n", "f", "p", "q", "views", "height")]


class CTx(ctypes.Structure):
    """`themis_tx`."""

    _fields_ = [("client", c_uint32), ("number", c_uint32), ("payload", c_uint64)]


class CReceipt(ctypes.Structure):
    """`themis_receipt`."""

    _fields_ = [("tx", CTx), ("stamp", c_uint64)]


class CFinding(ctypes.Structure):
    """`themis_finding`."""

    _fields_ = [
        ("at", c_uint64),
        ("replica", c_uint32), ("entry", c_uint32), ("rule", c_uint32),
        ("part", c_uint32), ("signer", c_uint32),
        ("has_second", c_uint32), ("second_replica", c_uint32), ("second_entry", c_uint32),
        ("faulty", c_uint32),
    ]


_HANDLE = ("replica", POINTER(CReplica))
_HISTORY = ("history", POINTER(CHistory))
_VERIFIER = ("verifier", POINTER(CVerifier))
_INTO = (("into", POINTER(c_uint8)), ("room", c_size_t), ("size", POINTER(c_size_t)))
_COUNT = ("count", POINTER(c_size_t))
_POSITION = ("position", c_size_t)
_FOUND = ("position", POINTER(c_size_t))
_ARRIVED = (("arrived", POINTER(CTx)), ("arrived_count", c_size_t))
_TX = ("tx", POINTER(CTx))
_TAKEN = ("taken", POINTER(c_uint32))

# The name and the type of each argument. Each function answers a status, but for FREES. What C has
# as `const uint8_t *` is c_char_p: ctypes passes the address of the bytes themselves.
DECLARATIONS: dict[str, tuple[tuple[str, Any], ...]] = {
    "themis_public_key": (
        ("height", c_uint32), ("secret", c_char_p), ("public_key", POINTER(c_uint8)),
    ),
    "themis_open": (
        _HANDLE, ("role", POINTER(CRole)), ("secret", c_char_p),
        ("public_keys", c_char_p), ("key_count", c_size_t),
        ("log", c_char_p), ("log_size", c_size_t), ("used", POINTER(c_size_t)),
    ),
    "themis_header": (_HANDLE, *_INTO),
    "themis_prepare_arrived": (_HANDLE, ("txs", POINTER(CTx)), ("count", c_size_t)),
    "themis_prepare_deliver": (
        _HANDLE, ("from", c_uint32), ("bytes", c_char_p), ("size", c_size_t),
    ),
    "themis_prepare_tick": (_HANDLE, ("floor", c_uint32)),
    "themis_would_change": (
        _HANDLE, ("from", c_uint32), ("bytes", c_char_p), ("size", c_size_t),
        ("yes", POINTER(c_uint32)),
    ),
    "themis_record": (_HANDLE, _POSITION, *_INTO),
    "themis_act": (_HANDLE, ("reason", POINTER(c_uint32))),
    "themis_sends": (_HANDLE, _COUNT),
    "themis_send": (_HANDLE, _POSITION, ("to", POINTER(c_uint32)), *_INTO),
    "themis_sealed": (_HANDLE, _COUNT),
    "themis_statement": (_HANDLE, _POSITION, *_INTO),
    "themis_batches": (_HANDLE, _COUNT),
    "themis_batch": (_HANDLE, _POSITION, ("into", POINTER(CTx)), ("room", c_size_t), _COUNT),
    "themis_views": (
        _HANDLE, ("view", POINTER(c_uint32)), ("commit_view", POINTER(c_uint32)),
    ),
    "themis_known": (_HANDLE, ("known", POINTER(c_uint32))),
    "themis_is_proposed": (_HANDLE, _TX, ("yes", POINTER(c_uint32))),
    "themis_gives": (_HANDLE, ("above", c_uint32), _COUNT),
    "themis_give": (_HANDLE, ("above", c_uint32), _POSITION, *_INTO),
    "themis_audit": (
        ("trace", c_char_p), ("trace_size", c_size_t), ("run", POINTER(CRun)),
        ("public_keys", c_char_p), ("key_count", c_size_t), ("finding", POINTER(CFinding)),
    ),
    "themis_free": (_HANDLE,),
    "themis_submit": (_HANDLE, _TX, _TAKEN),
    "themis_hear": (_HANDLE, ("peer", c_uint32), ("receipt", POINTER(CReceipt)), _TAKEN),
    "themis_hear_clock": (_HANDLE, ("peer", c_uint32), ("clock", c_uint64)),
    "themis_restore": (_HANDLE, _TX, _TAKEN),
    "themis_settle": (_HANDLE, ("txs", POINTER(CTx)), ("count", c_size_t)),
    "themis_accepted": (_HANDLE, ("bytes", c_char_p), ("size", c_size_t)),
    "themis_arrive": (
        _HANDLE, ("into", POINTER(CTx)), ("room", c_size_t), _COUNT, ("given", POINTER(c_size_t)),
    ),
    "themis_arrive_proposed": (_HANDLE, ("into", POINTER(CTx)), ("room", c_size_t), _COUNT),
    "themis_receipts": (
        _HANDLE, ("after", c_uint64), ("into", POINTER(CReceipt)), ("room", c_size_t), _COUNT,
    ),
    "themis_standing": (_HANDLE, _TX, ("standing", POINTER(c_uint32))),
    "themis_clock": (_HANDLE, ("clock", POINTER(c_uint64))),
    "themis_held": (
        _HANDLE, ("held", POINTER(c_size_t)), ("waiting", POINTER(c_size_t)),
        ("own", POINTER(c_uint64)),
    ),
    "themis_history_add": (
        _HISTORY, ("session", c_uint32), ("batch", POINTER(CTx)), ("count", c_size_t),
        ("ended", POINTER(c_uint32)), _FOUND,
    ),
    "themis_history_check": (
        _HISTORY, ("session", c_uint32), ("before", POINTER(CTx)), ("before_count", c_size_t),
        *_ARRIVED, _FOUND,
    ),
    "themis_history_carried": (
        _HISTORY, *_ARRIVED, ("into", POINTER(CTx)), ("room", c_size_t), _COUNT,
    ),
    "themis_history_free": (_HISTORY,),
    "themis_verifier_new": (
        _VERIFIER, ("height", c_uint32), ("public_keys", c_char_p), ("key_count", c_size_t),
    ),
    "themis_verify": (
        _VERIFIER, ("view", c_uint32), ("from", c_uint32), ("bytes", c_char_p), ("size", c_size_t),
        ("share", c_uint32), ("shares", c_uint32), ("kept", POINTER(c_size_t)),
    ),
    "themis_take_verified": (_HANDLE, _VERIFIER),
    "themis_verifier_free": (_VERIFIER,),
}
FREES = ("themis_free", "themis_history_free", "themis_verifier_free")


class Library:
    """The functions of one shared object."""

    def __init__(self, path: Path) -> None:
        self.path = path
        loaded = ctypes.CDLL(str(path))
        self._functions: dict[str, Callable[..., int]] = {}
        for name, arguments in DECLARATIONS.items():
            function = getattr(loaded, name, None)
            if function is not None:
                function.argtypes = [of for _, of in arguments]
                function.restype = None if name in FREES else c_uint32
                self._functions[name] = function

    def call(self, name: str, *arguments: object) -> int:
        """Calls a function, and returns its status."""
        function = self._functions.get(name)
        if function is None:
            raise MissingFunction(f"{self.path} has no {name}: build it again")
        return function(*arguments)


def library_path() -> Path:
    """The shared object that the environment names, or the first one that is found."""
    named = os.environ.get("THEMIS_LIBRARY")
    if named:
        return Path(named)
    here = Path(__file__).resolve().parent
    places = [here / "libthemis.so", here.parent.parent / "out" / "libthemis.so"]
    for place in places:
        if place.is_file():
            return place
    raise FileNotFoundError(
        f"no libthemis.so in {places[0].parent} or {places[1].parent}: "
        "run tools/build-library, or set THEMIS_LIBRARY"
    )


@cache
def loaded() -> Library:
    """The library, which the first call loads."""
    return Library(library_path())


# ---- Arguments that ctypes would not check


def number(value: int, bits: int = 32) -> int:
    """The number itself; ctypes would silently drop the bits that do not fit."""
    if not 0 <= value < 1 << bits:
        raise ValueError(f"{value} is no number of {bits} bits")
    return value


def sized(data: bytes, size: int) -> bytes:
    """The bytes themselves, of which there have to be that many."""
    if len(data) != size:
        raise ValueError(f"{len(data)} bytes instead of {size}")
    return bytes(data)


def joined_keys(public_keys: Sequence[bytes]) -> bytes:
    """Public keys, one after another."""
    return b"".join(sized(key, KEY_SIZE) for key in public_keys)


def c_txs(txs: Sequence[tuple[int, int, int]]) -> ctypes.Array[CTx]:
    """An array of the transactions, with at least one place, so that its address is valid."""
    try:
        packed = b"".join(TX_FORM.pack(*tx) for tx in txs)
    except struct.error as fault:
        raise ValueError(f"no transaction: {fault}") from fault
    return (CTx * max(1, len(txs))).from_buffer_copy(packed or bytes(TX_FORM.size))
