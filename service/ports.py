"""The ports of a replica as its clients and its operator use them."""

from __future__ import annotations

import asyncio
import ssl
from contextlib import suppress
from dataclasses import dataclass
from functools import lru_cache
from pathlib import Path

from service.identities import FIRST, key_pair

ANSWER_WITHIN = 120.0       # a wait for longer hangs
UNKNOWN = "bad no such command"
MAX_LINE = 1 << 20
Streams = tuple[asyncio.StreamReader, asyncio.StreamWriter]


@dataclass(frozen=True)
class Port:
    """Where one replica takes clients, and its operator."""

    host: str
    port: int
    operator: Path              # the operator's socket
    certificate: Path | None    # the replica's; None without TLS
    clients: Path               # the folder of clients' certificates and keys

    async def open(self, client: int = FIRST, limit: int = MAX_LINE) -> Streams:
        """A connection of a client."""
        tls = None
        if self.certificate is not None:
            tls = context_of(self.certificate, *key_pair(self.clients, client))
        return await asyncio.open_connection(self.host, self.port, limit=limit, ssl=tls)

    async def ask(self, line: str, client: int = FIRST) -> str:
        """The answer to one line of a client."""
        async with asyncio.timeout(ANSWER_WITHIN):
            return await answer(await self.open(client), line)

    async def order(self, line: str) -> str:
        """The answer to one line of the operator."""
        async with asyncio.timeout(ANSWER_WITHIN):
            streams = await asyncio.open_unix_connection(self.operator, limit=MAX_LINE)
            return await answer(streams, line)

    async def end_session(self, session: int) -> None:
        """Asks the replica for the end of this session, where it runs it and where it answers. A
        replica that takes no number is asked for the end of the one that runs."""
        with suppress(OSError, TimeoutError):
            if await self.order(f"close {session}") == UNKNOWN:
                await self.order("close")


async def answer(streams: Streams, line: str) -> str:
    reader, writer = streams
    try:
        writer.write(line.encode() + b"\n")
        return (await reader.readline()).decode().strip()
    finally:
        writer.close()


@lru_cache(maxsize=1000)
def context_of(replica: Path, certificate: Path, key: Path) -> ssl.SSLContext:
    """Shows a client's certificate, and demands the replica's own: the certificate itself, so no
    name is compared."""
    made = ssl.create_default_context(cafile=replica)
    made.minimum_version = ssl.TLSVersion.TLSv1_3
    made.check_hostname = False
    made.load_cert_chain(certificate, key)
    return made
