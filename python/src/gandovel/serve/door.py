"""The begin of a connection by TLS: handshakes are counted and timed, so that silent ones keep nobody out."""
from __future__ import annotations

import asyncio
import logging
import socket
import ssl
from collections import Counter
from typing import Any, Callable, Counter as Counts, Dict, Optional, Tuple

LOG = logging.getLogger("gandovel.serve")
CIPHERS = "ECDHE+AESGCM:ECDHE+CHACHA20"
"""Of TLS 1.2 those that authenticate what they encrypt (AEAD), by keys of their own; TLS 1.3 has no others."""
HANDSHAKE_SECONDS = 10.0
MOST_HANDSHAKES = 256
"""How many may be under way: beyond them the oldest one goes, of the address that has most."""
REST = 0.1
"""Seconds until it is accepted again, where the system had no file for a connection."""


def context_of(certificate: str, key: Optional[str]) -> ssl.SSLContext:
    """What TLS is done by. Raises `OSError`, `ssl.SSLError`."""
    context = ssl.SSLContext(ssl.PROTOCOL_TLS_SERVER)
    context.minimum_version = ssl.TLSVersion.TLSv1_2
    context.set_ciphers(CIPHERS)
    context.options |= ssl.OP_NO_COMPRESSION | ssl.OP_NO_RENEGOTIATION | ssl.OP_CIPHER_SERVER_PREFERENCE
    context.load_cert_chain(certificate, key)
    return context


class Door:
    """Accepts connections, and hands each on to a protocol of its own once its handshake is done."""

    def __init__(self, listener: socket.socket, context: ssl.SSLContext, made: Callable[[], Any]) -> None:
        """Takes a socket that listens and does not block, and what makes a protocol."""
        self._listener, self._context, self._made = listener, context, made
        self._under_way: Dict["asyncio.Task[None]", Tuple[str, socket.socket]] = {}
        """Handshakes, the oldest first: the client's address, and its socket."""
        self._counts: Counts[str] = Counter()

    async def run(self) -> None:
        """Accepts until it is cancelled."""
        loop = asyncio.get_running_loop()
        while True:
            try:
                client, address = await loop.sock_accept(self._listener)
            except OSError as fault:
                LOG.error("a connection can't be accepted: %s", fault)
                await asyncio.sleep(REST)
                continue
            if len(self._under_way) >= MOST_HANDSHAKES:
                self._give_way()
            task = loop.create_task(self._begin(client))
            self._under_way[task] = str(address[0]), client
            self._counts[str(address[0])] += 1
            task.add_done_callback(self._leave)

    async def _begin(self, client: socket.socket) -> None:
        try:
            await asyncio.get_running_loop().connect_accepted_socket(
                self._made,
                client,
                ssl=self._context,
                ssl_handshake_timeout=HANDSHAKE_SECONDS,
                ssl_shutdown_timeout=HANDSHAKE_SECONDS,
            )
        except (OSError, ssl.SSLError, asyncio.TimeoutError):
            client.close()

    def _leave(self, task: "asyncio.Task[None]") -> None:
        known = self._under_way.pop(task, None)
        if known is not None:
            self._counts -= Counter([known[0]])  # which forgets those without any

    def _give_way(self) -> None:
        """Ends the oldest handshake of the address that has most."""
        ((most, _),) = self._counts.most_common(1)
        task, client = next((task, client) for task, (address, client) in self._under_way.items() if address == most)
        self._leave(task)
        task.cancel()
        try:
            client.shutdown(socket.SHUT_RDWR)  # else its end is waited for
        except OSError:
            pass
