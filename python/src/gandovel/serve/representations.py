"""Answers to GET as HTTP wants them: ETag and 304, `Vary`, and gzip for those who take it."""
from __future__ import annotations

import asyncio
import gzip
import hashlib
import re
import secrets
from typing import Any, Dict, List, MutableMapping, Tuple

Message = MutableMapping[str, Any]
LEAST = 1000
"""Bytes of a body from which on it is packed."""
LARGE = 1 << 16
"""Bytes of a body from which on it is packed beside the event loop."""
LEVEL = 5
_PACKED = re.compile(r"(^|,)\s*(gzip|\*)\s*(;\s*q=(?!0(\.0*)?\s*(,|$))[0-9.]+\s*)?(,|$)", re.IGNORECASE)
_TAG = re.compile(rb'(?:W/)?"([^"]*)"')
_KEPT = (b"etag", b"vary", b"cache-control", b"gandovel-entries", b"content-location")
_VARY = (b"vary", b"Accept, Accept-Encoding")


class Representations:
    """An application whose answers to GET are kept until they are whole; those of a stream are handed on."""

    def __init__(self, app: Any) -> None:
        self._app, self._begun = app, secrets.token_hex(4).encode()

    async def __call__(self, scope: MutableMapping[str, Any], receive: Any, send: Any) -> None:
        if scope["type"] != "http" or scope["method"] != "GET":
            await self._app(scope, receive, send)
        else:
            await self._app(scope, receive, _Answer(send, dict(scope["headers"]), self._begun))


class _Answer:
    def __init__(self, send: Any, asked: Dict[bytes, bytes], begun: bytes) -> None:
        """`begun` is of this run of the server: what an older one answered may be made otherwise."""
        self._send, self._asked, self._begun = send, asked, begun
        self._start: Message = {}
        self._parts: List[bytes] = []
        self._is_stream = False

    async def __call__(self, message: Message) -> None:
        if message["type"] == "http.response.start":
            self._is_stream = (b"content-type", b"text/event-stream; charset=utf-8") in message["headers"]
            self._start = message
            if not self._is_stream:
                return
        elif message["type"] == "http.response.body" and not self._is_stream:
            self._parts.append(message.get("body", b""))
            if not message.get("more_body", False):
                await self._finish()
            return
        await self._send(message)

    async def _finish(self) -> None:
        body, raw = self._parts[0] if len(self._parts) == 1 else b"".join(self._parts), self._start["headers"]
        known = dict(raw)
        if self._start["status"] == 200 and known.get(b"cache-control") != b"no-store":
            tag = known.get(b"etag") or self._tag(body, known)
            added = ((b"etag", tag), (b"cache-control", b"no-cache"), _VARY)
            raw += [(name, value) for name, value in added if name not in known]
            if self._is_known(tag):
                await self._give(304, [(name, value) for name, value in raw if name in _KEPT], b"")
                return
        if len(body) >= LEAST and _PACKED.search(self._asked.get(b"accept-encoding", b"").decode("latin-1")):
            body = await _packed(body)
            raw = [(name, value) for name, value in raw if name != b"content-length"]
            raw += [(b"content-encoding", b"gzip"), (b"content-length", b"%d" % len(body))]
            raw += [] if any(name == b"vary" for name, _ in raw) else [_VARY]
        await self._give(self._start["status"], raw, body)

    async def _give(self, status: int, headers: List[Tuple[bytes, bytes]], body: bytes) -> None:
        await self._send({**self._start, "status": status, "headers": headers})
        await self._send({"type": "http.response.body", "body": body})

    def _tag(self, body: bytes, headers: Dict[bytes, bytes]) -> bytes:
        """By the version where the answer is of one: a body says when it was made."""
        entries = headers.get(b"gandovel-entries")
        if entries is None:
            return b'W/"%b"' % hashlib.sha256(body).hexdigest()[:20].encode()
        kind = b"html" if headers.get(b"content-type", b"").startswith(b"text/html") else b"json"
        return b'W/"%b-%b-%b"' % (self._begun, entries, kind)

    def _is_known(self, tag: bytes) -> bool:
        given = self._asked.get(b"if-none-match", b"")
        if not given:
            return False
        (own,) = _TAG.findall(tag)
        return given.strip() == b"*" or own in _TAG.findall(given)


async def _packed(body: bytes) -> bytes:
    if len(body) < LARGE:
        return gzip.compress(body, LEVEL, mtime=0)
    return await asyncio.get_running_loop().run_in_executor(None, lambda: gzip.compress(body, LEVEL, mtime=0))
