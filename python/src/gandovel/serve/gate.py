"""What each request goes through before it is answered: who asks, limits of size, rate and time; and what it took."""
from __future__ import annotations

import asyncio
import logging
import re
import time
from functools import lru_cache
from typing import Any, Awaitable, Callable, Dict, List, MutableMapping, Optional, Tuple
from urllib.parse import urlsplit

from starlette.responses import JSONResponse
from uvicorn.middleware.proxy_headers import ProxyHeadersMiddleware

from .access import LOCAL, ROLES, Client, Clients
from .faults import as_json
from .metrics import Metrics
from .shares import Rates, Shares, Unsent

LOG = logging.getLogger("gandovel.serve")
Message = MutableMapping[str, Any]
Receive = Callable[[], Awaitable[Message]]
Send = Callable[[Message], Awaitable[None]]
App = Callable[[MutableMapping[str, Any], Receive, Send], Awaitable[None]]
MOST_BODY = 1 << 20
"""Bytes of a request's body: a line of a session has at most as many."""
BODY_SECONDS = 20.0
"""Seconds that a client has to send a body."""
SEND_SECONDS = 30.0
"""Seconds that a client may read nothing of what it is sent."""
_OPEN = re.compile(r"/|/health|/page/(map/)?[a-z_.]{1,40}")
"""What anyone may ask for: the page itself, which has nothing of the register, and whether it serves."""
_LOOPBACK = re.compile(r"(localhost|127\.[0-9.]+|\[::1\])(:[0-9]+)?")
_POLICY = (
    "default-src 'self'; img-src 'self' data:{}; style-src 'self' 'unsafe-inline'; base-uri 'none'; "
    "form-action 'self'; frame-ancestors 'none'"
)
"""Where the page may load what from; a base map's pictures from its server, too."""
_BY_TLS = (b"strict-transport-security", b"max-age=31536000")
_FORWARDED = frozenset((b"x-forwarded-for", b"x-forwarded-proto"))


class Gate:
    """The application that uvicorn calls; what passes goes to the one within."""

    def __init__(
        self,
        app: App,
        clients: Optional[Clients],
        rate: float,
        metrics: Metrics,
        proxies: str,
        connections: int = 1000,
        base_map: Optional[str] = None,
    ) -> None:
        """`app` is the application within, `proxies` the addresses of those whose word on their client is taken.

        `connections` is how many connections the server has: of one client it takes half as many requests, and an
        eighth as many streams. `base_map` is an address that the page has pictures of.
        """
        self._app, self._clients, self._metrics = app, clients, metrics
        self._rates, self._shares, self._unsent = Rates(rate), Shares(connections), Unsent()
        pictures = "" if base_map is None else " {0.scheme}://{0.netloc}".format(urlsplit(base_map))
        self._always = [
            (b"content-security-policy", _POLICY.format(pictures).encode()),
            (b"x-content-type-options", b"nosniff"),
            (b"referrer-policy", b"no-referrer"),
        ]
        self._forwarded: Any = ProxyHeadersMiddleware(self._take, proxies)

    async def __call__(self, scope: MutableMapping[str, Any], receive: Receive, send: Send) -> None:
        if scope["type"] != "http":
            return
        if _FORWARDED.isdisjoint(name for name, _ in scope["headers"]):
            await self._take(scope, receive, send)
        else:
            await self._forwarded(scope, receive, send)

    async def _take(self, scope: MutableMapping[str, Any], receive: Receive, send: Send) -> None:
        begun = time.perf_counter()
        sent = _Sent(send, scope, self._always)
        try:
            await self._answer(scope, receive, sent)
        except _Enough:
            pass
        except TimeoutError:
            LOG.warning("a client that read nothing was cut off")
            sent.cut_off()
        except Exception:
            LOG.exception("a request was not answered")
            if not sent.status:
                await refuse(sent, scope, receive, 500, "fault", "the server has a fault here: tell its operator when")
        self._metrics.answered(scope["path"], sent.status, time.perf_counter() - begun)

    async def _answer(self, scope: MutableMapping[str, Any], receive: Receive, send: "_Sent") -> None:
        refusal = self._refusal(scope, dict(scope["headers"]))
        if refusal is not None:
            await refuse(send, scope, receive, *refusal)
            return
        client: Optional[Client] = scope["state"]["client"]
        name = client.name if client else (scope.get("client") or ("",))[0]
        is_stream = scope["path"] == "/changes"
        if not self._unsent.takes(name):
            await refuse(send, scope, receive, 429, "unread", "you have not read what you were sent: read it first")
            return
        if not self._shares.begin(name, is_stream):
            text = "too many requests of yours are under way: send the next one when one is answered"
            await refuse(send, scope, receive, 429, "share", text)
            return
        try:
            await self._hand_on(scope, receive, send)
        finally:
            self._shares.end(name, is_stream)
            if send.connection is not None:
                self._unsent.note(name, send.connection)

    async def _hand_on(self, scope: MutableMapping[str, Any], receive: Receive, send: "_Sent") -> None:
        """Answers a request that may be answered; of HEAD as of GET, without the body."""
        if scope["method"] == "HEAD":
            scope = {**scope, "method": "GET"}
        body: Receive = receive
        if scope["method"] != "GET" and not _is_here(scope):
            body = _Body(receive)
        await self._app(scope, body, send)

    def _refusal(self, scope: MutableMapping[str, Any], headers: Dict[bytes, bytes]) -> Optional[Tuple[int, str, str]]:
        """Why a request goes no further: status, code and text; else None, and `scope` has its client."""
        if self._clients is None and not _is_local(headers):
            return (
                403,
                "host",
                "without --tokens or --oidc the server answers on this machine alone, by the name localhost",
            )
        if scope["method"] not in ("GET", "HEAD") and not _is_own(headers):
            return 403, "origin", "a page of another site may not send this"
        is_open = scope["method"] in ("GET", "HEAD") and self.is_open(scope["path"])
        client: Optional[Client] = LOCAL
        if self._clients is not None:
            client = self._clients.client(headers.get(b"authorization", b"").decode("latin-1"))
        if not self._rates.takes(client.name if client else (scope.get("client") or ("",))[0]):
            return 429, "rate", "too many requests: send fewer in a second"
        if client is None and not is_open:
            return 401, "token", "a token is needed that the server knows: Authorization: Bearer TOKEN"
        wanted = 0 if is_open else _role_for(scope["path"], scope["method"])
        if client is not None and client.role < wanted:
            return 403, "role", f"this is for the role {ROLES[wanted]}, and the token's is {ROLES[client.role]}"
        length = headers.get(b"content-length", b"0")
        if not length.isdigit() or int(length) > MOST_BODY:
            return 413, "size", f"a body has at most {MOST_BODY} bytes"
        scope.setdefault("state", {})["client"] = client
        return None

    def is_open(self, path: str) -> bool:
        """Whether anyone may ask for an address."""
        return _is_open(path)


class _Enough(Exception):
    """A client that asked for the head alone has it: the body is not waited for."""


class _Sent:
    """Hands on what is sent, within a time, with the headers that all answers have; and knows the status."""

    def __init__(self, send: Send, scope: MutableMapping[str, Any], always: List[Tuple[bytes, bytes]]) -> None:
        self._send, self.connection = send, scope.get("gandovel.connection")
        self._is_head = scope["method"] == "HEAD"
        self._always = [*always, _BY_TLS] if scope["scheme"] == "https" else always
        self.status = 0

    async def __call__(self, message: Message) -> None:
        if message["type"] == "http.response.start":
            self.status = message["status"]
            message["headers"] = [*message["headers"], *self._always]
        elif self._is_head:
            await self._hand_on({"type": "http.response.body", "body": b""})
            raise _Enough
        await self._hand_on(message)

    async def _hand_on(self, message: Message) -> None:
        if self.connection is not None and not self.connection.flow.write_paused:
            await self._send(message)  # it waits for nothing then
            return
        async with asyncio.timeout(SEND_SECONDS):
            await self._send(message)

    def cut_off(self) -> None:
        """Ends the connection without a wait for what it has not read."""
        if self.connection is not None:
            self.connection.transport.abort()


class _Body:
    """Hands on what comes of a body, up to a size and a time; then it is as if the client had gone."""

    def __init__(self, receive: Receive) -> None:
        self._receive = receive
        self._size, self._until, self._is_whole = 0, time.monotonic() + BODY_SECONDS, False

    async def __call__(self) -> Message:
        if self._is_whole:
            return await self._receive()
        try:
            async with asyncio.timeout(max(0.0, self._until - time.monotonic())):
                message = await self._receive()
        except TimeoutError:
            return {"type": "http.disconnect"}
        self._size += len(message.get("body", b""))
        self._is_whole = not message.get("more_body", False)
        return message if self._size <= MOST_BODY else {"type": "http.disconnect"}


def _is_here(scope: MutableMapping[str, Any]) -> bool:
    """Whether the whole body is here, and small: nothing of it is waited for then."""
    cycle = scope.get("gandovel.cycle")
    return cycle is not None and not cycle.more_body and len(cycle.body) <= MOST_BODY


def _is_local(headers: Dict[bytes, bytes]) -> bool:
    """Whether the request is meant for this machine: a name that another server gave to it is none."""
    return _is_loopback(headers.get(b"host", b""))


@lru_cache(maxsize=1000)
def _is_loopback(host: bytes) -> bool:
    return bool(_LOOPBACK.fullmatch(host.decode("latin-1")))


@lru_cache(maxsize=1000)
def _is_open(path: str) -> bool:
    return bool(_OPEN.fullmatch(path))


def _is_own(headers: Dict[bytes, bytes]) -> bool:
    """Whether no page of another site sent the request."""
    origin = headers.get(b"origin")
    return origin is None or origin.partition(b"://")[2] == headers.get(b"host")


def _role_for(path: str, method: str) -> int:
    if path.startswith("/metrics"):
        return 2
    return 1 if path.startswith(("/edits", "/drafts")) and method not in ("GET", "HEAD") else 0


async def refuse(send: Send, scope: Any, receive: Receive, status: int, code: str, text: str) -> None:
    """Answers a request that is not carried out."""
    headers = {"connection": "close"} if status in (413, 500) else {}
    if status == 401:
        headers["www-authenticate"] = 'Bearer realm="register", Basic realm="register"'
    if status in (429, 503):
        headers["retry-after"] = "1"
    await JSONResponse(as_json(status, code, text), status, headers)(scope, receive, send)
