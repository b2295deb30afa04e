"""Running the server: uvicorn with limits on connections, the register's start and end, and signals."""
from __future__ import annotations

import argparse
import asyncio
import gc
import ipaddress
import logging
import os
import resource
import socket
import ssl
import sys
from collections import Counter
from functools import partial
from pathlib import Path
from typing import Any, Callable, ClassVar, Dict, Optional, Tuple

import uvicorn
from starlette.middleware.cors import CORSMiddleware
from uvicorn.protocols.http.httptools_impl import HttpToolsProtocol

from ..errors import Refused
from ..live.checkpoint import is_checkpoint
from ..live.witness import Witness
from ..metropolis.manifest import is_metropolis
from .access import Clients, Tokens
from .app import application
from .direct import Direct
from .door import Door, context_of
from .faulty import FaultyRegister, is_of_layer
from .gate import Gate
from .layer import Layer
from .metrics import Metrics
from .register import Register
from .representations import Representations
from .site import Site

LOG = logging.getLogger("gandovel.serve")
HEAD_SECONDS = 10.0
"""Seconds that a connection has until a request's head is whole, from its begin or since the last request."""
WATCH_SECONDS = 1.0
"""How often it is looked for connections that are late."""
END_SECONDS = 20.0
"""Seconds that clients have to read their answers once the server is told to end."""
CLOSE_SECONDS = 1.0
"""Seconds that a client that was sent all has to answer the end of TLS then."""
BEYOND = 4
"""Connections beyond this many times the limit are closed without an answer."""
_CORS_TAKEN = ("Authorization", "If-None-Match")
_CORS_SHOWN = ("Gandovel-Entries", "Content-Crs", "ETag", "Link")


class Connection(HttpToolsProtocol):  # type: ignore[misc]
    """uvicorn's connection, that is closed where no request comes of it in time.

    Where there are more than the limit, the one that has asked nothing for longest goes; where each has, the new one is
    told so, and far beyond the limit it is closed.
    """

    _silent: ClassVar[Dict["Connection", float]] = {}
    """Those that a request's head is awaited of, and since when, the oldest first."""
    _idle: ClassVar[Dict["Connection", None]] = {}
    """Those whose last request was answered, the one that is idle for longest first."""
    _of: ClassVar[Counter[str]] = Counter()
    """How many there are of each address, but for proxies'."""
    proxies: ClassVar[Tuple[str, ...]] = ("127.0.0.1",)
    _watch: ClassVar[Optional[asyncio.TimerHandle]] = None
    """It looks for those that are late, where there are any."""

    def connection_made(self, transport: Any) -> None:
        super().connection_made(transport)
        self._address = str((self.client or ("",))[0])
        self._of[self._address] += 1
        if self._is_too_much():
            transport.abort()
            return
        if self.limit_concurrency and len(self.connections) >= self.limit_concurrency:
            for quiet in self._idle or self._silent:
                quiet._too_slow()
                break
        if self.limit_concurrency and len(self.connections) > BEYOND * self.limit_concurrency:
            transport.abort()
            return
        self._wait()

    def _is_too_much(self) -> bool:
        """Whether this address has more than half of the connections. Proxies and others of no address may."""
        if not self.limit_concurrency or self._address in ("", *self.proxies) or "*" in self.proxies:
            return False
        return bool(self._of[self._address] > max(1, self.limit_concurrency // 2))

    def connection_lost(self, exc: Optional[Exception]) -> None:
        self._of[self._address] -= 1
        if not self._of[self._address]:
            del self._of[self._address]
        self._silent.pop(self, None)
        self._idle.pop(self, None)
        super().connection_lost(exc)

    def data_received(self, data: bytes) -> None:
        self._idle.pop(self, None)
        super().data_received(data)
        if self.cycle is None or self.cycle.response_complete:  # the begin of a head
            self._wait()

    def on_response_complete(self) -> None:
        super().on_response_complete()
        if not self.transport.is_closing() and not self.pipeline and self.cycle.response_complete:
            self._idle[self] = None

    def on_headers_complete(self) -> None:
        self._silent.pop(self, None)
        scope = self.scope
        scope["gandovel.connection"] = self
        super().on_headers_complete()
        if self.cycle is not None and self.cycle.scope is scope:
            scope["gandovel.cycle"] = self.cycle

    def shutdown(self) -> None:
        """The server ends: a client that says nothing holds it up no longer than it has something to read."""
        super().shutdown()
        if self.transport.is_closing() and not self.transport.get_write_buffer_size():
            self.loop.call_later(CLOSE_SECONDS, self.transport.abort)

    def _wait(self) -> None:
        if self not in self._silent and not self.transport.is_closing():
            self._silent[self] = self.loop.time()
            if Connection._watch is None:
                Connection._watch = self.loop.call_later(WATCH_SECONDS, self._look, self.loop)

    @classmethod
    def _look(cls, loop: asyncio.AbstractEventLoop) -> None:
        """Closes those that are late; it is done again while a head of any is awaited."""
        late = loop.time() - HEAD_SECONDS
        while cls._silent and next(iter(cls._silent.values())) < late:
            next(iter(cls._silent))._too_slow()
        cls._watch = loop.call_later(WATCH_SECONDS, cls._look, loop) if cls._silent else None

    def _too_slow(self) -> None:
        self._silent.pop(self, None)
        self._idle.pop(self, None)
        self.connections.discard(self)  # it counts no more, though it is closed a moment later
        self.transport.abort()


class Server(uvicorn.Server):  # type: ignore[misc]
    """uvicorn's server, that tells the register at once when it has to end, and says where it listens."""

    def __init__(
        self, config: uvicorn.Config, register: Register, address: str, security: Optional[ssl.SSLContext]
    ) -> None:
        super().__init__(config)
        self._register, self._address, self._security = register, address, security
        self._door: Optional["asyncio.Task[None]"] = None
        self._ending: Optional["asyncio.Task[None]"] = None

    async def startup(self, sockets: Any = None) -> None:
        if self._security is None:
            await super().startup(sockets=sockets)
        else:
            await super().startup(sockets=[])
            made = partial(Connection, config=self.config, server_state=self.server_state)
            sockets[0].setblocking(False)
            sockets[0].listen(self.config.backlog)
            self._door = asyncio.get_running_loop().create_task(Door(sockets[0], self._security, made).run())
        print(f"serving {self.told()} at {self._address}", flush=True)

    def told(self) -> str:
        """What is served."""
        faults = self._register.faults
        return f"{len(self._register.entries)} entries" if faults is None else f"a layer with {len(faults)} faults"

    async def shutdown(self, sockets: Any = None) -> None:
        if self._door is not None:
            self._door.cancel()
        await super().shutdown(sockets=sockets)

    def handle_exit(self, sig: Any, frame: Any) -> None:
        super().handle_exit(sig, frame)
        loop = asyncio.get_running_loop()
        if self._ending is None:
            self._ending = loop.create_task(self._register.close())
            loop.call_later(END_SECONDS, self._give_up)

    async def ended(self) -> None:
        """Once the register is closed."""
        if self._ending is None:
            await self._register.close()
        else:
            await self._ending

    def _give_up(self) -> None:
        self.force_exit = True


def serve(options: argparse.Namespace) -> None:
    """Serves a register until a signal. Refused W1 to W5, W7, P1, and as a session's start is."""
    logging.basicConfig(stream=sys.stderr, format="%(asctime)s %(message)s", level=logging.WARNING)
    _raise_limit(options.clients)
    clients = _clients(options)
    if clients is None and not _is_loopback(options.host):
        text = f"only this machine is answered: leave out --host {options.host}, or give --tokens or --oidc"
        raise Refused("W4", f"without --tokens or --oidc {text}")
    security = _security(options.certfile, options.keyfile)
    folder, journal = Path(options.folder), Path(options.journal).absolute()
    witness = None if options.witness is None else Path(options.witness).absolute()
    if is_metropolis(folder):
        _serve_metropolis(options, clients, security)
        return
    if folder.resolve() in journal.resolve().parents and not is_checkpoint(folder):
        raise Refused(
            "W2", "the journal may not lie in the layer's folder, which prepare replaces: give it another folder"
        )
    if witness is not None and folder.resolve() in witness.resolve().parents:
        raise Refused("W2", "the witness may not lie in the layer's folder: give it another one, best on another disk")
    layer = Layer.of(folder, options.island, options.crs)
    islands = len(layer.prepared.islands)
    if islands > 1:
        text = f"island {options.island} of {islands} is served, with {layer.count} parcels: name another by --island"
        print(f"note: {text}", file=sys.stderr, flush=True)
    if layer.most_are_dates:
        text = "most numbers look like dates to GDAL and QGIS: set OGR_GEOJSON_DATE_AS_STRING=YES where they run"
        print(f"note: {text}", file=sys.stderr, flush=True)
    listener = _listener(options.host, options.port)
    try:
        _loop()(_run(options, Register(layer, journal, options.keep, witness), clients, listener, security))
    finally:
        listener.close()


def _serve_metropolis(
    options: argparse.Namespace, clients: Optional[Clients], security: Optional[ssl.SSLContext]
) -> None:
    """Serves a register of districts. Refused W2, W8, P1, P14."""
    from ..metropolis.server import metropolis_of, run_metropolis

    if options.witness is not None:
        raise Refused("W2", "--witness is of one journal, and districts have one each: leave it out")
    metropolis = metropolis_of(options)
    listener = _listener(options.host, options.port)
    try:
        _loop()(run_metropolis(options, metropolis, clients, listener, security))
    finally:
        listener.close()


async def _started(register: Register, island: int) -> Register:
    """The register once it is open; where its parcels do not tile, and there is no journal yet, for reading alone.

    Raises as `Register.start` does.
    """
    was_there = register.journal.exists()
    try:
        await register.start()
        return register
    except Refused as fault:
        if was_there or not is_of_layer(fault):
            raise
        register.journal.unlink(missing_ok=True)  # the session made it before it read the parcels
        faulty = FaultyRegister(register.layer, register.journal, island)
        assert faulty.faults is not None
        text = f"the parcels have {len(faulty.faults)} faults ({fault.code} {fault.text}): they are served for reading"
        print(f"note: {text}, and no edit is taken", file=sys.stderr, flush=True)
    await faulty.start()
    return faulty


def _show_witness(metrics: Metrics, witness: Witness) -> None:
    """Has the metrics say how far the journal is anchored."""
    metrics.show("witness_entries", "The last entry of the journal that its witness has", lambda: witness.number)


async def _run(
    options: argparse.Namespace,
    register: Register,
    clients: Optional[Clients],
    listener: socket.socket,
    security: Optional[ssl.SSLContext],
) -> None:
    register = await _started(register, options.island)
    gc.freeze()  # what is there now stays: no search for what is lost goes through it
    metrics = Metrics(register)
    if register.witness is not None:
        _show_witness(metrics, register.witness)
    base_map = getattr(options, "base_map", None)
    site, proxies = Site(register, metrics, options.url, base_map), os.environ.get("FORWARDED_ALLOW_IPS", "127.0.0.1")
    inner = application(site, options.oidc)
    within = Direct(inner, Representations(inner))
    app: Any = Gate(within, clients, options.rate, metrics, proxies, options.clients, base_map)
    await run_application(options, app, register, listener, security)


async def run_application(
    options: argparse.Namespace,
    app: Any,
    register: Any,
    listener: socket.socket,
    security: Optional[ssl.SSLContext],
    made: "Callable[..., Server] | None" = None,
) -> None:
    """Serves an application until a signal, and closes its register then. `made` makes the server (`Server`)."""
    proxies = os.environ.get("FORWARDED_ALLOW_IPS", "127.0.0.1")
    Connection.proxies = tuple(it.strip() for it in proxies.split(","))
    if options.cors:
        app = CORSMiddleware(app, options.cors, ("GET", "HEAD"), _CORS_TAKEN, expose_headers=_CORS_SHOWN, max_age=600)
    config = uvicorn.Config(
        app,
        http=Connection,
        ws="none",
        lifespan="off",
        log_level="error",
        access_log=False,
        server_header=False,
        proxy_headers=False,  # the gate sees to them
        timeout_keep_alive=30,
        backlog=4096,
        limit_concurrency=options.clients,
    )
    scheme = "http" if security is None else "https"
    host, port = listener.getsockname()[:2]
    address = f"{scheme}://{f'[{host}]' if ':' in host else host}:{port}/"
    server = (made or Server)(config, register, address, security)
    try:
        await server.serve(sockets=[listener])
    finally:
        await server.ended()


def _clients(options: argparse.Namespace) -> Optional[Clients]:
    """Who is known; None where no token is asked for. Refused W1, W5, W7."""
    if options.tokens is None and options.oidc is None:
        return None
    tokens, issuer = None if options.tokens is None else Tokens(Path(options.tokens)), None
    if options.oidc is not None:
        try:
            from .oidc import Issuer
        except ModuleNotFoundError as fault:
            raise Refused("W5", f"{fault.name} is not there: install python3-authlib for --oidc") from None
        issuer = Issuer(options.oidc, options.oidc_audience)
    return Clients(tokens, issuer)


def _loop() -> Any:
    """What runs a coroutine: uvloop where it is there."""
    try:
        import uvloop
    except ModuleNotFoundError:
        return asyncio.run

    def run(work: Any) -> None:
        with asyncio.Runner(loop_factory=uvloop.new_event_loop) as runner:
            runner.run(work)

    return run


def _listener(host: str, port: int) -> socket.socket:
    try:
        family = socket.getaddrinfo(host, port, type=socket.SOCK_STREAM)[0][0]
        listener = socket.socket(family, socket.SOCK_STREAM)
        listener.setsockopt(socket.SOL_SOCKET, socket.SO_REUSEADDR, 1)
        listener.bind((host, port))
    except (OSError, OverflowError) as fault:
        raise Refused("W4", f"{host} port {port} can't be listened at: {getattr(fault, 'strerror', fault)}") from fault
    return listener


def _is_loopback(host: str) -> bool:
    if host == "localhost":
        return True
    try:
        return ipaddress.ip_address(host).is_loopback
    except ValueError:
        return False


def _security(certificate: Optional[str], key: Optional[str]) -> Optional[ssl.SSLContext]:
    """What TLS is done by; None without a certificate. Refused W4."""
    if certificate is None:
        return None
    try:
        return context_of(certificate, key)
    except (OSError, ssl.SSLError) as fault:
        raise Refused("W4", f"the certificate, or its key, can't be read: {fault}") from None


def _raise_limit(clients: int) -> None:
    """Lets the process have as many files open as the clients need, where the system allows it."""
    soft, hard = resource.getrlimit(resource.RLIMIT_NOFILE)
    wanted = (BEYOND + 1) * clients + 200
    if soft != resource.RLIM_INFINITY and soft < wanted:
        most = wanted if hard == resource.RLIM_INFINITY else min(wanted, hard)
        resource.setrlimit(resource.RLIMIT_NOFILE, (most, hard))
