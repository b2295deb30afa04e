"""Running the server of a metropolis."""
from __future__ import annotations

import argparse
import gc
import os
import socket
import ssl
from pathlib import Path
from typing import Any, Optional

from ..errors import Refused
from ..serve.access import Clients
from ..serve.app import bare_application
from ..serve.gate import Gate
from ..serve.metrics import Metrics
from ..serve.representations import Representations
from ..serve.server import Server, run_application
from .office import Metropolis
from .routes import Place, routers
from .zones import Zones

AWAKE = 16
"""How many districts may be awake while nobody asks them, where nothing else is said."""


class MetropolisGate(Gate):
    """The gate of a metropolis."""

    def is_open(self, path: str) -> bool:
        """Whether the server is open; its page has entries, and is for readers."""
        return path == "/health"


class MetropolisServer(Server):
    """The server, that says how many districts there are."""

    def told(self) -> str:
        """What is served."""
        return f"{len(self.metropolis.districts)} districts with {len(self.metropolis.entries)} entries"

    metropolis: Metropolis


def metropolis_of(options: argparse.Namespace) -> Metropolis:
    """The metropolis that a command line names. Refused P1, P14, W2, W8; `JournalInUse`."""
    folder, journals = Path(options.folder).absolute(), Path(options.journal).absolute()
    if journals.exists() and not journals.is_dir():
        raise Refused("W2", f"{journals} is a file: a register of districts has a folder of journals")
    if folder.resolve() in (journals.resolve(), *journals.resolve().parents):
        raise Refused(
            "W2", "the journals may not lie in the layer's folder, which prepare replaces: give them another folder"
        )
    if options.awake is not None and options.awake < 1:
        raise Refused("W2", "--awake is a whole number from 1")
    return Metropolis(folder, journals, options.awake or AWAKE, options.keep, options.crs)


async def run_metropolis(
    options: argparse.Namespace,
    metropolis: Metropolis,
    clients: Optional[Clients],
    listener: socket.socket,
    security: Optional[ssl.SSLContext],
) -> None:
    """Serves it until a signal. Refused W8, and as the zones are."""
    zones = Zones(metropolis.now.folder, metropolis.now.manifest) if metropolis.now.manifest.zones else None
    try:
        if zones is not None:
            zones.test()
        await metropolis.start()
        metrics = Metrics(metropolis)
        place = Place(metropolis, metrics, zones, options.url)
        await place.edits.settle()
    except BaseException:
        await metropolis.close()
        raise
    gc.freeze()
    gate = _gate(options, place, clients)
    await run_application(options, gate, metropolis, listener, security, _server)


def _gate(options: argparse.Namespace, place: Place, clients: Optional[Clients]) -> Gate:
    text = "Districts whose parcels tile a city, exactly, by a formally verified program"
    app = bare_application("A parcel register in districts", text)
    for router in routers(place, app, options.oidc):
        app.include_router(router)
    proxies = os.environ.get("FORWARDED_ALLOW_IPS", "127.0.0.1")
    within: Any = Representations(app)
    return MetropolisGate(within, clients, options.rate, place.metrics, proxies, options.clients)


def _server(config: Any, metropolis: Any, address: str, security: Optional[ssl.SSLContext]) -> Server:
    server = MetropolisServer(config, metropolis, address, security)
    server.metropolis = metropolis
    return server
