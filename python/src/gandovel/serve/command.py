"""The commands `gandovel serve` and `gandovel backup`."""
from __future__ import annotations

import argparse
import re
from pathlib import Path
from typing import Any

from ..errors import JournalRefused, Refused

_WORDS = {
    "no journal": "its first line is no journal's: name the file that a session wrote by --journal",
    "changed": "this line, or the one behind it, is not as a session wrote it: take the file from a backup",
    "another layer": "it was begun with other parcels: name the folder of its own layer, or another journal",
}
"""What is wrong with a journal, by the code of its refusal."""
_NO_FIT = "this edit does not fit the layer: name the folder of the journal's own layer, or take the file from a backup"


def add_commands(commands: Any) -> None:
    """Adds both to the commands of a command line."""
    one = commands.add_parser("serve", help="a register on the web, for clerks, readers and a GIS")
    one.add_argument("folder", metavar="FOLDER", help="what prepare wrote")
    one.add_argument(
        "--journal",
        required=True,
        metavar="FILE",
        help="the journal, or of districts the folder of journals; it is made",
    )
    one.add_argument(
        "--witness", metavar="FILE", help="keeps the journal's last number and digest on another disk, too; it is made"
    )
    one.add_argument("--island", type=int, default=1, metavar="N", help="the island of the register (1)")
    one.add_argument("--crs", metavar="EPSG:CODE", help="the projection of a layer that has none")
    one.add_argument("--awake", type=int, metavar="N", help="districts that stay open while nobody asks them (16)")
    _add_server(one)
    two = commands.add_parser("backup", help="copies a register that may be open: layer, journal and digests")
    two.add_argument("folder", metavar="FOLDER", help="what prepare wrote, or with --check a backup")
    two.add_argument("--journal", metavar="FILE", help="the register's journal")
    two.add_argument("--out", metavar="BACKUP", help="the folder to write, which is not there yet")
    two.add_argument("--check", action="store_true", help="tests a backup, whole and by its digests")


def _add_server(one: Any) -> None:
    """Adds what is of the server, and not of its register."""
    one.add_argument("--host", default="127.0.0.1", help="the address to listen at (127.0.0.1)")
    one.add_argument("--port", type=int, default=8080, help="the port; 0 for any that is free (8080)")
    one.add_argument(
        "--tokens",
        metavar="FILE",
        help="lines NAME reader|clerk|operator SHA256, mode 0600; " "without it only this machine is answered",
    )
    one.add_argument("--oidc", metavar="ISSUER", help="the address of an OpenID issuer, whose tokens are taken, too")
    one.add_argument("--oidc-audience", metavar="NAME", default="gandovel", help="the `aud` of its tokens (gandovel)")
    one.add_argument("--certfile", metavar="FILE", help="the certificate, for TLS")
    one.add_argument("--keyfile", metavar="FILE", help="its key, where that is another file")
    one.add_argument("--url", metavar="URL", help="the server's address as clients know it, behind a proxy")
    one.add_argument(
        "--base-map",
        type=_map_address,
        metavar="URL",
        help="a WMS with its layers, which the page shows below the parcels",
    )
    one.add_argument(
        "--rate", type=float, default=10_000.0, metavar="N", help="requests a second of one client (10000); 0 for any"
    )
    one.add_argument(
        "--cors",
        action="append",
        metavar="ORIGIN",
        help="pages of this origin may read, as https://maps.example; * for any; may be given again",
    )
    one.add_argument("--clients", type=int, default=1_000, metavar="N", help="connections at once (1000)")
    one.add_argument(
        "--keep",
        type=int,
        default=10_000,
        metavar="N",
        help="versions that can be asked for: so many entries back (10000)",
    )


def _map_address(text: str) -> str:
    """The address of a base map, as `https://maps.example/wms?layers=photo`."""
    if re.fullmatch(r"https?://[A-Za-z0-9.:\[\]-]+(/[^\s'\";,]*)?", text):
        return text
    raise argparse.ArgumentTypeError(
        "it begins with https:// and has the layers: https://maps.example/wms?layers=photo"
    )


def run_serve(options: argparse.Namespace) -> None:
    """Serves until SIGTERM or SIGINT. Refused W1 to W5, and as the register's start is."""
    try:
        from .server import serve
    except ModuleNotFoundError as fault:
        text = f"{fault.name} is not there: install python3-fastapi, uvicorn, python3-jinja2, python3-prometheus-client"
        raise Refused("W5", text) from None
    try:
        serve(options)
    except JournalRefused as fault:
        raise _in_words(fault, options.journal) from None


def run_backup(options: argparse.Namespace) -> None:
    """Makes a backup, or tests one. Refused P1, P14, W6."""
    from .backup import back_up, check_backup

    if options.check:
        print(check_backup(Path(options.folder)))
        return
    if options.journal is None or options.out is None:
        raise Refused("W6", "name the journal by --journal, and the folder to write by --out")
    try:
        print(back_up(Path(options.folder), Path(options.journal), Path(options.out)))
    except JournalRefused as fault:
        raise _in_words(fault, options.journal) from None


def _in_words(fault: JournalRefused, journal: str) -> Refused:
    """Why a journal is not taken: which, where in it, and what to do."""
    words = _WORDS.get(fault.code) or (_NO_FIT if re.fullmatch("E[0-9]+", fault.code) else "")
    if not words:
        return fault
    where = journal if fault.line is None else f"{journal} line {fault.line}"
    return Refused(fault.code, f"{where}: {words}")
