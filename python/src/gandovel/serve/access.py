"""Who may ask for what: clients' names and roles by their tokens, of which only digests are kept."""
from __future__ import annotations

import base64
import binascii
import hashlib
import hmac
import logging
import os
import re
import stat
import time
from dataclasses import dataclass
from pathlib import Path
from typing import List, Optional, Protocol, Tuple

from ..errors import Refused

LOG = logging.getLogger("gandovel.serve")
ROLES = ("reader", "clerk", "operator")
"""Each may do what those before it may."""
LOOK_AGAIN = 1.0
"""Seconds until it is looked whether the file has changed."""
_NAME = re.compile(r"[A-Za-z0-9][A-Za-z0-9._-]{0,63}")
_DIGEST = re.compile(r"[0-9a-f]{64}")


@dataclass(frozen=True)
class Client:
    """A name, which goes into the journal's records, and its role: 0 reader, 1 clerk, 2 operator."""

    name: str
    role: int


LOCAL = Client("local", 2)
"""Whoever asks from this machine, where there is no file of tokens."""


class Vouching(Protocol):
    """What vouches for clients by the tokens that they send."""

    def client(self, token: bytes) -> Optional[Client]:
        """Whose token it is; None where it is nobody's."""


class Clients:
    """Who is known by the header `Authorization`: by the file of tokens, else by an OpenID issuer."""

    def __init__(self, tokens: Optional["Tokens"], issuer: Optional[Vouching]) -> None:
        self._tokens, self._issuer = tokens, issuer

    def client(self, authorization: str) -> Optional[Client]:
        """Whose token the header has; None where it has none that is known."""
        found = self._tokens.client(authorization) if self._tokens is not None else None
        if found is not None or self._issuer is None:
            return found
        kind, _, token = authorization.partition(" ")
        return self._issuer.client(token.strip().encode("utf-8", "replace")) if kind.lower() == "bearer" else None


class Tokens:
    """The file of tokens: a line `NAME ROLE SHA256` for each. It is read anew where it changes."""

    def __init__(self, path: Path) -> None:
        """Reads the file. Refused W1 where it can't be read, others may read or write it, or a line is none."""
        self._path = path
        self._looked = time.monotonic()
        self._state = self._stamp()
        self._known = self._read()

    def client(self, authorization: str) -> Optional[Client]:
        """Whose token the header `Authorization` has: `Bearer TOKEN`, or `Basic` with the token as password."""
        self._look_again()
        token = _token_of(authorization)
        if token is None:
            return None
        digest = hashlib.sha256(token[1]).hexdigest()
        found = None
        for known, client in self._known:
            if hmac.compare_digest(known, digest):
                found = client
        return found if found is not None and token[0] in ("", found.name) else None

    def _look_again(self) -> None:
        now = time.monotonic()
        if now - self._looked < LOOK_AGAIN:
            return
        self._looked = now
        try:
            state = self._stamp()
            if state != self._state:
                self._known, self._state = self._read(), state
        except Refused as fault:
            LOG.error("the file of tokens is left as it was read before: %s", fault.text)

    def _stamp(self) -> Tuple[int, ...]:
        try:
            found = os.stat(self._path)
        except OSError as fault:
            raise Refused("W1", f"the file of tokens can't be read: {fault.strerror}") from fault
        if found.st_mode & (stat.S_IRWXG | stat.S_IRWXO):
            raise Refused("W1", "others may read or write the file of tokens: chmod 600 it")
        return found.st_mtime_ns, found.st_size, found.st_ino

    def _read(self) -> List[Tuple[str, Client]]:
        try:
            lines = self._path.read_text(encoding="utf-8").splitlines()
        except (OSError, UnicodeDecodeError) as fault:
            raise Refused("W1", "the file of tokens can't be read") from fault
        found = [_parsed(number, line) for number, line in enumerate(lines, 1) if line and not line.startswith("#")]
        if not found:
            raise Refused("W1", "the file of tokens has no line NAME ROLE SHA256")
        return found


def _parsed(number: int, line: str) -> Tuple[str, Client]:
    words = line.split()
    if len(words) == 3 and _NAME.fullmatch(words[0]) and words[1] in ROLES and _DIGEST.fullmatch(words[2].lower()):
        return words[2].lower(), Client(words[0], ROLES.index(words[1]))
    raise Refused("W1", f"line {number} of the file of tokens is not NAME reader|clerk|operator SHA256")


def _token_of(authorization: str) -> Optional[Tuple[str, bytes]]:
    """The name that the header gives, or none, and the token."""
    kind, _, rest = authorization.partition(" ")
    if kind.lower() == "bearer":
        return "", rest.strip().encode("utf-8", "replace")
    if kind.lower() == "basic":
        try:
            name, _, token = base64.b64decode(rest.strip(), validate=True).partition(b":")
        except (binascii.Error, ValueError):
            return None
        return name.decode("utf-8", "replace"), token
    return None
