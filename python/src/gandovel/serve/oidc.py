"""Clients whom an OpenID issuer vouches for: the signed tokens that it gives them, tested by its published keys."""
from __future__ import annotations

import hashlib
import ipaddress
import json
import logging
import re
import threading
import time
import urllib.request
from typing import Any, Dict, List, Optional, Tuple
from urllib.parse import urlsplit

from authlib.jose import JsonWebKey, JsonWebToken
from authlib.jose.errors import JoseError

from ..errors import Refused
from .access import ROLES, Client

LOG = logging.getLogger("gandovel.serve")
ALGORITHMS = ["RS256", "RS384", "RS512", "PS256", "PS384", "PS512", "ES256", "ES384", "ES512", "EdDSA"]
"""Signatures by a key that the issuer alone has: none by a secret that both know."""
SECONDS = 10.0
"""How long the issuer has for an answer."""
PAUSE = 60.0
"""Seconds until its keys are asked for again."""
LEEWAY = 30
"""Seconds that its clock and ours may differ by."""
MOST_KNOWN = 10_000
MOST_BYTES = 1 << 20
_NAME = re.compile(r"[A-Za-z0-9][A-Za-z0-9._@-]{0,63}")


class Issuer:
    """An OpenID issuer. A token's claims are `iss`, `aud`, `exp`, a name (`preferred_username`, else `sub`), and
    `roles` (or `realm_access.roles`, as Keycloak has them): reader, clerk or operator, of which the highest counts."""

    def __init__(self, address: str, audience: str) -> None:
        """Asks for its keys. Refused W7 where it does not answer, or is asked in clear text beyond this machine."""
        self._address, self._audience = address.rstrip("/"), audience
        self._decoder = JsonWebToken(ALGORITHMS)
        self._known: Dict[str, Tuple[Client, float]] = {}
        self._looking = threading.Lock()
        _test_address(self._address)
        try:
            self._keys = self._published()
        except (OSError, ValueError, KeyError, TypeError, JoseError) as fault:
            raise Refused("W7", f"{address} does not answer as an OpenID issuer: {fault}") from None
        self._looked = time.monotonic()

    def client(self, token: bytes) -> Optional[Client]:
        """Whose token this is; None where it is none of the issuer's for this server, or is over."""
        digest = hashlib.sha256(token).hexdigest()
        known = self._known.get(digest)
        if known is not None and time.time() < known[1]:
            return known[0]
        try:
            claims = self._decoder.decode(token, self._key_of, claims_options=self._options())
            claims.validate(leeway=LEEWAY)
        except (JoseError, ValueError, KeyError, TypeError):
            return None
        client = _client_of(claims)
        if client is not None:
            if len(self._known) >= MOST_KNOWN:
                self._known.clear()
            self._known[digest] = client, float(claims["exp"])
        return client

    def _options(self) -> Dict[str, Any]:
        return {
            "iss": {"essential": True, "value": self._address},
            "aud": {"essential": True, "value": self._audience},
            "exp": {"essential": True},
        }

    def _key_of(self, header: Dict[str, Any], _: Any) -> Any:
        """The key that a token names; where it is none that is known, the keys are asked for anew, for the next
        time."""
        try:
            return self._keys.find_by_kid(header.get("kid"))
        except ValueError:
            self._look_again()
            raise

    def _look_again(self) -> None:
        if time.monotonic() - self._looked > PAUSE and self._looking.acquire(blocking=False):
            self._looked = time.monotonic()
            threading.Thread(target=self._refresh, daemon=True).start()

    def _refresh(self) -> None:
        try:
            self._keys = self._published()
        except (OSError, ValueError, KeyError, TypeError, JoseError) as fault:
            LOG.error("the issuer's keys are left as they were: %s", fault)
        finally:
            self._looking.release()

    def _published(self) -> Any:
        facts = _asked(self._address + "/.well-known/openid-configuration")
        if facts["issuer"].rstrip("/") != self._address:
            raise ValueError(f"it says that it is {facts['issuer'][:100]}")
        _test_address(facts["jwks_uri"])
        return JsonWebKey.import_key_set(_asked(facts["jwks_uri"]))


def _client_of(claims: Any) -> Optional[Client]:
    """The name and the highest role that claims have; None without either."""
    roles: List[Any] = claims.get("roles") or (claims.get("realm_access") or {}).get("roles") or []
    known = [ROLES.index(role) for role in roles if role in ROLES]
    names = [name for name in (claims.get("preferred_username"), claims.get("sub")) if isinstance(name, str)]
    fitting = [name for name in names if _NAME.fullmatch(name)]
    return Client(fitting[0], max(known)) if known and fitting else None


def _test_address(address: str) -> None:
    """Refuses W7 an address in clear text, but on this machine."""
    parts = urlsplit(address)
    if parts.scheme == "https" or parts.scheme == "http" and _is_here(parts.hostname or ""):
        return
    raise Refused("W7", f"{address[:200]} is no address of an issuer: it begins with https://")


def _is_here(host: str) -> bool:
    try:
        return host == "localhost" or ipaddress.ip_address(host).is_loopback
    except ValueError:
        return False


def _asked(address: str) -> Any:
    with urllib.request.urlopen(address, timeout=SECONDS) as answer:
        return json.loads(answer.read(MOST_BYTES))
