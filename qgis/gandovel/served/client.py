"""Requests to a register, through QGIS's own network (its proxies, its certificates), from any thread."""
from __future__ import annotations

import json
from dataclasses import dataclass
from typing import Any, Dict, Optional

from qgis.core import QgsBlockingNetworkRequest
from qgis.PyQt.QtCore import QByteArray, QUrl
from qgis.PyQt.QtNetwork import QNetworkRequest

from ..words import tr

SCHEMES = ("http", "https")


class Unreachable(Exception):
    """There is no register at the address, or it does not answer; the text says why."""


@dataclass(frozen=True)
class Answer:
    """A status of HTTP and the object that came with it."""

    status: int
    body: Dict[str, Any]

    @property
    def reason(self) -> str:
        """Why the register refuses, with its code."""
        code, text = self.body.get("code", self.status), self.body.get("description", "")
        return f"{code}: {text}" if text else str(code)


class Client:
    """A client of one register. The token is kept in memory alone."""

    def __init__(self, address: str, token: str = "") -> None:
        self.address, self.token = address.strip().rstrip("/"), token.strip()
        url = QUrl(self.address)
        if url.scheme() not in SCHEMES or not url.host():
            raise Unreachable(tr("{address} is no address: it begins with http:// or https://.", address=address))

    def request(self, path: str, headers: Optional[Dict[str, str]] = None) -> QNetworkRequest:
        """A request to one of the register's addresses."""
        request = QNetworkRequest(QUrl(self.address + path))
        told = {"Accept": "application/json", **(headers or {})}
        if self.token:
            told["Authorization"] = f"Bearer {self.token}"
        for name, value in told.items():
            request.setRawHeader(QByteArray(name.encode()), QByteArray(value.encode()))
        return request

    def ask(self, path: str, body: Optional[Dict[str, Any]] = None, headers: Optional[Dict[str, str]] = None) -> Answer:
        """What the register answers; with a body it is posted. Raises `Unreachable` where nothing came back."""
        asking = QgsBlockingNetworkRequest()
        if body is None:
            asking.get(self.request(path, headers), True)
        else:
            request = self.request(path, {"Content-Type": "application/json", **(headers or {})})
            asking.post(request, QByteArray(json.dumps(body).encode()), True)
        reply = asking.reply()
        status = reply.attribute(QNetworkRequest.Attribute.HttpStatusCodeAttribute)
        if status is None:
            text = "The register at {address} does not answer: {reason}"
            raise Unreachable(tr(text, address=self.address, reason=asking.errorMessage()))
        return Answer(int(status), _object_of(bytes(reply.content())))

    def told(self, path: str) -> Dict[str, Any]:
        """What the register answers to a question that it has to answer. Raises `Unreachable`."""
        answer = self.ask(path)
        if answer.status in (401, 403):
            raise Unreachable(tr("The register asks for a token: {reason}", reason=answer.reason))
        if answer.status != 200 or not answer.body:
            text = "The address {address} is no register of gandovel serve ({reason})."
            raise Unreachable(tr(text, address=self.address + path, reason=answer.reason))
        return answer.body


def _object_of(content: bytes) -> Dict[str, Any]:
    try:
        found = json.loads(content)
    except ValueError:
        return {}
    return found if isinstance(found, dict) else {}
