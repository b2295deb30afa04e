"""The entries of a register, as they are published: server-sent events, asked for again where they break off."""
from __future__ import annotations

import json
from typing import Any, Optional

from qgis.core import QgsNetworkAccessManager
from qgis.PyQt.QtCore import QObject, QTimer, pyqtSignal

from ..words import tr
from .client import Client

AGAIN = 1000
"""Milliseconds until it is asked again."""


class Follow(QObject):
    """Sends `entry` with each entry after a number, in order, and `lost` with a reason where the connection broke."""

    entry = pyqtSignal(object)
    lost = pyqtSignal(str)

    def __init__(self, client: Client, after: int) -> None:
        super().__init__()
        self.client, self.after = client, after
        self.reply: Any = None
        self._rest = b""
        self.timer = QTimer(self)
        self.timer.setSingleShot(True)
        self.timer.setInterval(AGAIN)
        self.timer.timeout.connect(self.begin)

    def begin(self) -> None:
        """Asks for what comes."""
        request = self.client.request(f"/changes?after={self.after}", {"Accept": "text/event-stream"})
        self._rest = b""
        self.reply = QgsNetworkAccessManager.instance().get(request)
        self.reply.readyRead.connect(self._read)
        self.reply.finished.connect(self._finished)

    def _read(self) -> None:
        if self.reply is None:
            return
        *events, self._rest = (self._rest + bytes(self.reply.readAll())).split(b"\n\n")
        for event in events:
            told = _entry_of(event)
            if told is not None and int(told["number"]) == self.after + 1:
                self.after += 1
                self.entry.emit(told)

    def _finished(self) -> None:
        if self.reply is not None:
            reply, self.reply = self.reply, None
            reply.deleteLater()
            self.lost.emit(tr("The register does not answer; it is asked again."))
            self.timer.start()

    def end(self) -> None:
        """Follows no more."""
        self.timer.stop()
        reply, self.reply = self.reply, None
        if reply is not None:
            reply.abort()
            reply.deleteLater()


def _entry_of(event: bytes) -> Optional["dict[str, Any]"]:
    """The entry of an event; None of a comment."""
    data = [line[6:] for line in event.split(b"\n") if line.startswith(b"data: ")]
    try:
        found = json.loads(b"\n".join(data)) if data else None
    except ValueError:
        return None
    return found if isinstance(found, dict) and "number" in found else None
