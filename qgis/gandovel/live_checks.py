"""What the dock does with live checking: it begins after a check, and follows each edit."""
from __future__ import annotations

import shutil
import tempfile
from dataclasses import replace
from typing import Any, List, Optional, Set

from qgis.PyQt.QtCore import QObject, QTimer

from .answers import KINDS, counts_text
from .check_task import Fault, Outcome
from .holding import Hold
from .live import Live, Told
from .program import NotFound
from .words import tr

PAUSE = 100
"""Milliseconds that edits are gathered."""


class LiveChecks(QObject):
    """Follows the edits of the layer that a dock has checked."""

    def __init__(self, dock: Any) -> None:
        super().__init__(dock)
        self.dock = dock
        self.live: Optional[Live] = None
        self.folder: Optional[str] = None
        self.known: Set[str] = set()
        self.seconds = 0.0
        self.timer = QTimer(self)
        self.timer.setSingleShot(True)
        self.timer.setInterval(PAUSE)
        self.timer.timeout.connect(self._ask)
        self.fresh = 0
        self.hold = Hold(dock.iface, self.is_held, lambda: dock.checked)
        dock.form.hold_box.toggled.connect(self._hold_toggled)

    def _hold_toggled(self, wanted: bool) -> None:
        """Holding needs live checking."""
        if wanted:
            self.dock.form.live_box.setChecked(True)
        self.hold.look_again()

    def is_held(self) -> bool:
        """Whether saving is held: new faults came with edits that are not saved."""
        return bool(self.fresh and self.dock.form.hold_box.isChecked() and self.live is not None)

    def is_wanted(self) -> bool:
        """Whether the user asks for it."""
        return bool(self.dock.form.live_box.isChecked())

    def new_folder(self) -> Optional[str]:
        """A folder for the layer that the package reads, if live checking is to begin with it."""
        self.end()
        self.folder = tempfile.mkdtemp(prefix="gandovel-live-") if self.is_wanted() else None
        return self.folder

    def judged(self, outcome: Outcome) -> None:
        """Begins after a verdict of the program, with the layer as it was then."""
        dock = self.dock
        self.known = {fault.identity for fault in outcome.faults}
        if self.folder is None or outcome.at is None or dock.checked is None:
            return
        request = {
            "parcels": outcome.at.path,
            "number": outcome.at.column,
            "features": outcome.at.rows,
            "city": outcome.city.path if outcome.city is not None else None,
            "options": {"touch": outcome.touch} if outcome.city is None else {},
        }
        self.live = Live(dock.checked, dock.form.numbers.currentField(), self.folder)
        self.live.told.connect(self._told)
        self.live.ended.connect(self._ended)
        try:
            self.live.begin(request)
        except NotFound:
            self.end()

    def edited(self) -> None:
        """The layer was changed."""
        if self.live is not None:
            self.timer.start()

    def _ask(self) -> None:
        live, watch = self.live, self.dock.watch
        if live is None or watch is None:
            return
        if watch.replaced:
            self.end()
            return
        features = live.ids_changed() if watch.all_of_it else set(watch.features)
        watch.begin_anew()
        if features or live.waiting:
            live.ask(features, watch.version)

    def _told(self, told: Told) -> None:
        dock, live = self.dock, self.live
        if live is None or dock.checked is None or dock.watch is None:
            return
        if told.first:
            if sorted(map(_facts, told.faults)) != sorted(map(_facts, dock.faults)) and dock.watch.version == 0:
                self.end()
                dock.look_again()
                return
            self._ask()
            return
        if told.again:
            self.end()
            dock.live_text = tr("Live checking stopped here ({reason}): check again.", reason=told.again)
            dock.look_again()
            return
        self.seconds = told.seconds
        if told.refused:
            dock.live_text = tr("Live: refused: {text}", text=told.refused)
            dock.look_again()
        elif told.version == dock.watch.version:
            self._show(told)
        if live.waiting or dock.watch.features or dock.watch.all_of_it:
            self._ask()

    def _show(self, told: Told) -> None:
        dock = self.dock
        dock.live_text = ""
        counts = {kind: sum(fault.kind == kind for fault in told.faults) for kind in KINDS}
        self.fresh = fresh = len(self.new_faults(told.faults))
        text = tr("Checked while you edit: {counts}.", counts=counts_text(counts))
        if fresh:
            text += " " + tr("{count} of them came with your edits.", count=fresh)
        text += " " + tr("For the program's verdict click Check.")
        dock.take_live(told.faults, text, replace(dock.basis, version=told.version))
        self.hold.look_again()

    def new_faults(self, faults: List[Fault]) -> List[Fault]:
        """Those of the faults that the last verdict of the program had not, and nobody accepted."""
        accepted = self.dock.accepted()
        return [fault for fault in faults if fault.identity not in self.known and fault.identity not in accepted]

    def _ended(self, reason: str) -> None:
        if self.live is not None:
            self.end()
            self.dock.live_text = tr("Live checking stopped ({reason}): check again.", reason=reason)
            self.dock.look_again()

    def end(self) -> None:
        """Ends the process, and takes its folder away."""
        self.timer.stop()
        live, self.live = self.live, None
        if live is not None:
            live.end()
        if self.folder is not None:
            shutil.rmtree(self.folder, ignore_errors=True)
            self.folder = None
        self.fresh = 0
        self.hold.look_again()


def _facts(fault: Fault) -> Any:
    return fault.kind, fault.area2_mm2, sorted(fault.numbers) if fault.kind == "gap" else []
