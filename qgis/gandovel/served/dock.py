"""The dock of a running register: a connection, edits that are drawn in the map, and what others change."""
from __future__ import annotations

from collections import deque
from dataclasses import replace
from typing import Any, Deque, Dict, List, Optional

from qgis.core import Qgis, QgsApplication, QgsPointXY, QgsProject
from qgis.PyQt.QtWidgets import QDockWidget

from ..helping import show_help
from ..words import counted, tr
from .client import Client, Unreachable
from .drafts import Draft, after, hint, kind_text
from .follow import Follow
from .form import ADDRESS, RegisterForm
from .parcels import RegisterLayer, parcel_of
from .tasks import Loaded, LoadTask, Posted, PostTask, seen_by
from .tool import EditTool

SHORT = 10
MOST_BEHIND = 200
"""With more entries that are not taken in yet, the register is read anew."""


class RegisterDock(QDockWidget):
    """One register that is connected, its layer, and the list of edits that are drawn and not posted."""

    def __init__(self, iface: Any) -> None:
        super().__init__(tr("Live register"))
        self.setObjectName("GandovelRegister")
        self.iface = iface
        self.client: Optional[Client] = None
        self.register: Optional[RegisterLayer] = None
        self.follow: Optional[Follow] = None
        self.task: Any = None
        self.draft: Optional[Draft] = None
        self.deed: List[Draft] = []
        self.coming: Deque[Dict[str, Any]] = deque()
        self._takes = False
        self.form = RegisterForm()
        self.setWidget(self.form)
        self.tool = EditTool(iface.mapCanvas(), iface.cadDockWidget())
        self._connect()
        self.look_again()

    def _connect(self) -> None:
        form, tool = self.form, self.tool
        form.connect_button.clicked.connect(self.connect_or_not)
        form.help_button.clicked.connect(lambda: show_help("the-live-register"))
        for kind, button in form.kind_buttons.items():
            button.clicked.connect(lambda _, kind=kind: self.begin(kind))
        form.undo_button.clicked.connect(self.take_back)
        form.cancel_button.clicked.connect(self.drop)
        form.add_button.clicked.connect(self.add)
        form.remove_button.clicked.connect(self.remove)
        form.keep_button.clicked.connect(self.keep)
        form.post_button.clicked.connect(self.post)
        tool.clicked.connect(self.click)
        tool.undone.connect(self.take_back)
        tool.cancelled.connect(self.drop)
        QgsProject.instance().layersWillBeRemoved["QStringList"].connect(self._layers_go)

    # ---- the connection

    def connect_or_not(self) -> None:
        """Connects to the register whose address is given; or ends the connection."""
        if self.client is not None:
            self.disconnect_register(tr("Not connected."))
            return
        try:
            self.client = Client(self.form.address.text() or ADDRESS, self.form.token.text())
        except Unreachable as fault:
            self.form.state.setText(str(fault))
            return
        self.form.connected(True)
        self._load()

    def _load(self) -> None:
        assert self.client is not None
        self.form.state.setText(tr("Reading {address} ..", address=self.client.address))
        self.task = LoadTask(self.client, self._loaded)
        QgsApplication.taskManager().addTask(self.task)

    def _loaded(self, loaded: Loaded) -> None:
        self.task = None
        if self.client is None:
            return
        if loaded.amiss:
            self.disconnect_register(loaded.amiss)
            return
        self._forget_layer()
        title = tr("Register {address}", address=self.client.address.split("://")[-1])
        self.register = RegisterLayer(title, loaded.settings, loaded.parcels)
        QgsProject.instance().addMapLayer(self.register.layer)
        self.follow = Follow(self.client, self.register.entries)
        self.follow.entry.connect(self._comes)
        self.follow.lost.connect(self.form.state.setText)
        self.follow.begin()
        self.tell_state()
        self.look_again()

    def disconnect_register(self, text: str) -> None:
        """Ends the connection. The layer goes, since it would be out of date unseen."""
        if self.task is not None:
            self.task.cancel()
        self.client, self.task = None, None
        self.drop()
        self.deed = []
        self._forget_layer()
        self.form.connected(False)
        self.form.state.setText(text)
        self.look_again()

    def _forget_layer(self) -> None:
        self.coming.clear()
        if self.follow is not None:
            self.follow.end()
            self.follow = None
        register, self.register = self.register, None
        if register is not None:
            QgsProject.instance().removeMapLayer(register.layer.id())

    def _layers_go(self, ids: List[str]) -> None:
        if self.register is not None and self.register.layer.id() in ids:
            self.register = None
            self.disconnect_register(tr("Not connected: its layer was taken from the project."))

    def tell_state(self, entry: Optional[Dict[str, Any]] = None) -> None:
        """Says how many parcels there are, after how many entries, and what came last."""
        if self.register is None:
            return
        text = "{parcels} parcels after {entries} entries."
        told = tr(text, parcels=f"{len(self.register.parcels):,}", entries=self.register.entries)
        if entry is not None:
            kind, who = str(entry["edit"]).split(" ", 1)[0], entry.get("who") or tr("another program")
            told += " " + tr("Last: {kind} by {who}.", kind=kind_text(kind), who=who)
        self.form.state.setText(told)

    # ---- what others do

    def _comes(self, entry: Dict[str, Any]) -> None:
        self.coming.append(entry)
        if not self._takes:
            self._take_all()

    def _take_all(self) -> None:
        """Takes in what came, one entry after the other: to ask for parcels lets further ones come in meanwhile."""
        self._takes = True
        try:
            while self.coming and self.register is not None:
                if len(self.coming) > MOST_BEHIND:
                    self._load()
                    return
                self._take(self.coming.popleft())
        except Unreachable as fault:
            self.disconnect_register(str(fault))
        finally:
            self._takes = False

    def _take(self, entry: Dict[str, Any]) -> None:
        """Takes in an entry: its parcels go, and others come. Edits that it does not concern go on."""
        client, register = self.client, self.register
        assert client is not None and register is not None
        before = {one: parcel.ring for one, parcel in register.parcels.items()} if self.deed or self.draft else {}
        number, new = int(entry["number"]), []
        for one in entry["new"]:
            answer = client.ask(f"/parcels/{one}?entries={number}")
            answer = client.ask(f"/parcels/{one}") if answer.status == 410 else answer
            if answer.status == 200:
                new.append(parcel_of(answer.body))
        if self.register is not register:
            return
        register.exchange([int(one) for one in entry["out"]], new)
        register.entries = number
        self.deed = seen_by(self.deed, entry, before)
        self.draft = seen_by([self.draft], entry, before)[0] if self.draft is not None else None
        self.tell_state(entry)
        self.look_again()

    # ---- drawing

    @property
    def rings(self) -> Dict[int, Any]:
        """The rings as they are after the edits of the list."""
        if self.register is None:
            return {}
        return after({one: parcel.ring for one, parcel in self.register.parcels.items()}, self.deed)

    def begin(self, kind: str) -> None:
        """Begins to draw an edit."""
        if self.register is None:
            return
        self.draft = Draft(kind, self.register.entries)
        self.form.answer.setText("")
        self.iface.setActiveLayer(self.register.layer)
        self.iface.mapCanvas().setMapTool(self.tool)
        self.look_again()

    def click(self, point: QgsPointXY, reach: float) -> None:
        """Takes a click on the map."""
        register, draft = self.register, self.draft
        if register is None or draft is None:
            return
        place = self.tool.toLayerCoordinates(register.layer, point)
        takes_corner = (
            draft.kind in ("split", "move", "straighten") and draft.parcel is not None and not draft.needs_other
        )
        rings = self.rings
        corner = register.snapped(place, reach, rings) if takes_corner and reach else register.corner(place)
        self.draft = draft.clicked(rings, register.at(place), corner)
        self.look_again()

    def take_back(self) -> None:
        """Takes the last click back."""
        if self.draft is not None:
            self.draft = self.draft.undone()
            self.look_again()

    def drop(self) -> None:
        """Drops the edit that is drawn."""
        self.draft = None
        self.form.why.clear()
        self.look_again()

    def look_again(self) -> None:
        """Says whether the edit can be posted, and draws it."""
        form, draft, rings = self.form, self.draft, self.rings
        reason = self.reason_of(draft, rings) if draft is not None else ""
        is_ready = draft is not None and not reason
        form.reason.setText(reason or (tr("It can be posted.") if is_ready else ""))
        form.show_kind(draft.kind if draft is not None else "")
        runs = self.task is not None
        form.may(add=is_ready, keep=is_ready and not self.deed and not runs, undo=draft is not None)
        form.may(cancel=draft is not None, remove=bool(self.deed) and not runs)
        form.may(post=(is_ready or bool(self.deed) and draft is None) and not runs)
        self._show_deed()
        self._draw(rings)

    def reason_of(self, draft: Draft, rings: Dict[int, Any]) -> str:
        """Why an edit can't be posted; also where an entry of another clerk concerns it."""
        if self.register is not None and draft.parcel is not None and draft.at < self.register.entries:
            return tr("A parcel of this edit was changed meanwhile: look at the map, and draw it again.")
        return draft.reason(rings)

    def _show_deed(self) -> None:
        names = [self.name_of(draft) for draft in self.deed]
        if [self.form.deed.item(at).text() for at in range(self.form.deed.count())] != names:
            self.form.deed.clear()
            self.form.deed.addItems(names)
        count = len(self.deed) + (self.draft is not None)
        text = (
            "The register takes one edit at a time: these are posted one after the other. Where one is refused, those "
            "before it stay made, and those after it are not sent."
        )
        self.form.note.setText(tr(text) if self.deed and count > 1 else "")

    def name_of(self, draft: Draft) -> str:
        """An edit in the list."""
        parcels = self.register.parcels if self.register is not None else {}
        names = [parcels[one].name if one in parcels else str(one) for one in (draft.parcel, draft.other) if one]
        return f"{kind_text(draft.kind)}: {', '.join(names)}" + (f" ({draft.why})" if draft.why else "")

    def _draw(self, rings: Dict[int, Any]) -> None:
        register, draft = self.register, self.draft
        if register is None or draft is None:
            self.tool.clear()
            return
        shapes = [register.shape(rings[one]) for one in (draft.parcel, draft.other) if one in rings]
        path = [register.point(corner) for corner in draft.whole_path(rings)]
        self.tool.show_draft(shapes, path, register.layer)

    # ---- posting

    def _ready(self) -> Optional[Draft]:
        """The edit that is drawn, with its reason, if it can be posted."""
        if self.draft is None or self.reason_of(self.draft, self.rings):
            return None
        return replace(self.draft, why=self.form.why.text().strip())

    def add(self) -> None:
        """Puts the edit that is drawn into the list."""
        ready = self._ready()
        if ready is not None:
            self.deed.append(ready)
            self.drop()

    def remove(self) -> None:
        """Takes the chosen edit, else the last, and all after it, from the list: they may stand on it."""
        row = self.form.deed.currentRow()
        self.deed = self.deed[: row if row >= 0 else -1]
        self.look_again()

    def keep(self) -> None:
        """Keeps the edit as a draft of the register."""
        ready = self._ready()
        if ready is not None and not self.deed:
            self._post([ready], True)

    def post(self) -> None:
        """Posts the list, and the edit that is drawn."""
        ready = self._ready()
        drafts = [*self.deed, *([ready] if ready is not None else [])]
        stale = [draft for draft in drafts if self.register is None or draft.at < self.register.entries]
        if stale:
            text = "{edit}: a parcel of it was changed meanwhile. Take it from the list, and draw it again."
            self._say(tr(text, edit=self.name_of(stale[0])), Qgis.MessageLevel.Warning)
        elif drafts:
            self._post(drafts, False)

    def _post(self, drafts: List[Draft], asks: bool) -> None:
        assert self.client is not None and self.register is not None
        rings = {one: parcel.ring for one, parcel in self.register.parcels.items()}
        self.deed, self.draft = ([], self.draft) if asks else (drafts, None)
        self.task = PostTask(self.client, drafts, rings, self._posted, asks)
        QgsApplication.taskManager().addTask(self.task)
        self.look_again()

    def _posted(self, posted: Posted) -> None:
        asks, self.task = self.task is not None and self.task.asks, None
        if self.client is None:
            return
        if asks:
            self._kept(posted)
            return
        made = {draft.key for draft in self.deed} - {draft.key for draft in posted.left}
        self.deed = [draft for draft in self.deed if draft.key not in made]
        self.form.why.clear()
        numbers = ", ".join(str(entry["number"]) for entry in posted.made)
        told = tr("Made: entries {numbers}.", numbers=numbers) if posted.made else ""
        if posted.refused:
            one, several = tr("1 edit of the list was not sent."), tr("{count} edits of the list were not sent.")
            left = counted(max(0, len(posted.left) - 1), one, several, "")
            told = " ".join(text for text in (told, posted.refused, left) if text)
        self._say(told, Qgis.MessageLevel.Warning if posted.refused else Qgis.MessageLevel.Success)
        self.look_again()

    def _kept(self, posted: Posted) -> None:
        if posted.refused:
            self._say(posted.refused, Qgis.MessageLevel.Warning)
            return
        areas = "; ".join(f"{one['area_m2']:.3f} m²" for one in posted.made[0].get("new", []))
        self.drop()
        self._say(tr("Kept as a draft. It would bring {areas}.", areas=areas), Qgis.MessageLevel.Success)

    def _say(self, text: str, level: Any) -> None:
        self.form.answer.setText(text)
        self.iface.messageBar().pushMessage("Gandovel", text, level, SHORT)

    def forget(self) -> None:
        """Ends what runs, and takes all from the map."""
        QgsProject.instance().layersWillBeRemoved["QStringList"].disconnect(self._layers_go)
        self.disconnect_register("")
        if self.iface.mapCanvas().mapTool() is self.tool:
            self.iface.mapCanvas().unsetMapTool(self.tool)
        self.tool.forget()
