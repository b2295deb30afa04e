"""What the live register's test does inside QGIS: a clerk draws edits, posts them, and another clerk edits, too."""
from __future__ import annotations

import json
import os
import sys
import urllib.request
from pathlib import Path
from typing import Any, Dict, List

from qgis.core import QgsProject, QgsSnappingConfig, QgsTolerance
from qgis.PyQt.QtCore import Qt
from qgis.utils import iface, plugins

sys.path.insert(0, str(Path(os.environ["GANDOVEL_WINDOW_CODE"])))
from window_tools import click, drawn, picture, run, seen, turn  # noqa: E402

ADDRESS = os.environ["GANDOVEL_REGISTER"]
EAST, NORTH = 600_000.0, 5_500_000.0


def other_clerk(line: str) -> None:
    """Another client posts an edit."""
    request = urllib.request.Request(f"{ADDRESS}/edits", line.encode(), {"Content-Type": "text/plain"}, method="POST")
    urllib.request.urlopen(request).read()


def asked(path: str) -> Dict[str, Any]:
    """What the register answers."""
    with urllib.request.urlopen(ADDRESS + path) as answer:
        found: Dict[str, Any] = json.loads(answer.read())
    return found


def entries(dock: Any, count: int) -> None:
    """Waits until the dock has taken in so many entries."""
    turn(lambda: dock.register is not None and dock.register.entries >= count and not dock.coming, "entries")
    turn(lambda: dock.task is None, "the answer")


def number_at(dock: Any, x: float, y: float) -> Any:
    """The number of the parcel at a place of the layer."""
    from qgis.core import QgsPointXY

    found = dock.register.at(QgsPointXY(x, y))
    return None if found is None else dock.register.parcels[found].told["number"]


def same_as_the_register(dock: Any) -> bool:
    """Whether the layer has the register's parcels, corner by corner."""
    told = {it["id"]: it["ring_mm"] for it in asked("/parcels?limit=1000")["parcels"]}
    own = {one: [list(corner) for corner in it.ring] for one, it in dock.register.parcels.items()}
    shapes = {int(it["id"]): it.geometry().asPolygon()[0][:-1] for it in dock.register.layer.getFeatures()}
    drawn_as = {one: [[round(p.x() * 1000), round(p.y() * 1000)] for p in ring] for one, ring in shapes.items()}
    return told == own and {one: sorted(ring) for one, ring in told.items()} == {
        one: sorted(ring) for one, ring in drawn_as.items()
    }


def snapping() -> None:
    """Switches QGIS's own snapping on."""
    config = QgsSnappingConfig(QgsProject.instance())
    config.setEnabled(True)
    config.setMode(QgsSnappingConfig.SnappingMode.AllLayers)
    config.setTypeFlag(QgsSnappingConfig.SnappingTypes.VertexFlag)
    config.setTolerance(10)
    config.setUnits(QgsTolerance.UnitType.Pixels)
    QgsProject.instance().setSnappingConfig(config)


def three_edits(dock: Any) -> None:
    """Two corners are put in, and the parcel 1/1 is cut between them: a list that is posted one by one."""
    form = dock.form
    reasons: List[str] = []
    form.kind_buttons["insert"].click()
    click(EAST + 5, NORTH + 5)
    reasons.append(form.reason.text())
    click(EAST + 10, NORTH + 10)
    reasons.append(form.reason.text())
    form.add_button.click()
    form.kind_buttons["insert"].click()
    click(EAST + 5, NORTH + 5)
    click(EAST + 0, NORTH + 10)
    form.add_button.click()
    form.kind_buttons["split"].click()
    click(EAST + 5, NORTH + 5)
    click(EAST + 5, NORTH + 14)
    reasons.append(form.reason.text())
    click(EAST + 5, NORTH + 14, button=Qt.MouseButton.RightButton)
    click(EAST + 10, NORTH + 10, right=5)
    reasons.append(form.reason.text())
    click(EAST + 0, NORTH + 10, right=-4)
    reasons.append(form.reason.text())
    form.why.setText("sold in part")
    seen["inserted"] = [list(it.path[0]) for it in dock.deed]
    seen["drawn"] = [reasons, form.note.text(), form.deed.count(), [list(it) for it in dock.draft.path]]
    picture("register_drawn")
    form.post_button.click()
    entries(dock, 3)
    seen["posted"] = [form.answer.text(), form.state.text(), len(dock.deed), dock.draft is None]
    seen["journal"] = [it["edit"].split(" ")[0] for it in asked("/entries")["records"]]
    seen["why"] = asked("/entries")["records"][-1]["why"]
    seen["same"] = [same_as_the_register(dock)]


def others(dock: Any) -> None:
    """Another clerk merges parcels: the map follows; an edit that is drawn on one of them says so."""
    form = dock.form
    form.kind_buttons["merge"].click()
    click(EAST + 5, NORTH + 50)
    click(EAST + 15, NORTH + 50)
    before = form.reason.text()
    other_clerk("merge 6 7")
    entries(dock, 4)
    seen["other"] = [before, form.reason.text(), form.state.text(), number_at(dock, EAST + 15, NORTH + 30)]
    other_clerk("merge 10 11")
    entries(dock, 5)
    seen["stale"] = [form.reason.text(), form.post_button.isEnabled()]
    form.cancel_button.click()
    seen["same"].append(same_as_the_register(dock))


def refused(dock: Any) -> None:
    """Of three edits the second is refused: the first stays made, the third is not sent."""
    from gandovel.served.drafts import Draft

    dock.begin("merge")
    click(EAST + 35, NORTH + 5)
    click(EAST + 35, NORTH + 30)
    dock.form.add_button.click()
    at, ring = dock.register.entries, dock.register.parcels[5].ring
    dock.deed.append(Draft("split", at, parcel=5, path=(ring[0], ring[1])))
    dock.deed.append(Draft("insert", at, parcel=9, edge=(ring[0], ring[1]), path=(ring[0],)))
    dock.look_again()
    dock.form.post_button.click()
    entries(dock, 6)
    seen["refused"] = [dock.form.answer.text(), asked("/entries")["entries"], [it.kind for it in dock.deed]]
    for _ in range(2):
        dock.form.remove_button.click()
    seen["left"] = len(dock.deed)


def kept(dock: Any) -> None:
    """A draft is kept by the register; a corner is typed in by the advanced digitising."""
    form, cad = dock.form, iface.cadDockWidget()
    form.kind_buttons["split"].click()
    click(EAST + 5, NORTH + 30)
    click(EAST + 0, NORTH + 20, right=3)
    cad.enableAction().trigger() if not cad.cadEnabled() else None
    modes = type(cad).WidgetSetMode
    for name, value in (("setX", EAST + 4.125), ("setY", NORTH + 31.5)):
        getattr(cad, name)(f"{value:.3f}", modes.ReturnPressed)
    click(EAST + 7, NORTH + 33)
    seen["typed"] = [list(it) for it in dock.draft.path]
    cad.enableAction().trigger()
    click(EAST + 10, NORTH + 40, right=-3)
    seen["typed"].append(form.reason.text())
    form.keep_button.click()
    turn(lambda: dock.task is None, "the draft")
    seen["kept"] = [form.answer.text(), len(asked("/drafts")["drafts"]), asked("/entries")["entries"]]


def drive() -> None:
    """The clerk's work."""
    dock = plugins["gandovel"].register
    dock.show()
    dock.form.address.setText("http://127.0.0.1:1")
    dock.form.connect_button.click()
    turn(lambda: dock.task is None, "no register")
    seen["nobody"] = [dock.form.state.text(), dock.client is None]
    dock.form.address.setText(ADDRESS)
    dock.form.connect_button.click()
    turn(lambda: dock.register is not None, "the register")
    seen["connected"] = [dock.form.state.text(), dock.register.layer.featureCount(), dock.register.layer.readOnly()]
    iface.mapCanvas().setExtent(dock.register.layer.extent().buffered(3))
    snapping()
    drawn()
    three_edits(dock)
    others(dock)
    refused(dock)
    kept(dock)
    picture("register_posted")
    name = dock.register.layer.id()
    dock.form.connect_button.click()
    seen["ended"] = [dock.form.state.text(), QgsProject.instance().mapLayer(name) is None]


run(drive)
