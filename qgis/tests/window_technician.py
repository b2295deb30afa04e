"""A technician at work in a window of QGIS: edits many parcels with the dock open, sees each fault, and mends it.

GANDOVEL_TOWN names the layer, GANDOVEL_EDITS how many parcels are edited. What was seen is written as JSON.
"""
from __future__ import annotations

import os
import sys
import time
from pathlib import Path
from typing import Any, Dict, List

from qgis.core import QgsFeature, QgsGeometry, QgsProject, QgsVectorLayer
from qgis.utils import iface, plugins

sys.path.insert(0, str(Path(os.environ["GANDOVEL_WINDOW_CODE"])))
from window_tools import picture, run, seen, turn  # noqa: E402

EDITS = int(os.environ["GANDOVEL_EDITS"])
KINDS = ("a corner moved", "a side moved", "a parcel deleted", "a parcel drawn over others")


def followed(dock: Any) -> float:
    """Waits until the list is that of the layer as it is; the seconds on the clock."""
    begun = time.monotonic()
    turn(lambda: dock.live.live is not None, f"live checking: {dock.form.said.text()}")
    turn(lambda: dock.basis.version == dock.watch.version and not dock.live.timer.isActive(), "the list")
    return time.monotonic() - begun


def edited(layer: Any, kind: str, feature: int, number: str) -> None:
    """What a technician does to a parcel by mistake."""
    shape = layer.getGeometry(feature)
    layer.beginEditCommand(kind)
    if kind == "a parcel deleted":
        layer.deleteFeature(feature)
    elif kind == "a parcel drawn over others":
        new = QgsFeature(layer.fields())
        new.setAttribute("parcel_no", f"new {number}")
        middle = shape.centroid().asPoint()
        new.setGeometry(QgsGeometry.fromPointXY(middle).buffer(6, 2))
        layer.addFeature(new)
    else:
        places = [shape.vertexAt(at) for at in (1, 2)]
        for at, place in enumerate(places[: 1 if kind == "a corner moved" else 2], 1):
            shape.moveVertex(place.x() + 0.21, place.y() + 0.04, at)
        layer.changeGeometry(feature, shape)
    layer.endEditCommand()


def mended(dock: Any) -> List[str]:
    """Mends what is new by the assistant, one after the other, each by its first proposal; what was done."""
    done: List[str] = []
    while dock.live.new_faults(dock.faults) and len(done) < 6:
        fault = dock.live.new_faults(dock.faults)[0]
        done += mend(dock, fault)
        if not done or done[-1] == "":
            break
    return done


def mend(dock: Any, fault: Any) -> List[str]:
    """Mends a fault by the first proposal of the assistant; what it was, empty where it has none."""
    dock.table.choose(fault.identity)
    dock.repair_button.click()
    found = [one.rule for one in dock.assistant.found]
    if not found:
        return [""]
    dock.assistant.apply_button.click()
    followed(dock)
    return [found[0]]


def one_edit(dock: Any, layer: Any, feature: int, number: str, at: int) -> Dict[str, Any]:
    """An edit, the fault that it makes, and its repair: by the assistant, or where a parcel is lost or too many, by
    undo."""
    kind, before = KINDS[at % len(KINDS)], len(dock.faults)
    steps, place = layer.undoStack().index(), layer.getGeometry(feature)
    edited(layer, kind, feature, number)
    seconds = followed(dock)
    fresh = dock.live.new_faults(dock.faults)
    told: Dict[str, Any] = {"kind": kind, "seconds": seconds, "processor": dock.live.seconds, "faults": len(fresh)}
    told["there"] = any(fault.shape.distance(place) < 1.0 for fault in fresh)
    if kind in KINDS[2:]:
        layer.undoStack().undo()
        told["again"] = followed(dock)
    else:
        told["mended"] = mended(dock)
    if dock.live.new_faults(dock.faults):
        told["undone"] = True
        layer.undoStack().setIndex(steps)
        followed(dock)
    told["left"] = len(dock.faults) - before
    return told


def planted(dock: Any, layer: Any) -> List[str]:
    """Mends all planted faults: each kind at once by the rule of its first proposal, and the rest one by one."""
    done: List[str] = []
    for kind in ("gap", "overlap"):
        fault = next((it for it in dock.faults if it.kind == kind), None)
        if fault is None:
            continue
        dock.table.choose(fault.identity)
        dock.repair_button.click()
        steps, rule = layer.undoStack().index(), dock.assistant.found[0].rule if dock.assistant.found else ""
        if rule:
            dock.assistant.all_button.click()
            followed(dock)
            done.append(
                f"{rule}: {dock.assistant.effect.text()} {layer.undoStack().index() - steps} step, left: {facts(dock)}"
            )
    for _ in range(2 * len(dock.faults)):
        if dock.faults:
            done += [*mend(dock, dock.faults[0]), facts(dock)]
    return done


def facts(dock: Any) -> str:
    """The faults that are listed."""
    return "; ".join(f"{it.kind} {it.area_m2:.3f} {it.numbers}" for it in dock.faults)


def drive() -> None:
    """The technician's work."""
    layer = QgsVectorLayer(os.environ["GANDOVEL_TOWN"], "town", "ogr")
    QgsProject.instance().addMapLayer(layer)
    iface.setActiveLayer(layer)
    dock = plugins["gandovel"].dock
    dock.show()
    dock.layers.setLayer(layer)
    dock.form.live_box.setChecked(True)
    layer.startEditing()
    begun = time.monotonic()
    dock.check_button.click()
    turn(lambda: dock.task is None, "the check")
    seen["check"] = time.monotonic() - begun
    seen["first"] = [
        dock.said.text(),
        {kind: sum(it.kind == kind for it in dock.faults) for kind in ("gap", "overlap")},
    ]
    turn(lambda: dock.live.live is not None and dock.live.live.ready, "live checking")
    seen["loaded"] = time.monotonic() - begun - seen["check"]
    numbers = {feature.id(): str(feature["parcel_no"]) for feature in layer.getFeatures()}
    busy = {number for fault in dock.faults for number in fault.numbers}
    features = [one for one, number in numbers.items() if number not in busy]
    chosen = features[len(features) // (2 * EDITS) :: len(features) // EDITS][:EDITS]
    iface.mapCanvas().setExtent(layer.getGeometry(chosen[0]).boundingBox().buffered(60))
    seen["edits"] = [one_edit(dock, layer, one, numbers[one], at) for at, one in enumerate(chosen)]
    picture("technician")
    seen["planted"] = planted(dock, layer)
    seen["live"] = [dock.said.text(), len(dock.faults)]
    dock.assistant.close()
    dock.check_button.click()
    turn(lambda: dock.task is None, "the last check")
    seen["whole"] = [dock.said.text(), len(dock.faults)]
    layer.rollBack()


run(drive)
