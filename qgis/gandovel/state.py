"""The state of a layer: what a verdict was made of, and whether anything was changed since."""
from __future__ import annotations

from dataclasses import dataclass
from typing import Any, Set

from qgis.core import QgsVectorLayer
from qgis.PyQt.QtCore import QObject, pyqtSignal


@dataclass(frozen=True)
class Basis:
    """What a verdict was made of: the layer by its id, the version of its edit buffer, and what was chosen with it."""

    layer: str
    version: int
    number: str
    city: str
    city_version: int
    unit: str


class Watch(QObject):
    """Counts the changes of a layer: `version` grows with each, saved or not, undone or not.

    `features` are those whose shape or number was changed since `begin_anew`; `all_of_it` says that ids are others now,
    or edits were taken back, and `replaced` that it is another layer. Saving changes no shape, and counts as none.
    """

    changed = pyqtSignal()

    def __init__(self, layer: QgsVectorLayer, number: str = "") -> None:
        super().__init__()
        self.layer, self.number, self.version = layer, number, 0
        self.features: Set[int] = set()
        self.all_of_it = self.replaced = False
        self._saving = False
        self._slots = {
            "geometryChanged": self._geometry_changed,
            "featureAdded": self._feature_changed,
            "featureDeleted": self._feature_changed,
            "attributeValueChanged": self._value_changed,
            "beforeCommitChanges": self._begin_saving,
            "afterCommitChanges": self._end_saving,
            "afterRollBack": self._taken_back,
            "dataSourceChanged": self._everything_changed,
            "dataChanged": self._data_changed,
            "subsetStringChanged": self._everything_changed,
            "crsChanged": self._everything_changed,
        }
        for name, slot in self._slots.items():
            getattr(layer, name).connect(slot)

    def begin_anew(self) -> None:
        """Forgets which features were changed."""
        self.features, self.all_of_it = set(), False

    def end(self) -> None:
        """Watches no more."""
        for name, slot in self._slots.items():
            try:
                getattr(self.layer, name).disconnect(slot)
            except (RuntimeError, TypeError):  # the layer is gone
                pass

    def _count(self) -> None:
        self.version += 1
        self.changed.emit()

    def _geometry_changed(self, feature: int, _: Any) -> None:
        self.features.add(feature)
        self._count()

    def _feature_changed(self, feature: int) -> None:
        if not self._saving:
            self.features.add(feature)
            self._count()

    def _value_changed(self, feature: int, field: int, _: Any) -> None:
        if not self._saving and self.number and self.layer.fields().indexOf(self.number) == field:
            self.features.add(feature)
            self._count()

    def _begin_saving(self, *_: Any) -> None:
        self._saving = True

    def _end_saving(self, *_: Any) -> None:
        self._saving = False
        self.all_of_it = True  # features that are new have other ids now

    def _data_changed(self) -> None:
        if not self._saving and not self.layer.isEditable():
            self._everything_changed()

    def _taken_back(self, *_: Any) -> None:
        self.all_of_it = True
        self._count()

    def _everything_changed(self, *_: Any) -> None:
        self.all_of_it = self.replaced = True
        self._count()
