"""Edits that are drawn, and not posted yet: each is checked as it is drawn, in whole millimetres."""
from __future__ import annotations

import secrets
from dataclasses import dataclass, field, replace
from typing import Any, Dict, Iterable, List, Mapping, Optional, Set, Tuple

from ..words import tr
from . import checks
from .checks import Corner, Ring

KINDS = ("split", "merge", "move", "insert", "straighten")
Rings = Mapping[int, Ring]


def kind_text(kind: str) -> str:
    """The name of a kind of edit."""
    names = {
        "split": tr("Split"),
        "merge": tr("Merge"),
        "move": tr("Move a border"),
        "insert": tr("Insert a corner"),
        "straighten": tr("Remove a corner"),
    }
    return names.get(kind, kind)


def hint(kind: str) -> str:
    """What to click."""
    hints = {
        "split": tr(
            "Click the parcel, then the corner where the cut begins, its corners, and the corner where it ends."
        ),
        "merge": tr("Click the parcel, and then the neighbour that becomes one with it."),
        "move": tr("Click the parcel, the neighbour, and then the corners of the new border between its two ends."),
        "insert": tr("Click the parcel, and then its border where the new corner comes."),
        "straighten": tr("Click the parcel, and then the corner that goes, where the borders go straight on."),
    }
    return hints[kind]


@dataclass(frozen=True)
class Draft:
    """An edit: its kind, its parcels by ids, the corners that were clicked, and the entry that the clerk saw."""

    kind: str
    at: int
    parcel: Optional[int] = None
    other: Optional[int] = None
    path: Tuple[Corner, ...] = ()
    edge: Optional[checks.Edge] = None
    why: str = ""
    key: str = field(default_factory=lambda: secrets.token_hex(16))

    @property
    def needs_other(self) -> bool:
        """Whether a click chooses the neighbour."""
        return self.kind in ("merge", "move") and self.other is None

    def clicked(self, rings: Rings, parcel: Optional[int], place: Corner) -> "Draft":
        """The draft after a click on a parcel, or beside all, at a place."""
        if self.parcel is None:
            return replace(self, parcel=parcel)
        if self.needs_other:
            return self if parcel in (None, self.parcel) else replace(self, other=parcel)
        if self.kind == "insert" and self.parcel in rings:
            edge = checks.nearest(rings[self.parcel], place)
            new = checks.between(edge, place)
            return replace(self, edge=edge, path=() if new is None else (new,))
        if self.kind == "straighten":
            return replace(self, path=(place,))
        return self if self.kind == "merge" else replace(self, path=(*self.path, place))

    def undone(self) -> "Draft":
        """The draft without the last click."""
        if self.path or self.edge:
            return replace(self, path=() if self.edge else self.path[:-1], edge=None)
        return replace(self, other=None) if self.other is not None else replace(self, parcel=None)

    def whole_path(self, rings: Rings) -> Tuple[Corner, ...]:
        """The path, with the ends that a moved border keeps."""
        if self.kind != "move" or self.parcel not in rings or self.other not in rings:
            return self.path
        shared, reason = checks.border(rings[self.parcel], rings[self.other])
        return self.path if reason else (shared[0], *self.path, shared[-1])

    def reason(self, rings: Rings) -> str:
        """Why it can't be sent; "" where it can."""
        if self.parcel is None:
            return hint(self.kind)
        if self.parcel not in rings:
            return tr("The parcel is gone: another edit took it out.")
        if self.other is not None and self.other not in rings:
            return tr("The neighbour is gone: another edit took it out.")
        if self.needs_other:
            return tr("Click the neighbour.")
        return self._reason(rings)

    def _reason(self, rings: Rings) -> str:
        ring, other = rings[self.parcel or 0], rings.get(self.other or 0, ())
        if self.kind == "split":
            return checks.split(ring, self.path)
        if self.kind == "merge":
            return checks.merge(ring, other)
        if self.kind == "move":
            return checks.move(ring, other, self.whole_path(rings))
        if self.kind == "straighten":
            return checks.straighten(rings.values(), self.path[0]) if self.path else tr("Click a corner.")
        if self.edge is None:
            return tr("Click a border.")
        if not self.path:
            return tr("This border has no whole millimetre between its ends: move the border instead.")
        return "" if self.edge in checks.edges(ring) else tr("The border was changed by another edit: click it again.")

    def body(self, rings: Rings) -> Dict[str, Any]:
        """What is posted."""
        path = [list(corner) for corner in self.whole_path(rings)]
        told: Dict[str, Any] = {"kind": self.kind, "why": self.why}
        if self.kind == "split":
            return {**told, "parcel": self.parcel, "path": path}
        if self.kind == "merge":
            return {**told, "one": self.parcel, "other": self.other}
        if self.kind == "move":
            return {**told, "one": self.parcel, "other": self.other, "path": path}
        if self.kind == "insert" and self.edge is not None:
            return {**told, "first": list(self.edge[0]), "last": list(self.edge[1]), "new": path[0]}
        return {**told, "corner": path[0]}

    def parcels(self, rings: Rings) -> Set[int]:
        """The ids of the parcels that it concerns."""
        mine = {one for one in (self.parcel, self.other) if one is not None}
        if self.kind == "insert" and self.edge is not None:
            back = self.edge[1], self.edge[0]
            return mine | {one for one, ring in rings.items() if back in checks.edges(ring)}
        if self.kind == "straighten" and self.path:
            return mine | {one for one, ring in rings.items() if self.path[0] in ring}
        return mine

    def is_concerned(self, entry: Dict[str, Any], rings: Rings) -> bool:
        """Whether an entry takes out, or changes, one of its parcels."""
        return bool(self.parcels(rings) & {int(one) for one in entry["out"]})


def after(rings: Rings, drafts: Iterable[Draft]) -> Dict[int, Ring]:
    """The rings as they are drawn after drafts: corners come and go; parcels that an edit takes out are gone, since
    the ids of the new ones are not known before it is posted."""
    now: Dict[int, Ring] = dict(rings)
    for draft in drafts:
        if draft.kind == "insert" and draft.edge is not None:
            now.update({one: _with(now[one], draft.edge, draft.path[0]) for one in draft.parcels(now) if one in now})
        elif draft.kind == "straighten":
            for one in draft.parcels(now):
                now[one] = tuple(corner for corner in now[one] if corner != draft.path[0])
        else:
            for one in draft.parcels(now):
                now.pop(one, None)
    return now


def _with(ring: Ring, edge: checks.Edge, new: Corner) -> Ring:
    """A ring with a corner put into an edge, whichever way it runs."""
    found: List[Corner] = []
    for a, b in checks.edges(ring):
        found += [a, new] if (a, b) in (edge, edge[::-1]) else [a]
    return tuple(found)
