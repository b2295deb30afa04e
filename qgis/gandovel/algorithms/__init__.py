"""The algorithms of the provider."""
from __future__ import annotations

from typing import List, Type

from .apply_edits import ApplyEdits
from .base import Algorithm
from .check_parcels import CheckParcels
from .compare_session import CompareSession
from .districts import Districts
from .locate_points import LocatePoints
from .overlay_zones import OverlayZones
from .prepare import Prepare

ALGORITHMS: List[Type[Algorithm]] = [
    CheckParcels,
    OverlayZones,
    Prepare,
    LocatePoints,
    ApplyEdits,
    Districts,
    CompareSession,
]
