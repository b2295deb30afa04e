"""The layer of faults: its columns, and how it is filled from a report."""
from __future__ import annotations

from typing import Any, Dict


from .answers import LAYERS
from .layers import NUMBER, TEXT, WHOLE, fields_of, fill, read_layer

FAULT_COLUMNS = (
    ("kind", TEXT),
    ("layer", TEXT),
    ("island", WHOLE),
    ("numbers", TEXT),
    ("numbers_how", TEXT),
    ("area_m2", NUMBER),
    ("area2_mm2", TEXT),
    ("area_how", TEXT),
    ("depth", WHOLE),
)


def fault_fields() -> Any:
    """The fields of a layer of faults; `area2_mm2` is the doubled area, exact."""
    return fields_of(FAULT_COLUMNS)


def fill_faults(sink: Any, path: str) -> Dict[str, int]:
    """Puts all faults of a report into a sink; how many of each kind."""
    fields = fault_fields()
    return {kind: fill(sink, fields, read_layer(path, layer), {"kind": kind}) for kind, layer in LAYERS.items()}
