"""The colours in which QGIS shows a report's layers at once."""
from __future__ import annotations

from typing import Sequence, Tuple

GREY, BLUE, ORANGE, PINK = "200,205,210,255", "0,114,178,255", "230,159,0,255", "204,30,110,255"
BROWN, VIOLET, GREEN, RED = "176,120,0,255", "106,63,181,255", "0,122,90,255", "178,34,34,255"


def _options(*options: Tuple[str, str]) -> str:
    return "".join(
        f'<Option type="QString" name="{key}" value="{value}"/><prop k="{key}" v="{value}"/>' for key, value in options
    )


def _symbol(name: str, fill: str, line: str, width: float, filled: bool) -> str:
    style = "solid" if filled else "no"
    text = _options(
        ("color", fill),
        ("outline_color", line),
        ("outline_width", str(width)),
        ("outline_style", "solid"),
        ("style", style),
    )
    return (
        f'<symbol type="fill" name="{name}" alpha="1" clip_to_extent="1">'
        f'<layer class="SimpleFill" enabled="1" pass="0">{text}</layer></symbol>'
    )


def _single(fill: str, line: str, width: float, filled: bool = True) -> str:
    return (
        f'<!DOCTYPE qgis PUBLIC "http://mrcc.com/qgis.dtd" "SYSTEM"><qgis styleCategories="Symbology">'
        f'<renderer-v2 type="singleSymbol"><symbols>{_symbol("0", fill, line, width, filled)}</symbols>'
        "</renderer-v2></qgis>"
    )


def _marker(line: str, size: float) -> str:
    """The style of a layer of points: a cross of this size, in mm."""
    text = _options(
        ("name", "cross2"),
        ("color", line),
        ("outline_color", line),
        ("outline_width", "0.4"),
        ("size", str(size)),
        ("size_unit", "MM"),
    )
    return (
        '<!DOCTYPE qgis PUBLIC "http://mrcc.com/qgis.dtd" "SYSTEM"><qgis styleCategories="Symbology">'
        '<renderer-v2 type="singleSymbol"><symbols><symbol type="marker" name="0" alpha="1" clip_to_extent="1">'
        f'<layer class="SimpleMarker" enabled="1" pass="0">{text}</layer></symbol></symbols></renderer-v2></qgis>'
    )


def _by_status(classes: Sequence[Tuple[str, str]]) -> str:
    categories = "".join(
        f'<category value="{value}" label="{value}" symbol="{at}" render="true"/>'
        for at, (value, _) in enumerate(classes)
    )
    symbols = "".join(_symbol(str(at), fill, "120,120,120,255", 0.1, True) for at, (_, fill) in enumerate(classes))
    return (
        f'<!DOCTYPE qgis PUBLIC "http://mrcc.com/qgis.dtd" "SYSTEM"><qgis styleCategories="Symbology">'
        f'<renderer-v2 type="categorizedSymbol" attr="status"><categories>{categories}</categories>'
        f"<symbols>{symbols}</symbols></renderer-v2></qgis>"
    )


STYLES = {
    "parcels": _by_status(
        (
            ("ok", "235,238,240,255"),
            ("split", "250,225,170,255"),
            ("gap", "190,215,240,255"),
            ("overlap", "245,205,225,255"),
            ("beyond", "240,200,195,255"),
        )
    ),
    "zones": _single(GREY, "60,60,60,255", 0.5, filled=False),
    "gaps": _single(BLUE, BLUE, 0.6),
    "overlaps": _single(PINK, PINK, 0.6),
    "beyond": _single(RED, RED, 0.6),
    "open_gaps": _single(BROWN, BROWN, 0.6),
    "slivers": _single(VIOLET, VIOLET, 0.6),
    "touched": _marker(GREEN, 2.0),
    "split": _single(ORANGE, ORANGE, 0.4, filled=False),
    "split_parts": _single("250,225,170,255", ORANGE, 0.2),
}
