"""How maps draw parcels and zones: as Mapbox GL takes it, over the vector tiles, and as QGIS takes it, for a layer."""
from __future__ import annotations

from typing import Any, Dict, List
from xml.sax.saxutils import quoteattr

MAPBOX = "application/vnd.mapbox.style+json"
QML = "application/vnd.qgis.style+xml"
_COLOURS = {"parcels": ("#e8ecef", "#5f6b76", 0.6), "zones": ("#0b57a4", "#0b57a4", 0.12)}
"""Of a collection: its filling, its lines, and how opaque the filling is."""
_NUMBERS = {"parcels": "number", "zones": "name"}
"""What is written into a shape by QGIS; Mapbox GL has no letters but those of a server that it is told."""


def mapbox_style(name: str, base: str, first_level: int, last_level: int, box: List[float]) -> Dict[str, Any]:
    """A style of Mapbox GL, version 8, whose source is the collection's tiles."""
    fill, line, opacity = _COLOURS[name]
    source = {
        "type": "vector",
        "tiles": [f"{base}/collections/{name}/tiles/WebMercatorQuad/{{z}}/{{y}}/{{x}}"],
        "minzoom": first_level,
        "maxzoom": last_level,
    }
    if box[0] <= box[2]:
        source["bounds"] = box
    shared = {"source": name, "source-layer": name}
    return {
        "version": 8,
        "name": name,
        "center": [(box[0] + box[2]) / 2, (box[1] + box[3]) / 2],
        "zoom": first_level + 1,
        "sources": {name: source},
        "layers": [
            {"id": f"{name}-fill", "type": "fill", **shared, "paint": {"fill-color": fill, "fill-opacity": opacity}},
            {"id": f"{name}-line", "type": "line", **shared, "paint": {"line-color": line, "line-width": 1}},
        ],
    }


def qml_style(name: str) -> str:
    """A style of QGIS for the collection as a layer: its filling, its lines, and what is written into each shape."""
    fill, line, opacity = _COLOURS[name]
    red, green, blue = (int(fill[at : at + 2], 16) for at in (1, 3, 5))
    colour = f"{red},{green},{blue},{round(255 * opacity)}"
    options = {"color": colour, "outline_color": _rgb(line), "outline_width": "0.26", "style": "solid"}
    told = "".join(f"<prop k={quoteattr(key)} v={quoteattr(value)}/>" for key, value in options.items())
    text = f'<text-style fieldName={quoteattr(_NUMBERS[name])} isExpression="0" fontSize="8" textColor="27,29,31,255"/>'
    place = '<placement placement="1" centroidInside="1"/>'
    place += '<rendering scaleVisibility="1" scaleMin="5000" scaleMax="1"/>'
    return (
        '<!DOCTYPE qgis PUBLIC "http://mrcc.com/qgis.dtd" "SYSTEM">\n'
        '<qgis version="3.22" styleCategories="Symbology|Labeling" labelsEnabled="1">\n'
        '<renderer-v2 type="singleSymbol" symbollevels="0" enableorderby="0" forceraster="0"><symbols>'
        '<symbol type="fill" name="0" alpha="1" clip_to_extent="1"><layer class="SimpleFill" enabled="1" pass="0">'
        f"{told}</layer></symbol></symbols></renderer-v2>\n"
        f'<labeling type="simple"><settings>{text}{place}</settings></labeling>\n</qgis>\n'
    )


def _rgb(colour: str) -> str:
    return ",".join(str(int(colour[at : at + 2], 16)) for at in (1, 3, 5)) + ",255"
