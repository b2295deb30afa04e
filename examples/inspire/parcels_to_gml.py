#!/usr/bin/env python3
"""Writes a layer of parcels as INSPIRE cadastral parcels (schema CadastralParcels 4.0), in GML 3.2.

    python3 parcels_to_gml.py LAYER COLUMN NAMESPACE OUT

LAYER is any that GDAL reads, in a projection that has an EPSG code; COLUMN has the parcels' numbers; NAMESPACE is that
of your identifiers, such as `DE.HH.ALKIS`. What a register need not know is left open, as INSPIRE has it (`nilReason`):
since when a version stands. The area is measured by GDAL. It needs Debian's `python3-gdal`.
"""
from __future__ import annotations

import sys
from datetime import datetime, timezone
from typing import Iterator
from xml.sax.saxutils import escape

from osgeo import ogr

HEAD = """<?xml version="1.0" encoding="UTF-8"?>
<wfs:FeatureCollection xmlns:wfs="http://www.opengis.net/wfs/2.0" xmlns:gml="http://www.opengis.net/gml/3.2"
 xmlns:cp="http://inspire.ec.europa.eu/schemas/cp/4.0" xmlns:base="http://inspire.ec.europa.eu/schemas/base/3.3"
 xmlns:xsi="http://www.w3.org/2001/XMLSchema-instance"
 xsi:schemaLocation="http://www.opengis.net/wfs/2.0 http://schemas.opengis.net/wfs/2.0/wfs.xsd
 http://inspire.ec.europa.eu/schemas/cp/4.0 http://inspire.ec.europa.eu/schemas/cp/4.0/CadastralParcels.xsd"
 timeStamp="{time}" numberMatched="{count}" numberReturned="{count}">
"""
MEMBER = """<wfs:member><cp:CadastralParcel gml:id="CP.{at}">
<cp:areaValue uom="m2">{area:.4f}</cp:areaValue>
<cp:beginLifespanVersion xsi:nil="true" nilReason="http://inspire.ec.europa.eu/codelist/VoidReasonValue/Unknown"/>
<cp:geometry>{shape}</cp:geometry>
<cp:inspireId><base:Identifier><base:localId>{number}</base:localId>
<base:namespace>{namespace}</base:namespace></base:Identifier></cp:inspireId>
<cp:label>{number}</cp:label>
<cp:nationalCadastralReference>{number}</cp:nationalCadastralReference>
</cp:CadastralParcel></wfs:member>
"""


def members(layer: ogr.Layer, column: str, namespace: str) -> Iterator[str]:
    """A member for each row; an error where one has no number or no shape."""
    square = layer.GetSpatialRef().GetLinearUnits() ** 2
    for at, feature in enumerate(layer, 1):
        number, shape = feature.GetField(column), feature.GetGeometryRef()
        if number is None or shape is None:
            raise SystemExit(f"row {feature.GetFID()} has no {'shape' if number is not None else column}")
        yield MEMBER.format(
            at=at,
            area=shape.GetArea() * square,
            shape=shape.ExportToGML(["FORMAT=GML32", f"GMLID=G.{at}", "SRSNAME_FORMAT=OGC_URL"]),
            number=escape(str(number)),
            namespace=escape(namespace),
        )


def main() -> None:
    """Writes the file."""
    if len(sys.argv) != 5:
        raise SystemExit((__doc__ or "").strip())
    path, column, namespace, out = sys.argv[1:]
    ogr.UseExceptions()
    source = ogr.Open(path)
    layer = source.GetLayer(0)
    system = layer.GetSpatialRef()
    if layer.GetLayerDefn().GetFieldIndex(column) < 0:
        raise SystemExit(f"{path} has no column {column}")
    if system is None or not system.GetAuthorityCode(None):
        raise SystemExit(f"{path} has no projection with an EPSG code: name one by ogr2ogr -a_srs")
    time = datetime.now(timezone.utc).strftime("%Y-%m-%dT%H:%M:%SZ")
    with open(out, "w", encoding="utf-8") as file:
        file.write(HEAD.format(time=time, count=layer.GetFeatureCount()))
        file.writelines(members(layer, column, namespace))
        file.write("</wfs:FeatureCollection>\n")


if __name__ == "__main__":
    main()
