#!/usr/bin/python3
"""interop.py - what `parcel_tool export` writes, read by GDAL and by pyshp: as many polygons, with the same areas.

  interop.py PROGRAM [--install] [--keep FOLDER]

PROGRAM is the built parcel_tool (benches/README.md says where it lies). The town of examples/town is exported. GDAL
(`ogr2ogr` of Debian's package gdal-bin) and pyshp (its package python3-pyshp, for the system's own Python) read both
files, and the areas that they report are compared with those that `parcel_tool area` prints. Each then writes a layer
of what it read, which `parcel_tool area` reads again with the same areas. --install installs the two packages first;
--keep puts the layers that the two wrote into a folder, as they stand in examples/interop. It ends with status 1 at the
first difference.
"""
import argparse
import os
import shutil
import subprocess
import sys
import tempfile

TOWN = os.path.join(os.path.dirname(os.path.abspath(__file__)), "..", "examples", "town")


def output_of(words):
    return subprocess.run(words, check=True, stdout=subprocess.PIPE, text=True).stdout


def areas_of_ours(program, main, unit="mm"):
    """Twice the area of each polygon in mm2, in order."""
    return [int(line.split()[1]) for line in output_of([program, "area", main, "--unit", unit]).splitlines()]


def areas_of_gdal(main):
    name = os.path.splitext(os.path.basename(main))[0]
    query = f"SELECT FID, OGR_GEOM_AREA FROM {name}"
    lines = output_of(["ogr2ogr", "-f", "CSV", "/vsistdout/", main, "-sql", query]).splitlines()[1:]
    return [2 * float(line.split(",")[1]) for line in lines]


def shapes_of_pyshp(main):
    import shapefile

    with open(main, "rb") as shp, open(main[:-1] + "x", "rb") as shx:
        reader = shapefile.Reader(shp=shp, shx=shx)
        return len(reader), reader.shapes()


def areas_of_pyshp(main):
    import shapefile

    count, shapes = shapes_of_pyshp(main)
    if count != len(shapes):
        sys.exit(f"pyshp counts {count} records and reads {len(shapes)} shapes")
    # Outer rings run clockwise in a shapefile, and pyshp's areas are signed.
    return [-2 * shapefile.signed_area(shape.points) for shape in shapes]


def write_by_gdal(main, target):
    output_of(["ogr2ogr", "-f", "ESRI Shapefile", target, main])


def write_by_pyshp(main, target):
    import shapefile

    _, shapes = shapes_of_pyshp(main)
    with shapefile.Writer(target, shapeType=shapefile.POLYGON) as writer:
        writer.field("ID", "N")
        for number, shape in enumerate(shapes, 1):
            writer.shape(shape)
            writer.record(number)


def compare(what, came, wanted):
    if came != wanted:
        sys.exit(f"{what}: {came} and not {wanted}")
    print(f"{what}: {len(came)} polygons, twice their areas {', '.join('%d' % it for it in came)}")


def main():
    parser = argparse.ArgumentParser(description=__doc__, formatter_class=argparse.RawDescriptionHelpFormatter)
    parser.add_argument("program")
    parser.add_argument("--install", action="store_true")
    parser.add_argument("--keep")
    given = parser.parse_args()
    if given.install:
        output_of(["apt-get", "update"])
        output_of(["apt-get", "install", "-y", "gdal-bin", "python3-pyshp"])
    with tempfile.TemporaryDirectory() as folder:
        town = os.path.join(folder, "town")
        city, parcels = os.path.join(TOWN, "city.shp"), os.path.join(TOWN, "parcels.shp")
        output_of([given.program, "export", city, parcels, "--unit", "cm", "--out", town])
        wanted = areas_of_ours(given.program, parcels, "cm")
        compare("exported, read by parcel_tool", areas_of_ours(given.program, town + ".shp"), wanted)
        for name, areas_of, write in [
            ("gdal", areas_of_gdal, write_by_gdal),
            ("pyshp", areas_of_pyshp, write_by_pyshp),
        ]:
            compare(f"exported, read by {name}", areas_of(town + ".shp"), wanted)
            written = os.path.join(folder, f"{name}_town_cm.shp")
            write(town + ".shp", written)
            compare(f"written by {name}, read by parcel_tool", areas_of_ours(given.program, written), wanted)
            for path in (written, written[:-1] + "x"):
                if given.keep:
                    shutil.copy(path, given.keep)


if __name__ == "__main__":
    main()
