"""A PostGIS server of our own, in a folder, on a socket, and what it says of a layer."""

from __future__ import annotations

import os
import subprocess
from pathlib import Path
from typing import List

FAULTS_BY_SQL = """
SELECT 'overlap', a.parcel_no || ',' || b.parcel_no, ST_Area(c.geom), encode(ST_AsBinary(c.geom), 'hex')
  FROM parcels a JOIN parcels b ON a.fid < b.fid AND a.geom && b.geom,
  LATERAL (SELECT ST_Intersection(a.geom, b.geom) AS geom) c
 WHERE ST_Intersects(a.geom, b.geom) AND ST_Area(c.geom) > 0;
WITH whole AS (SELECT (ST_Dump(ST_Union(geom))).geom AS geom FROM parcels),
     rings AS (SELECT (ST_DumpRings(geom)).* FROM whole),
     holes AS (SELECT row_number() OVER () AS hole, geom FROM rings WHERE path[1] > 0)
SELECT 'gap', string_agg(p.parcel_no, ','), ST_Area(h.geom), encode(ST_AsBinary(h.geom), 'hex')
  FROM holes h JOIN parcels p ON ST_DWithin(h.geom, p.geom, {near}) GROUP BY h.hole, h.geom;
"""
FAULTS_BY_TOPOLOGY = """
SELECT topology.CreateTopology('net', (SELECT ST_SRID(geom) FROM parcels LIMIT 1), {distance}) \\g /dev/null
SELECT topology.AddTopoGeometryColumn('net', 'public', 'parcels', 'topo', 'POLYGON') \\g /dev/null
UPDATE parcels SET topo = topology.toTopoGeom(geom, 'net', 1, {distance});
CREATE TEMP TABLE owned AS SELECT r.element_id AS face, p.parcel_no FROM net.relation r
  JOIN parcels p ON (p.topo).id = r.topogeo_id WHERE r.element_type = 3;
CREATE TEMP TABLE faults AS
SELECT 'overlap' AS kind, string_agg(parcel_no, ',') AS numbers, topology.ST_GetFaceGeometry('net', face) AS geom
  FROM owned GROUP BY face HAVING count(*) > 1
UNION ALL
SELECT 'gap', string_agg(DISTINCT o.parcel_no, ','), topology.ST_GetFaceGeometry('net', f.face_id)
  FROM net.face f JOIN net.edge_data e ON f.face_id IN (e.left_face, e.right_face)
  JOIN owned o ON o.face IN (e.left_face, e.right_face)
 WHERE f.face_id > 0 AND f.face_id NOT IN (SELECT face FROM owned) GROUP BY f.face_id;
SELECT kind, numbers, ST_Area(geom), encode(ST_AsBinary(geom), 'hex') FROM faults;
"""
DROP = """
SET client_min_messages = error;
DO $$ BEGIN PERFORM topology.DropTopology('net'); EXCEPTION WHEN OTHERS THEN NULL; END $$;
DROP TABLE IF EXISTS parcels CASCADE;
"""
STATE = "/bin/cat /proc/$BACKEND/stat /proc/$BACKEND/status"


class Database:
    """The server of a folder. It ends with the run."""

    def __init__(self, folder: Path) -> None:
        self.folder = folder / "database"
        self.bin = sorted(Path("/usr/lib/postgresql").glob("*/bin"))[-1]

    def start(self) -> None:
        """Makes and starts it, with no second process for a statement, so that its seconds can be counted."""
        self.folder.mkdir()
        for path in (self.folder.parent, self.folder):
            path.chmod(0o777)
        self.as_postgres("initdb", "-D", self.folder / "data", "-A", "trust", "-U", "postgres")
        options = f"-k {self.folder} -c listen_addresses='' -c fsync=off -c max_parallel_workers_per_gather=0"
        self.as_postgres("pg_ctl", "-D", self.folder / "data", "-o", options, "-l", self.folder / "log", "-w", "start")
        self.sql("CREATE EXTENSION postgis; CREATE EXTENSION postgis_topology;")

    def stop(self) -> None:
        """Ends the server."""
        self.as_postgres("pg_ctl", "-D", self.folder / "data", "-m", "immediate", "stop")

    def as_postgres(self, program: str, *words: object) -> None:
        """Runs a program of the server, which refuses to run as root."""
        prefix = ["runuser", "-u", "postgres", "--"] if os.geteuid() == 0 else []
        subprocess.run(
            [*prefix, self.bin / program, *map(str, words)], check=True, stdout=subprocess.DEVNULL, cwd="/tmp"
        )

    def sql(self, text: str) -> List[List[str]]:
        """The rows that a text of SQL answers; an error with the server's words where one fails."""
        words = ["psql", "-h", self.folder, "-U", "postgres", "-qAtX", "-F", "\t", "-v", "ON_ERROR_STOP=1"]
        ran = subprocess.run([str(it) for it in words], input=text, capture_output=True, text=True, check=False)
        if ran.returncode:
            raise RuntimeError(ran.stderr[-400:])
        return [line.split("\t") for line in ran.stdout.splitlines()]

    def take(self, layer: Path) -> None:
        """Copies a layer into the table `parcels`, which its user has there already."""
        self.sql(DROP)
        target = f"PG:host={self.folder} user=postgres"
        options = ["-nln", "parcels", "-lco", "FID=fid", "-lco", "GEOMETRY_NAME=geom"]
        subprocess.run(["ogr2ogr", "-f", "PostgreSQL", target, str(layer), *options], check=True)

    def measured(self, text: str) -> List[List[str]]:
        """The rows of a text; what the server's process took for it goes to the file `cost`: seconds and KiB."""
        watched = f"SELECT pg_backend_pid() AS backend \\gset\n\\setenv BACKEND :backend\n{text}\\! {STATE}\n"
        rows = self.sql(watched)
        at = next(at for at, row in enumerate(rows) if len(row) == 1 and row[0].split(" ", 1)[-1][:1] == "(")
        ticks = rows[at][0].rpartition(")")[2].split()
        peak = next(row[1].split()[0] for row in rows[at:] if row[0] == "VmHWM:")
        seconds = (int(ticks[11]) + int(ticks[12])) / os.sysconf("SC_CLK_TCK")
        (self.folder / "cost").write_text(f"{seconds} {peak}")
        return rows[:at]

    def faults_by_sql(self, near: float) -> List[List[str]]:
        """Pairs that overlap, and holes of the union."""
        return self.measured(FAULTS_BY_SQL.format(near=near))

    def faults_by_topology(self, distance: float) -> List[List[str]]:
        """Faces of no parcel and of several."""
        return self.measured(FAULTS_BY_TOPOLOGY.format(distance=distance))
