"""What a verdict stands on, certificates, known faults, and options where they would change nothing."""
from __future__ import annotations

import hashlib
import json
from pathlib import Path

import geopandas as gpd
import pandas as pd
import pytest
from shapely.geometry import Polygon

import gandovel as gv
from gandovel.faults.identity import identity_of
from gandovel.out.certificate import verify, write_certificate
from gandovel.program.tool import find_tool
from planted import drawn, rounded
from registers import register
from test_register import command


@pytest.fixture
def layer(tmp_path):
    """A register in centimetres with two faults, as a GeoPackage."""
    frame, planted = drawn(11, 14.2, 2)
    path = tmp_path / "parcels.gpkg"
    rounded(frame, 0.01).to_file(path, layer="plots", driver="GPKG")
    assert len(planted) == 2
    return path


@pytest.fixture
def folder(layer):
    """The folder that `prepare` makes of it."""
    gv.prepare(layer).save(layer.with_name("work"))
    return layer.with_name("work")


@pytest.mark.parametrize(
    "words",
    [
        ["--city", "other.gpkg"],
        ["--zones", "other.gpkg"],
        ["--number", "other"],
        ["--zone", "other"],
        ["--layer", "other"],
        ["--unit", "ft"],
        ["--touch", "3"],
        ["--grid", "10"],
        ["--narrow", "2"],
        ["--max-move", "2"],
        ["--frame"],
        ["--skip-invalid"],
    ],
    ids=lambda words: words[0],
)
def test_an_option_for_a_folder_is_refused_by_name(folder, words):
    ended = command("check", "work", *words, cwd=folder.parent)
    assert ended.returncode == 2 and ended.stdout == ""
    assert f"error: P18 work is prepared already, and {words[0]} is an option of what prepares it" in ended.stderr
    assert f"gandovel prepare PARCELS {words[0]}" in ended.stderr and "Traceback" not in ended.stderr


def test_options_beside_a_prepared_register_in_python(folder):
    prepared = gv.load(folder)
    for told in ({"touch": 3.0}, {"city": folder.parent / "parcels.gpkg"}, {"frame": True}, {"number": "other"}):
        with pytest.raises(gv.Refused, match="P18 the register is prepared already"):
            gv.check(prepared, **told)
    assert len(gv.check(prepared, number="parcel_no")) == 2


def test_what_touching_did_is_said_each_time(layer, folder):
    line = gv.report(gv.prepare(layer)).basis.line()
    assert line.startswith("grid 10 mm; corners within 14.2 mm of a border touch it: ")
    assert " corners, " in line and " mm off at most, " in line and " m2 closed (measured); no corner moved" in line
    for source in ("parcels.gpkg", "work"):
        ended = command("check", source, cwd=folder.parent)
        assert ended.returncode == 1 and line in ended.stdout.splitlines()


def test_one_record_in_json_the_report_and_python(layer, folder):
    told = json.loads(command("check", "parcels.gpkg", "--json", cwd=layer.parent).stdout)["basis"]
    again = json.loads(command("check", "work", "--json", cwd=layer.parent).stdout)["basis"]
    here = gv.check(layer).attrs["basis"].told()
    same = ("projection", "unit", "precision", "touch_mm", "touched", "moved", "city", "program", "package", "measured")
    for key in same:
        assert told[key] == again[key] == json.loads(json.dumps(here[key])), key
    (source,) = told["sources"]
    assert (source["role"], source["layer"], source["sha256_of"]) == ("parcels", "plots", "file")
    assert source["sha256"] == hashlib.sha256(layer.read_bytes()).hexdigest() and len(told["program"]["sha256"]) == 64
    assert told["precision"]["how"] == "grid" and told["precision"]["grid_mm"] == 10 and told["touch_mm"] == 14.2
    assert told["time"].endswith("+00:00")


def test_a_certificate_is_tried_again(layer):
    ended = command("check", "parcels.gpkg", "--certificate", "verdict.json", cwd=layer.parent)
    assert ended.returncode == 1
    ended = command("check", "--verify", "verdict.json", cwd=layer.parent)
    assert ended.returncode == 0 and "verdict.json: the same verdict on the same layers" in ended.stdout
    frame = gpd.read_file(layer)
    frame.geometry = [frame.geometry[0].buffer(0.5, join_style=2), *frame.geometry[1:]]
    frame.to_file(layer, layer="plots", driver="GPKG")
    ended = command("check", "--verify", "verdict.json", cwd=layer.parent)
    assert ended.returncode == 1 and "parcels.gpkg is another file" in ended.stdout and "are new" in ended.stdout


def test_a_certificate_that_was_changed_or_is_none(layer, tmp_path):
    prepared = gv.prepare(layer)
    path = tmp_path / "c.json"
    write_certificate(path, gv.report(prepared), prepared)
    assert verify(path) == []
    path.write_text(path.read_text().replace("does not tile", "tiles"))
    with pytest.raises(gv.Refused, match="P1 .* was changed after it was written"):
        verify(path)
    for content in ("{}", "[]", "no json"):
        path.write_text(content)
        with pytest.raises(gv.Refused, match="P1 .* certificate"):
            verify(path)
    in_memory = gv.prepare(gpd.read_file(layer))
    write_certificate(path, gv.report(in_memory), in_memory)
    with pytest.raises(gv.Refused, match="P1 .* in memory"):
        verify(path)
    with pytest.raises(gv.Refused, match="P14"):
        write_certificate(tmp_path / "none" / "c.json", gv.report(prepared), prepared)


@pytest.mark.parametrize("known", ["json", "gpkg", "certificate"])
def test_known_faults_do_not_count(layer, known):
    folder, name = layer.parent, "known.gpkg" if known == "gpkg" else "known.json"
    if known == "json":
        (folder / name).write_text(command("check", "parcels.gpkg", "--json", cwd=folder).stdout)
    elif known == "gpkg":
        gv.report(gv.prepare(layer)).save(folder / name)
    else:
        command("check", "parcels.gpkg", "--certificate", name, cwd=folder)
    ended = command("check", "parcels.gpkg", "--known", name, cwd=folder)
    assert ended.returncode == 0 and f"0 of 2 faults are new, the others in {name}" in ended.stderr
    frame = gpd.read_file(layer)
    renumbered = frame.iloc[::-1].assign(parcel_no=[f"new {at}" for at in range(len(frame))])
    renumbered.to_file(layer, layer="plots", driver="GPKG")
    assert command("check", "parcels.gpkg", "--known", name, cwd=folder).returncode == 0
    x0, y0, x1, y1 = frame.geometry[0].bounds
    stamp = Polygon([(x0, y0), (x1, y0), (x1, y1), (x0, y1)]).intersection(frame.geometry[0].buffer(-2))
    more = gpd.GeoDataFrame({"parcel_no": ["stamp"]}, geometry=[stamp], crs=frame.crs)
    gpd.GeoDataFrame(pd.concat([frame, more], ignore_index=True), crs=frame.crs).to_file(
        layer, layer="plots", driver="GPKG"
    )
    ended = command("check", "parcels.gpkg", "--known", name, cwd=folder)
    assert ended.returncode == 1 and "1 of 3 faults are new" in ended.stderr
    ended = command("check", "parcels.gpkg", "--known", "none.json", cwd=folder)
    assert ended.returncode == 4 and "error: P1 none.json has no faults that are known: give a report" in ended.stderr


def test_an_identity_is_of_the_place_alone():
    ring = [(561_000.0, 5_934_000.0), (561_010.0, 5_934_000.0), (561_010.0, 5_934_003.0), (561_000.0, 5_934_003.0)]
    hole = [(561_001.0, 5_934_001.0), (561_001.0, 5_934_002.0), (561_002.0, 5_934_002.0), (561_002.0, 5_934_001.0)]
    one = identity_of("gap", "parcels", Polygon(ring, [hole]), 1000.0)
    assert len(one) == 16 and int(one, 16) >= 0
    with_more = [ring[0], (561_004.0, 5_934_000.0), *ring[1:]]
    for same in (Polygon(ring[2:] + ring[:2], [hole[::-1]]), Polygon(with_more[::-1], [hole[1:] + hole[:1]])):
        assert identity_of("gap", "parcels", same, 1000.0) == one
    shifted = [(x + 0.001 * (x > 561_005), y) for x, y in ring]
    others = [("overlap", "parcels", ring, [hole]), ("gap", "zones", ring, [hole]), ("gap", "parcels", ring, [])]
    others += [("gap", "parcels", shifted, [hole])]
    found = {identity_of(kind, layer, Polygon(outer, holes), 1000.0) for kind, layer, outer, holes in others}
    assert len(found) == 4 and one not in found


def test_a_unit_that_is_not_the_projections_is_refused_unless_it_is_forced(layer):
    with pytest.raises(gv.Refused, match="P7 .* is in metre, and --unit says ft: leave --unit out, or .* force:ft"):
        gv.prepare(layer, unit="ft")
    assert gv.prepare(layer, unit="m").unit.millimetres == 1000
    assert gv.prepare(layer, unit="force:ft").unit.millimetres == pytest.approx(304.8)


@pytest.mark.parametrize("faults", [False, True])
def test_a_report_asks_for_the_overlay_first(faults, tmp_path, monkeypatch):
    """It checks both layers: all faults are asked for only where it is refused."""
    program = tmp_path / "program"
    program.write_text(f'#!/bin/sh\necho "$1" >> "{tmp_path}/runs"\nexec "{find_tool()}" "$@"\n')
    program.chmod(0o755)
    monkeypatch.setenv("GANDOVEL_TOOL", str(program))
    verdict = gv.report(gv.prepare(*register(faults)))
    assert verdict.basis.program["version"] and verdict.verdict == ("does not tile" if faults else "tiles")
    asked = [word for word in (tmp_path / "runs").read_text().split() if word != "--version"]
    assert asked[:3] == (["overlay", "check", "check"] if faults else ["overlay", "area"])


TEXTS = "0123456789abcdef" * 4


@pytest.mark.parametrize(
    "said, proved, texts",
    [
        (f"a kit, proved, texts {TEXTS}", True, TEXTS),
        (f"a kit, unproved, texts {TEXTS}", False, TEXTS),
        ("a kit", None, None),
        (f"a kit, proved, texts {TEXTS[1:]}", None, None),
        (f"a kit, unproved, proved, texts {TEXTS}", None, None),
    ],
)
def test_a_verdict_says_whether_its_program_is_proved_and_of_which_texts(
    said, proved, texts, layer, tmp_path, monkeypatch
):
    """Basis, certificate and `--json` have what the program says of itself, and no more."""
    program = tmp_path / "program"
    program.write_text(
        f'#!/bin/sh\n[ "$1" = --version ] && exec echo "parcel_tool 2.0.0 ({said})"\nexec "{find_tool()}" "$@"\n'
    )
    program.chmod(0o755)
    monkeypatch.setenv("GANDOVEL_TOOL", str(program))
    digest = hashlib.sha256(program.read_bytes()).hexdigest()
    ended = command("check", "parcels.gpkg", "--certificate", "verdict.json", "--json", cwd=layer.parent)
    assert ended.returncode == 1, ended.stderr
    wanted = {"version": f"parcel_tool 2.0.0 ({said})", "sha256": digest, "built_over_proofs": proved, "texts": texts}
    printed, signed = json.loads(ended.stdout), json.loads((layer.parent / "verdict.json").read_text())
    assert signed["basis"]["program"] == printed["basis"]["program"] == wanted
    assert printed["program"] == wanted["version"]
    text = gv.report(gv.prepare(layer)).basis.text()
    assert f"By parcel_tool 2.0.0 ({said})" in text and ("built without proofs" in text) == (proved is False)
    ended = command("check", "--verify", "verdict.json", cwd=layer.parent)
    assert ended.returncode == 0, ended.stderr


def test_the_program_that_is_tried_says_whether_it_is_proved(layer):
    """One that `make build` left, with a note beside it, says that it is not."""
    program = gv.report(gv.prepare(layer)).basis.program
    note = Path(f"{find_tool()}.unproved")
    noted = note.is_file() and note.read_text().split()[:1] == [program["sha256"]]
    assert program["built_over_proofs"] in ([False] if noted else [True, False]) and len(program["texts"]) == 64
