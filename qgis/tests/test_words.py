"""What misled a clerk once: whose fault it is, which layer is edited, and words of the program in place of one's
own."""
from __future__ import annotations

import os
import re
import subprocess
import sys
from pathlib import Path
from typing import Any, List

import pytest
from conftest import ROOT
from shapely.geometry import Point, Polygon, box
from test_refusals import M, project, refused, run, written  # noqa: F401

OLD_ENUMS = re.compile(
    r"\b(Qt\.Align(?!mentFlag)\w+|Qt\.Right\w+|QgsWkbTypes\.(Multi\w+|Point|Polygon\w*|NoGeometry)\b|QVariant)"
)


def two(folder: Path, gap: float = 0.0) -> Path:
    """Two parcels; with a gap between them, where one is asked for, a third one round three sides of it."""
    shapes: List[Any] = [box(0, 0, 10, 10), box(10 + gap, 0, 20, 10), box(0, 10, 20, 20), box(0, -10, 20, 0)]
    return written(folder / "parcels.gpkg", shapes, parcel_no=["1", "2", "3", "4"])


class Heard:
    """A feedback that keeps what it is handed."""

    def __new__(cls) -> Any:
        from qgis.core import QgsProcessingFeedback

        class Feedback(QgsProcessingFeedback):
            def __init__(self) -> None:
                super().__init__(False)
                self.lines: List[str] = []

            def pushInfo(self, info: str) -> None:
                self.lines.append(info)

        return Feedback()


def test_a_gap_of_the_zones_is_said_of_the_zones(qgis: Any, tmp_path: Path) -> None:
    """The parcels tile; the zones leave a hole."""
    zones = [
        Polygon([(0, -10), (20, -10), (20, 20), (0, 20)], [[(2, 2), (4, 2), (4, 4), (2, 4)]]),
    ]
    path = written(tmp_path / "zones.gpkg", zones, zone=["A"])
    feedback = Heard()
    given = {"INPUT": two(tmp_path), "NUMBER_FIELD": "parcel_no", "OVERLAY": path, "OVERLAY_FIELD": "zone"}
    results = run("overlayzones", feedback, **given, SPLIT=M, PARTS=M, TABLE=M, FAULTS=M)
    told = [line for line in feedback.lines if line.startswith("The parcels")]
    assert told == [
        "The parcels tile the city: no gaps, no overlaps, no open gaps, no slivers. "
        "The zones do not tile the city: 1 gap, no overlaps, no open gaps, no slivers."
    ]
    assert [fault["layer"] for fault in results["FAULTS"].getFeatures()] == ["zones"]


@pytest.mark.parametrize("name", ["locatepoints", "applyedits"])
def test_what_needs_parcels_that_tile_says_so_in_words(qgis: Any, tmp_path: Path, name: str) -> None:
    """As the dock does: the counts, the largest fault with its parcels, and what to do; no edge, and no code."""
    path = two(tmp_path, gap=0.5)
    (tmp_path / "edits.txt").write_text("merge 1 2\n")
    points = written(tmp_path / "points.gpkg", [Point(1, 1)], name=["a"])
    more = {"locatepoints": {"POINTS": points}, "applyedits": {"EDITS": tmp_path / "edits.txt", "ANSWERS": M}}[name]
    text = refused(name, INPUT=path, NUMBER_FIELD="parcel_no", OUTPUT=M, **more)
    assert "The parcels do not tile the city: 1 gap, no overlaps, no open gaps, no slivers." in text
    assert "The largest is at (10.250, 5.000), at the parcels 1, 2, 3, 4." in text
    assert "needs parcels that tile: mend the faults that Check parcels lists." in text
    assert "H2" not in text and " net " not in text


def test_the_package_is_found_where_the_readme_has_it(
    qgis: Any, tmp_path: Path, monkeypatch: pytest.MonkeyPatch
) -> None:
    """In ~/gandovel, with nothing on the path and no setting; and where it is nowhere, no registry is named."""
    from gandovel import program

    python = tmp_path / "gandovel/bin/python3"
    python.parent.mkdir(parents=True)
    python.symlink_to("/usr/bin/python3")
    monkeypatch.setenv("HOME", str(tmp_path))
    monkeypatch.setenv("PATH", "/nowhere")
    monkeypatch.delenv("GANDOVEL_PYTHON")
    monkeypatch.setattr(program, "_found", {})
    assert program.find_python() == str(python)
    monkeypatch.setattr(program, "_found", {})
    monkeypatch.setattr(program, "_has_package", lambda python: False)
    with pytest.raises(program.NotFound) as caught:
        program.find_python()
    assert "~/gandovel" in str(caught.value) and "pip " not in str(caught.value)
    assert "~/gandovel" in (ROOT / "README.md").read_text()


def shapes_of(*polygons: Polygon) -> Any:
    """Shapes of QGIS, by features from 1."""
    from qgis.core import QgsGeometry

    return {at: QgsGeometry.fromWkt(polygon.wkt) for at, polygon in enumerate(polygons, 1)}


def test_where_corners_disagree_no_sound_parcel_is_bent(qgis: Any) -> None:
    """Parcels 1 and 2 agree on a corner, and that of 3 is 41 cm off: nothing is agreed, so nothing is put in."""
    from gandovel.missing_corner import missing_corners
    from qgis.core import QgsGeometry

    shapes = shapes_of(
        Polygon([(0, 0), (5, 0), (5, 10), (0, 10)]),
        Polygon([(5, 0), (10, 0), (10, 10), (5, 10)]),
        Polygon([(0, 10), (5, 10.41), (10, 10), (10, 20), (0, 20)]),
    )
    fault = QgsGeometry.fromWkt("Polygon((0 10, 5 10, 10 10, 5 10.41, 0 10))")
    found = missing_corners(fault, shapes, 0.00075)
    assert found is None or not found.agreed
    inwards = {**shapes, 3: QgsGeometry.fromWkt("Polygon((0 10, 5 9.59, 10 10, 10 20, 0 20, 0 10))")}
    for overlap in ("Polygon((0 10, 5 9.59, 10 10, 5 10, 0 10))", "Polygon((0 10, 5 9.59, 5 10, 0 10))"):
        found = missing_corners(QgsGeometry.fromWkt(overlap), inwards, 0.00075)
        assert found is None or not found.agreed


def test_no_type_of_old_qt_is_named() -> None:
    """Enumerations are scoped, and there is no QVariant, so that a QGIS of Qt 6 can load the plugin."""
    files = sorted((ROOT / "qgis/gandovel").rglob("*.py"))
    assert files
    found = [f"{path.name}: {hit}" for path in files for hit in OLD_ENUMS.findall(path.read_text())]
    assert found == []
    assert not [path.name for path in files if re.search(r"(from|import) PyQt[56]", path.read_text())]


def test_the_zip_brings_its_side_of_the_package_and_the_program(qgis: Any, tmp_path: Path) -> None:
    """Unpacked by QGIS's own way, which keeps no permissions: a Python with GeoPandas needs nothing else."""
    import zipfile

    zip_path = tmp_path / "gandovel.zip"
    command = [sys.executable, ROOT / "packaging/qgis_plugin.py", zip_path, "0", os.environ["GANDOVEL_TOOL"]]
    subprocess.run(command, check=True)
    with zipfile.ZipFile(zip_path) as archive:
        archive.extractall(tmp_path / "plugins")
    code = (
        "import sys; sys.path.insert(0, sys.argv[1]); from gandovel import program; "
        "print(program.environment()['GANDOVEL_TOOL']); "
        "import subprocess; ended = subprocess.run([program.find_python(), '-m', 'gandovel', 'check', sys.argv[2], "
        "'--number', 'parcel_no'], env=program.environment(), capture_output=True, text=True, cwd='/'); "
        "print(ended.stdout, ended.stderr)"
    )
    environment = {key: value for key, value in os.environ.items() if key not in ("PYTHONPATH", "GANDOVEL_TOOL")}
    words = ["/usr/bin/python3", "-c", code, str(tmp_path / "plugins"), str(two(tmp_path))]
    ended = subprocess.run(words, env=environment, capture_output=True, text=True, check=False)
    assert ended.returncode == 0, ended.stderr
    assert ended.stdout.startswith(str(tmp_path / "plugins/gandovel/bin/linux-x86_64/parcel_tool"))
    assert "no gaps, no overlaps" in ended.stdout
    zones = written(tmp_path / "zones.gpkg", [box(0, -10, 15, 20), box(15, -10, 20, 20)], zone=["W", "E"])
    words = ["-m", "gandovel", "report", two(tmp_path), "--number", "parcel_no", "--zones", zones]
    code = (
        "import sys; sys.path.insert(0, sys.argv[1]); from gandovel import program; import subprocess; "
        "sys.exit(subprocess.run([program.find_python(), *sys.argv[2:]], env=program.environment(), cwd='/')"
        ".returncode)"
    )
    words = ["/usr/bin/python3", "-c", code, tmp_path / "plugins", *words, "--out", tmp_path / "report.gpkg"]
    ended = subprocess.run(words, env=environment, capture_output=True, text=True, check=False)
    assert ended.returncode == 0 and "3 parcels split" in ended.stdout, ended.stdout + ended.stderr


def test_all_words_are_there_in_each_language(tmp_path: Path) -> None:
    """None is missing, none is left over, and Qt Linguist's own tool takes the files."""
    command = [sys.executable, ROOT / "packaging/qgis_words.py", "--check"]
    checked = subprocess.run(command, capture_output=True, text=True, check=False)
    assert (checked.returncode, checked.stdout) == (0, "")
    for path in sorted((ROOT / "qgis/gandovel/i18n").glob("*.ts")):
        told = subprocess.run(
            ["lrelease", path, "-qm", tmp_path / "it.qm"], capture_output=True, text=True, check=False
        )
        assert told.returncode == 0 and "0 unfinished" in told.stdout, told.stdout + told.stderr


def test_the_plugin_speaks_german(qgis: Any, tmp_path: Path, monkeypatch: pytest.MonkeyPatch) -> None:
    """Verdicts, titles and helps."""
    from gandovel import words
    from gandovel.algorithms import CheckParcels

    monkeypatch.setattr(words, "language", lambda: "de")
    title = CheckParcels().displayName()
    assert title == "Flurstücke prüfen" and "Lücke" in CheckParcels().shortHelpString()
    assert "ganzen Millimetern" in CheckParcels().shortHelpString()
    (tmp_path / "edits.txt").write_text("merge 1 2\n")
    given = {"EDITS": tmp_path / "edits.txt", "OUTPUT": M, "ANSWERS": M}
    text = refused("applyedits", INPUT=two(tmp_path, gap=0.5), NUMBER_FIELD="parcel_no", **given)
    assert "decken die Stadt nicht lückenlos: 1 Lücke, keine Überlappungen" in text


def test_help_buttons_lead_to_the_page() -> None:
    """At headings that it has."""
    import re as expressions

    page = (ROOT / "docs/qgis.md").read_text()
    heads = {
        expressions.sub(r"[^a-z -]", "", line.strip("# ").lower()).replace(" ", "-")
        for line in page.splitlines()
        if line.startswith("#")
    }
    code = "".join(path.read_text() for path in (ROOT / "qgis/gandovel").rglob("*.py"))
    links = set(expressions.findall(r'(?:show_help|help_url)\("([a-z-]+)"\)', code))
    assert len(links) >= 3 and links <= heads


def test_faults_have_the_colours_of_the_map(qgis: Any) -> None:
    """Of every kind, in the dock and in the layer of faults: those of the report's map."""
    from gandovel.answers import KINDS
    from gandovel.marks import COLOURS

    page = (ROOT / "python/src/gandovel/out/map_page/page.css").read_text().split("@media")[0]
    style = (ROOT / "qgis/gandovel/styles/faults.qml").read_text()
    categories = dict(re.findall(r'category value="(\w+)" label="[^"]+" symbol="(\d)"', style))
    fills = dict(re.findall(r'name="(\d)" alpha.*?k="color" v="(\d+,\d+,\d+),255"', style, re.DOTALL))
    assert set(categories) == set(COLOURS) == set(KINDS)
    for kind in KINDS:
        found = re.search(rf"--{kind.replace('_', '-')}: (#[0-9a-f]{{6}})", page)
        assert found is not None and found[1] == COLOURS[kind]
        red, green, blue = (int(COLOURS[kind][at : at + 2], 16) for at in (1, 3, 5))
        assert fills[categories[kind]] == f"{red},{green},{blue}"


def test_words_of_the_dock_are_none_of_the_shell(qgis: Any) -> None:
    """No text that a user of the window sees has an option of a command, or a command that installs."""
    from gandovel import words

    texts = [text for text in words.translations("en") if not text.startswith("<p>")]
    assert len(texts) > 150
    amiss = [text for text in texts if re.search(r"(^|\s)--\w|\bpip\b|\$ |\bstdout\b|\bexit status\b", text)]
    assert amiss == []


def test_an_undecided_verdict_is_said_to_be_one(qgis: Any) -> None:
    """With the distances that the layer's own measure proposes; and not that the parcels do not tile."""
    from gandovel.answers import notes_of, verdict_of

    precision = {"proposed": [{"touch_mm": 1.5, "touching": 3}, {"touch_mm": 12.0, "touching": 9}]}
    answer = {"verdict": "undecided", "counts": {"gaps": 2}, "basis": {"precision": precision}}
    assert verdict_of(answer) == (
        "Which faults there are can't be told from the layer's noise: 2 gaps, no overlaps, no open gaps, no slivers."
    )
    assert [note for note in notes_of(answer) if note.endswith("These fit (mm): 1.5, 12.")]
    assert not [note for note in notes_of({**answer, "verdict": "does not tile"}) if "These fit" in note]
