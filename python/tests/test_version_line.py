"""What `parcel_tool --version` says of its proofs and texts, and what the scripts of the repository hold it to."""
from __future__ import annotations

import shutil
import subprocess
from pathlib import Path
from typing import Tuple

import pytest

from test_proof_record import ROOT, script

CONSTANT = "crates/parcel_tool/src/texts.rt"
SUM, OTHER = "0123456789abcdef" * 4, "f" * 64


def says(folder: Path, line: str) -> Path:
    """A program that prints this line."""
    program = folder / "parcel_tool"
    program.write_text(f"#!/bin/sh\necho '{line}'\n")
    program.chmod(0o755)
    return program


@pytest.fixture
def few(tmp_path: Path) -> Path:
    """A repository of two crates below the program and one beside it."""
    for name in ("low/src/lib.rt", "high/specs/High.antt", "high/README.md", "beside/src/lib.rt", "high/out/none"):
        (tmp_path / "crates" / name).parent.mkdir(parents=True, exist_ok=True)
        (tmp_path / "crates" / name).write_text(f"{name}\n")
    (tmp_path / CONSTANT).parent.mkdir(parents=True)
    shutil.copy(ROOT / CONSTANT, tmp_path / CONSTANT)
    (tmp_path / "crates.txt").write_text("low:\nhigh: low clap\nparcel_tool: high\nbeside: high\n")
    return tmp_path


def test_sum_is_of_what_sha256sum_prints_of_the_texts(few: Path) -> None:
    """Texts of the program and of all below it count, no other file does, and not the file that has the sum."""
    version = script("version")
    files = "crates/high/specs/High.antt crates/low/src/lib.rt"
    made = subprocess.check_output(f"sha256sum {files} | sha256sum", shell=True, cwd=few, text=True)
    assert version.sum_of_program(few) == made.split()[0]
    for unread in (CONSTANT, "crates/high/README.md", "crates/beside/src/lib.rt", "crates/high/out/none"):
        (few / unread).write_text("another text\n")
        assert version.sum_of_program(few) == made.split()[0]
    (few / "crates/low/src/lib.rt").write_text("another text\n")
    assert version.sum_of_program(few) != made.split()[0]


def test_a_text_that_changed_without_the_sum_is_told_with_what_helps(
    few: Path, capsys: pytest.CaptureFixture[str], monkeypatch: pytest.MonkeyPatch
) -> None:
    """`scripts/version` fails, `--write` puts the sum there, and then it passes."""
    version = script("version")
    version.ROOT, version.PACKAGES, version.PROGRAM = few, {}, {CONSTANT: version.PROGRAM[CONSTANT]}
    monkeypatch.setattr(version, "newest", lambda: "2.0.0")

    def status(*words: str) -> Tuple[int, str]:
        monkeypatch.setattr("sys.argv", ["version", *words])
        return version.main(), capsys.readouterr().out

    assert status() == (
        1,
        f"{CONSTANT} has not the version 2.0.0 of CHANGELOG.md, and the sum of the texts\n"
        "run scripts/version --write\n",
    )
    assert status("--write")[0] == 0 and status() == (0, "")
    assert f"proved, texts {version.sum_of_program(few)})" in (few / CONSTANT).read_text()
    (few / "crates/low/src/lib.rt").write_text("another text\n")
    assert status()[0] == 1


LINES = {
    "proved": f"parcel_tool 2.0.0 (a-kit, proved, texts {SUM})",
    "unproved": f"parcel_tool 2.0.0 (a-kit, unproved, texts {SUM})",
    "of other texts": f"parcel_tool 2.0.0 (a-kit, proved, texts {OTHER})",
    "of before": "parcel_tool 1.1.0 (a-kit)",
}


@pytest.mark.parametrize("how", LINES)
def test_gate_and_release_take_what_is_proved_of_these_texts_alone(
    how: str, tmp_path: Path, monkeypatch: pytest.MonkeyPatch
) -> None:
    """The gate's record names the fault, a release is refused, and what is unproved is packed as such alone."""
    record, release = script("proof_to_program"), script("release")
    program = says(tmp_path, LINES[how])
    for one in (record, release):
        monkeypatch.setattr(one, "sum_of_program", lambda root: SUM)
    monkeypatch.setattr(record.linking, "OUT", tmp_path)
    monkeypatch.setattr(record.linking, "OBJECT", tmp_path / "none")
    monkeypatch.setattr(release.linking, "PROGRAM", program)
    faults = list(record.faults_of({}, []))
    assert faults == (
        [] if how == "proved" else [f"the program does not say `proved, texts {SUM}`: run scripts/version --write"]
    )
    for verdict, mark in (("proved", ""), ("unproved", "+unproved")):
        monkeypatch.setattr(release.products, "project_of", lambda root, mark=mark: {"version": f"2.0.0{mark}"})
        if how == verdict:
            assert release.version_of("a-kit", verdict) == f"2.0.0{mark}"
        else:
            with pytest.raises(release.Refused, match="the program says `parcel_tool"):
                release.version_of("a-kit", verdict)
    program.unlink()
    assert len(list(record.faults_of({}, []))) == 1


def test_what_is_built_without_proofs_says_so_and_its_true_sum(few: Path, tmp_path: Path) -> None:
    """`make build` compiles a copy in which the constant differs, also where the text's own sum is stale."""
    build = script("build_unproved")
    build.ROOT = few
    (few / "crates/low/src/lib.rt").write_text("another text\n")
    before = (few / CONSTANT).read_text()
    copied = build.copy_of_the_crate(tmp_path / "room")
    assert f", unproved, texts {build.sum_of_program(few)})" in (copied / "src/texts.rt").read_text()
    assert (few / CONSTANT).read_text() == before and not (copied / "out").exists()
    (few / CONSTANT).write_text("nothing\n")
    with pytest.raises(build.NotBuilt, match="names the sum of the texts 0 times"):
        build.copy_of_the_crate(tmp_path / "other")
