"""`gandovel journal`: what a session wrote as a table, checked alone; and a word of the journal, taken apart."""
from __future__ import annotations

import csv
import hashlib
import io
import json
import random

import pytest
from hypothesis import HealthCheck, given, settings
from hypothesis import strategies as st

import gandovel as gv
from gandovel.cli import main
from gandovel.live.journals import Chain, Said, changes_of, journal_of, said_of
from session_town import FULL
from test_session_journal import damaged

pytestmark = pytest.mark.usefixtures("in_time")
NAMES = st.from_regex(r"[A-Za-z0-9][A-Za-z0-9._-]{0,30}", fullmatch=True)
KEYS = st.none() | st.text(st.characters(min_codepoint=0x21, max_codepoint=0x7E), min_size=1, max_size=60)
REASONS = st.text(st.characters(blacklist_categories=["C", "Z"]) | st.sampled_from(" ,#:"), max_size=40)


@settings(deadline=None, suppress_health_check=[HealthCheck.too_slow])
@given(NAMES, REASONS, KEYS)
def test_a_word_is_taken_apart_as_it_was_put_together(name, why, key):
    said = Said(name, why, key)
    assert said_of(said.word) == said


@pytest.mark.parametrize(
    "word, said",
    [
        ("", Said("")),
        ("anna, deed 17", Said("anna", "deed 17")),
        ("Anna Müller, deed 17: a merger, sold", Said("Anna Müller", "deed 17: a merger, sold")),
        ("the town's clerk", Said("the town's clerk")),
        ("anna #a,b, why", Said("anna", "why", "a,b")),
        ("anna, #a", Said("anna", "#a")),
    ],
)
def test_words_of_others(word, said):
    assert said_of(word) == said


def written(*records):
    """A journal of a made layer: each record an edit, or what stands before its digest and the edit."""
    digest = hashlib.sha256(b"a layer").hexdigest().encode()
    text = b"# gandovel journal 1 mm " + digest + b"\n"
    for number, record in enumerate(records, 1):
        stamp, edit = record if isinstance(record, tuple) else (f"# {number} 1 2026-01-01T00:00:00Z ", record)
        digest = hashlib.sha256(digest + stamp.encode() + edit.encode() + b"\n").hexdigest().encode()
        text += stamp.encode() + digest + b"\n" + edit.encode() + b"\n"
    return text


def told(capsys, *words):
    """The status of `gandovel journal` with these words, and what it printed."""
    status = main(["journal", *map(str, words)])
    return (status, *capsys.readouterr())


def test_a_table(halves, capsys):
    with halves.session("anna", "bert") as session, session.desk("bert") as bert:
        bert.insert((0, 0), (60, 0), (30, 0))
        bert.insert((0, 100), (60, 100), (30, 100))
        bert.edit(gv.Split(1, [(30, 0), (20, 50), (30, 100)]), who="anna #k1, deed 17")
        bert.edit(gv.Merge(3, 4), who="Bert B., it was wrong: taken back")
    times = [it.moment for it in gv.read_journal(halves.journal).records]
    status, out, err = told(capsys, halves.journal, "--parcels", 2)
    lines = out.splitlines()
    assert (status, err) == (0, "")
    assert lines[0].split() == ["number", "time", "who", "why", "out", "in", "edit"]
    assert lines[3].split() == f"3 {times[2]} anna deed 17 1 3 4 split 1 30 0 20 50 30 100".split()
    assert lines[4].split() == f"4 {times[3]} Bert B. it was wrong: taken back 3 4 5 merge 3 4".split()
    assert len({line.index(it) for line, it in zip(lines[1:5], ("insert", "insert", "split", "merge"))}) == 1
    assert lines[5].startswith("4 entries; layer " + halves.layer())
    status, out, _ = told(capsys, halves.journal, "--json")
    records = json.loads(out)["records"]
    assert [(it["clerk"], it["who"], it["why"], it["key"], it["out"], it["in"]) for it in records[1:3]] == [
        (2, "", "", "", [], []),
        (2, "anna", "deed 17", "k1", ["1"], ["+1", "+2"]),
    ]
    status, out, _ = told(capsys, halves.journal, "--csv")
    rows = list(csv.DictReader(io.StringIO(out)))
    assert [row["edit"] for row in rows] == halves.lines() and rows[3]["in"] == "+3"


def test_new_ids_are_those_of_the_program(town, capsys):
    """Each edit's ids, as the journal tells them with the layer's size, are what the session answered."""
    with town.session() as session:
        ring = [tuple(it) for it in session.parcel(10).ring.tolist()]
        made = [session.merge(1, 2), session.split(10, [ring[0], ring[len(ring) // 2]]), session.merge(65, 3)]
        border = [corner for corner in ring if corner in map(tuple, session.parcel(11).ring.tolist())]
        assert len(border) >= 2
        made.append(session.merge(66, 67))
    changes = changes_of(gv.read_journal(town.journal), 64)
    assert [(tuple(map(int, it.out)), tuple(map(int, it.new))) for it in changes] == [(it.out, it.new) for it in made]


@pytest.mark.parametrize("kind", ["digit", "gone", "doubled", "comment", "exchanged"])
def test_damage_is_named_by_its_line(town, capsys, kind):
    """The line that is named is that of the first record that differs from what was written."""
    draw = random.Random(kind)
    text = town.text_of(*[f"merge {1 if at == 2 else 62 + at} {at}" for at in range(2, 9)])
    for _ in range(500 if FULL else 60):
        other = damaged(draw, text, kind)
        town.journal.write_bytes(other)
        status, out, err = told(capsys, town.journal)
        first = next(at for at, (a, b) in enumerate(zip(text.split(b"\n"), other.split(b"\n")), 1) if a != b)
        assert (status, out) == (4, "") and err.count("\n") == 1, err
        assert err.startswith("error: ")
        if first > 1:
            assert f"{town.journal} line {first - first % 2}: " in err, (first, err)
        else:
            assert "no journal" in err or f"{town.journal} line 2: " in err, err


def test_the_program_agrees(town):
    """Of journals with a byte changed, cut off or put in, the program takes those that are read here, and no other."""
    draw = random.Random(3)
    text = town.text_of("merge 1 2", "merge 65 3")
    read = refused = 0
    for _ in range(400 if FULL else 40):
        at = draw.randrange(draw.choice([90, len(text)]), len(text) + 1)
        rest = text[at + 1 :] if draw.random() < 0.5 else b""
        other = text[:at] + draw.choice([b"", b"\n", b"0", b" ", b"x", b"\xff"]) + rest
        town.journal.write_bytes(other)
        try:
            here = len(journal_of(other).records)
            read += 1
        except gv.JournalRefused as fault:
            here, refused = fault.line, refused + 1
        try:
            with town.session() as session:
                there = session.replayed
        except gv.JournalRefused as fault:
            there = fault.line
        assert here == there, other
    assert min(read, refused) > 3


def test_a_torn_tail_is_told(town, capsys):
    whole, more = town.text_of("merge 1 2"), town.text_of("merge 1 2", "merge 65 3")
    town.journal.write_bytes(more[: len(whole) + 30])
    status, out, err = told(capsys, town.journal)
    assert status == 0 and "1 entries" in out and "note: " in err and "30 bytes" in err


@pytest.mark.parametrize("text", [b"", b"x", b"merge 1 2\n", b"# gandovel journal 1 mm \n", b"\xff" * 100, b"\n" * 9])
def test_no_journal(town, capsys, text):
    town.journal.write_bytes(text)
    status, out, err = told(capsys, town.journal)
    assert (status, out) == (4, "") and err.startswith(f"error: no journal {town.journal}: "), err
    for path in (town.journal.parent, town.journal.parent / "none"):
        status, out, err = told(capsys, path)
        assert (status, out) == (4, "") and err.startswith(f"error: S1 {path}: ")


def test_a_word_that_moves_a_terminal(tmp_path, capsys):
    """What only a made journal has is refused, or printed by its number."""
    path = tmp_path / "made.txt"
    path.write_bytes(written(("# 1 1 2026-01-01T00:00:00Z an\u202ena ", "merge 1 2")))
    status, out, _ = told(capsys, path)
    assert status == 0 and "an\\u202ena" in out
    for stamp, edit in (
        ("# 1 1 2026-02-30T00:00:00Z ", "merge 1 2"),
        ("# 1 1 2026-01-01T00:00:00Z a\x1b[1m ", "merge 1 2"),
        (f"# 1 1 2026-01-01T00:00:00Z {'x' * 201} ", "merge 1 2"),
        ("# 1 01 2026-01-01T00:00:00Z ", "merge 1 2"),
        ("# 1 4294967296 2026-01-01T00:00:00Z ", "merge 1 2"),
        ("# 1 1 2026-01-01T00:00:00Z ", "merge 1 02"),
        ("# 1 1 2026-01-01T00:00:00Z ", "straighten 1 100000000001"),
        ("# 1 1 2026-01-01T00:00:00Z ", "straighten -0 1"),
    ):
        path.write_bytes(written((stamp, edit)))
        assert told(capsys, path)[0] == 4, (stamp, edit)


@settings(deadline=None, suppress_health_check=[HealthCheck.too_slow])
@given(st.lists(st.integers(1, 200), max_size=8))
def test_parts_are_read_as_the_whole(cuts):
    """A journal that comes in parts has the records of the whole, and the beginning of one more."""
    text = written("merge 1 2", "merge 65 3") + b"# 3 1 20"
    chain, records, at = Chain(), [], 0
    for size in [*cuts, len(text)]:
        records += chain.feed(text[at : at + size])
        at += size
    assert tuple(records) == journal_of(text).records and chain.end() == 8 and len(records) == 2
