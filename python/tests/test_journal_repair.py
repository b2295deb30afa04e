"""Damaged journals: what is damaged, what a digest proves, what is kept; the old file stays byte for byte."""
from __future__ import annotations

import random
import subprocess

import pytest

import gandovel as gv
from gandovel.live import journal_repair
from gandovel.live.journal_repair import repair
from gandovel.live.journals import journal_of
from session_town import FULL
from test_register import command

EDITS = ("insert 0 0 60 0 30 0", "split 1 30 0 60 100", "merge 3 4", "straighten 30 0", "insert 0 100 60 100 20 100")


@pytest.fixture
def text(halves):
    """The journal of five edits."""
    return halves.text_of(*EDITS)


def parts_of(text):
    """The header, and the records of two lines."""
    lines = text.splitlines(keepends=True)
    return [lines[0], *(b"".join(lines[at : at + 2]) for at in range(1, len(lines), 2))]


def test_a_whole_journal_is_whole(text):
    made = repair(text)
    assert (made.text, made.entries, made.damages, made.readable, made.is_whole) == (text, 5, [], [], True)
    alone = parts_of(text)[0]
    assert repair(alone).text == alone and repair(alone).entries == 0


def test_a_line_feed_that_is_lost_is_completed(text):
    made = repair(text[:-1])
    assert made.text == text and made.is_whole and made.damages[0].text == "entry 5: it lacks its line feed"


@pytest.mark.parametrize("seed", range(40 if FULL else 12))
def test_one_byte_is_proved_by_a_digest(text, seed):
    """A bit that flipped, a byte that is lost or one more, anywhere before the last entry's digest and behind it."""
    drawn = random.Random(seed)
    at = drawn.randrange(len(text))
    kind = drawn.choice(["flip", "flip", "lost", "more"])
    sign = bytes([text[at] ^ 1 << drawn.randrange(8)]) if kind == "flip" else b""
    damaged = text[:at] + {"flip": sign, "lost": b"", "more": b"~" + text[at : at + 1]}[kind] + text[at + 1 :]
    made = repair(damaged)
    assert made.text == text and made.entries == 5 and made.is_whole and len(made.damages) == 1, (kind, at, made)


def test_a_digest_that_is_gone_is_proved_by_the_next(text):
    parts = parts_of(text)
    for number in range(1, 5):
        stamp, edit = parts[number].split(b"\n")[:2]
        damaged = b"".join([*parts[:number], stamp[:-64] + b"0" * 64 + b"\n" + edit + b"\n", *parts[number + 1 :]])
        made = repair(damaged)
        assert made.text == text and made.is_whole and "that of the entry behind it" in made.damages[0].text
    stamp, edit = parts[5].split(b"\n")[:2]
    made = repair(b"".join([*parts[:5], stamp[:-64] + b"0" * 64 + b"\n" + edit + b"\n"]))
    assert made.entries == 4 and not made.is_whole and made.text == b"".join(parts[:5])


def test_lines_of_another_system(text):
    made = repair(text.replace(b"\n", b"\r\n"))
    assert made.text == text and made.is_whole and "CR LF" in made.damages[0].text


@pytest.mark.parametrize("hole", [b"\0" * 300, b"", b"x" * 40 + b"\n" + b"y" * 70])
def test_a_hole_keeps_what_is_before_and_tells_what_is_behind(text, hole):
    parts = parts_of(text)
    damaged = b"".join(parts[:2]) + hole + b"\n" * bool(hole) + b"".join(parts[4:])
    made = repair(damaged)
    assert made.entries == 1 and made.text == b"".join(parts[:2]) and not made.is_whole
    assert [it.number for it in made.readable] == [4, 5] and [it.edit for it in made.readable] == list(EDITS[3:])
    assert [it.is_chained for it in made.readable] == [False, True]
    assert made.damages[0].line == 4 and made.damages[0].byte == len(made.text)


def test_an_end_that_a_cut_may_leave_is_no_loss(text):
    parts = parts_of(text)
    for end in (parts[5][:40], parts[5][:-30]):
        made = repair(b"".join(parts[:5]) + end)
        assert made.entries == 4 and made.is_whole and "was not answered yet" in made.damages[0].text


def test_what_is_no_journal(text):
    for other in (b"", b"merge 1 2\n", text[80:], b"\0" * 500):
        with pytest.raises(gv.JournalRefused, match="no journal"):
            repair(other)


@pytest.mark.parametrize("seed", range(60 if FULL else 15))
def test_whatever_is_done_to_it_a_beginning_of_the_truth_is_kept(text, seed):
    """Bytes overwritten, cut out, doubled or put in, several times: what is made is the journal up to some entry."""
    drawn, damaged = random.Random(seed), bytearray(text)
    for _ in range(drawn.randrange(1, 4)):
        at, size = drawn.randrange(200, len(damaged)), drawn.randrange(1, 200)
        part = bytes(damaged[at : at + size])
        other = [b"", part + part, bytes(len(part)), drawn.randbytes(len(part)), b"\n" * 3 + part, part[::-1]]
        damaged[at : at + size] = drawn.choice(other)
    made = repair(bytes(damaged))
    parts = parts_of(text)
    assert made.text == b"".join(parts[: made.entries + 1]) and len(journal_of(made.text).records) == made.entries
    assert made.entries == 5 or made.damages


def test_a_sealed_record_of_another_form_is_not_taken(halves):
    made = repair(halves.text_of("merge 1 2", "merge 03 4"))
    assert made.entries == 1 and not made.is_whole


def test_a_long_journal_takes_a_time_that_grows_with_it(halves):
    """30,000 entries, of which one of the middle has a bit that flipped."""
    text = halves.text_of(*(f"straighten {at} 7" for at in range(30_000)))
    at = text.index(b"straighten 15000 7")
    made = repair(text[:at] + b"t" + text[at + 1 :])
    assert made.text == text and made.entries == 30_000 and len(made.damages) == 1


def test_long_records_are_not_searched(text, monkeypatch):
    monkeypatch.setattr(journal_repair, "MOST_TRIED", 50)
    parts = parts_of(text)
    made = repair(text.replace(b"merge 3 4", b"merge 3 5"))
    assert made.entries == 2 and made.text == b"".join(parts[:3]) and [it.number for it in made.readable] == [3, 4, 5]


def test_the_command_keeps_the_old_file(halves, text, tmp_path):
    parts = parts_of(text)
    damaged = b"".join(parts[:3]) + b"\0" * 200 + b"\n" + parts[4] + parts[5]
    (tmp_path / "old").write_bytes(damaged)
    ended = command("journal", "--repair", "old", cwd=tmp_path)
    assert ended.returncode == 1, ended.stderr
    said = ended.stdout.splitlines()
    assert said[0] == f"old: {len(damaged)} bytes; 2 entries are proved, and 2 more can be read"
    assert said[1].startswith(f"line 6, byte {len(b''.join(parts[:3]))}: ") and "lost" in said[1]
    assert any(line.startswith("--out NEW") for line in said) and any("--rest EDITS" in line for line in said)
    ended = command("journal", "--repair", "old", "--out", "new", "--rest", "rest.txt", cwd=tmp_path)
    assert ended.returncode == 1 and (tmp_path / "old").read_bytes() == damaged
    assert (tmp_path / "new").read_bytes() == b"".join(parts[:3]) and (tmp_path / "new").stat().st_mode & 0o777 == 0o600
    rest = (tmp_path / "rest.txt").read_text().splitlines()
    assert [line for line in rest if not line.startswith("#")] == list(EDITS[3:]) and rest[0].startswith("# 4 1 2026")
    assert len(journal_of((tmp_path / "new").read_bytes()).records) == 2
    for words in (["--out", "old"], ["--out", "new"], ["--out", "no/new"]):
        ended = command("journal", "--repair", "old", *words, cwd=tmp_path)
        assert ended.returncode == 4 and "error: P14" in ended.stderr, ended.stderr
    assert (tmp_path / "old").read_bytes() == damaged
    for words in (["old", "--out", "x"], ["old", "--rest", "x"], ["--repair", "old", "--json"]):
        assert command("journal", *words, cwd=tmp_path).returncode == 2
    (tmp_path / "none").write_bytes(b"merge 1 2\n")
    ended = command("journal", "--repair", "none", "--out", "x", cwd=tmp_path)
    assert ended.returncode == 4 and "no journal" in ended.stderr and not (tmp_path / "x").exists()


def test_a_repaired_journal_is_gone_on_with(halves, tmp_path):
    with halves.session() as session:
        session.insert((0, 0), (60, 0), (30, 0))
        held = command("journal", "--repair", str(halves.journal), cwd=tmp_path)
        assert held.returncode == 4 and "in use" in held.stderr, held.stderr
        session.merge(1, 2)
    whole = halves.journal.read_bytes()
    halves.journal.write_bytes(whole.replace(b"merge 1 2", b"merge 1 3"))
    with pytest.raises(gv.JournalRefused, match="changed"):
        halves.session()
    ended = command("journal", "--repair", str(halves.journal), "--out", "new", cwd=tmp_path)
    assert ended.returncode == 0 and "one byte was changed" in ended.stdout, ended.stderr
    assert (tmp_path / "new").read_bytes() == whole
    halves.journal = tmp_path / "new"
    with halves.session() as session:
        assert session.replayed == 2 and session.check().count == 1


def test_a_refusal_names_the_command(halves, text, tmp_path):
    (tmp_path / "bad").write_bytes(text.replace(b"merge 3 4", b"merge 3 5"))
    ended = command("journal", "bad", cwd=tmp_path)
    assert ended.returncode == 4 and "gandovel journal --repair bad --out NEW" in ended.stderr, ended.stderr
