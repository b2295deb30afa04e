#!/usr/bin/env python3
"""Fails where a mutant (crates/NAME/must-fail/*.edit, crates/NAME/more-wrong-bodies/*.edit) cannot be applied: each
`old:` line has to stand in its file exactly once, and each `new:` line has to change it. The gate tells of such an edit
and passes all the same, and does not look at the second folder. It fails too where both folders have a mutant of one
name, where one of `scripts/gate_mutants.txt` is not in the second folder, and where the README of a crate marks one by
`†` that is not in the second folder, or leaves the mark out.

    scripts/check_edits.py [--mark]     with --mark it first puts the marks right
"""
import re
import sys
from pathlib import Path

ROOT = Path(__file__).resolve().parent.parent
TIERS = ("must-fail", "more-wrong-bodies")
MARK = "†"
LISTED = ROOT / "scripts/gate_mutants.txt"


def faults_of(edit):
    """Why an edit cannot be applied; nothing where it can. Its lines are applied in turn."""
    crate = edit.parent.parent
    texts, text, old = {}, None, None
    for line in edit.read_text().splitlines():
        key, _, value = line.partition(":")
        value = value.removeprefix(" ")
        if key == "file":
            file = crate / value
            if not file.is_file():
                yield f"no file {value}"
                return
            text = texts.setdefault(file, file.read_text())
        elif key == "old" and text is not None:
            old = value
            if text.count(old) != 1:
                yield f"an old text is there {text.count(old)} times: {old}"
        elif key == "new" and old is not None:
            if value == old:
                yield "a new text that changes nothing"
            text = texts[file] = text.replace(old, value)
        else:
            yield f"a line that is not read: {line}"
    if old is None:
        yield "no old text"


def marked(crate, text, tiers):
    """A crate's page, with the mark behind each mutant of the second tier in its table of promises and no other.

    `tiers` has, for the names of a crate and a mutant, the folder. A mutant is this crate's, or else of the one crate
    that has a mutant of this name.
    """
    lines = []
    elsewhere = {name: tier for (_, name), tier in tiers.items()}
    for line in text.split("\n"):
        cells = line.split("|")
        if len(cells) > 4:

            def word(found):
                tier = tiers.get((crate, found[1]), elsewhere.get(found[1]))
                return f"`{found[1]}`{MARK if tier == TIERS[1] else ''}"

            cells[3:] = [re.sub(rf"`(\w+)`{MARK}?", word, cell) for cell in cells[3:]]
        lines.append("|".join(cells))
    return "\n".join(lines)


def mark_faults(mutants, mark):
    """Where a crate's table of promises has wrong marks; with `mark` they are put right, and there is no fault."""
    tiers, faults = {(edit.parent.parent.name, edit.stem): edit.parent.name for edit in mutants}, []
    for page in sorted(ROOT.glob("crates/*/README.md")):
        text = page.read_text()
        right = marked(page.parent.name, text, tiers)
        if mark and right != text:
            page.write_text(right)
        both = enumerate(zip(text.split("\n"), right.split("\n")), 1)
        faults += [
            f"{page.relative_to(ROOT)}:{number}: marks of the second tier: scripts/check_edits.py --mark puts them "
            "right"
            for number, (is_so, wanted) in both
            if is_so != wanted and not mark
        ]
    return faults


def main():
    first, second = (sorted(ROOT.glob(f"crates/*/{tier}/*.edit")) for tier in TIERS)
    faults = [f"{edit.relative_to(ROOT)}: {fault}" for edit in first + second for fault in faults_of(edit)]
    names = {(edit.parent.parent, edit.name) for edit in first}
    faults += [
        f"{edit.relative_to(ROOT)}: {TIERS[0]} has one of this name"
        for edit in second
        if (edit.parent.parent, edit.name) in names
    ]
    listed = [it for it in LISTED.read_text().splitlines() if it and not it.startswith("#")]
    there = {f"{edit.parent.parent.name}/{edit.stem}" for edit in second}
    faults += [f"{LISTED.relative_to(ROOT)}: {it} is not in {TIERS[1]}" for it in listed if it not in there]
    faults += mark_faults(first + second, sys.argv[1:] == ["--mark"])
    counts = f"{len(first)} in {TIERS[0]}, {len(second)} in {TIERS[1]}, {len(listed)} of these kept by every gate"
    print("\n".join(faults) if faults else f"mutants: {counts}, each can be applied")
    return 1 if faults else 0


if __name__ == "__main__":
    sys.exit(main())
