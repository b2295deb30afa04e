#!/usr/bin/env python3
"""Fails where a public contract cites a word of the code's own (crates/NAME/specs/own), and counts the lines of
definitions: those that a reader has to believe, and the code's own.

A contract is public where its function is `pub` and can be reached from the crate's `lib.rt`: it stands there or in a
`pub mod` of it, is named in a `pub use` there, or is a method of a type that is. The proof that a type keeps a law of
its trait is no contract. A definition beside the own folder may cite nothing of it either.
"""
import re
import sys
from pathlib import Path

ROOT = Path(__file__).resolve().parent.parent
CLAUSE = re.compile(r"\s*(ensures|requires|ghost)\b")
FUNCTION = re.compile(r"(\s*)(pub(\([a-z]+\))?\s+)?(unsafe\s+|const\s+)*fn\s+(\w+)")
OWNER = re.compile(r"(impl|trait|pub trait|pub struct|pub enum|struct|enum)\b(.*)")
TRAIT = re.compile(r"^(?:pub )?trait (\w+)(.*?)^}", re.M | re.S)
MEMBER = re.compile(r"    ghost (\w+) = ")


def words_of_own(text):
    """The names that a file imports from an own folder, as it calls them."""
    words = set()
    for names in re.findall(r"use Rattle\.\w+\.specs\.own(?:\.\w+)*\.\{([^}]*)\}", text):
        for name in names.split(","):
            if name.strip():
                words.add(name.split(" as ")[-1].strip().strip("◌"))
    return words


def public_names(crate):
    """What the crate's root hands out."""
    root = crate / "src/lib.rt"
    if not root.exists():
        return set()
    names = set()
    for tree in re.findall(r"pub use ([^;]*);", root.read_text()):
        names.update(re.findall(r"\w+", tree.split("::", 1)[-1]))
    handed_out = [root, *(crate / f"src/{name}.rt" for name in re.findall(r"^pub mod (\w+);", root.read_text(), re.M))]
    for file in handed_out:
        names.update(re.findall(r"^pub (?:fn|struct|enum|trait|type) (\w+)", file.read_text(), re.M))
    return names


def cited(text, words):
    return sorted(w for w in words if re.search(rf"(?<![\w.]){re.escape(w)}(?![\w-])", text))


def laws_of_traits():
    """The laws of this repository's traits, as trait and member: the ghost members below the trait's last function."""
    laws = set()
    for path in ROOT.glob("crates/*/src/**/*.rt"):
        for trait in TRAIT.finditer(path.read_text()):
            parts = re.split(r"^    fn ", trait.group(2), flags=re.M)
            below = parts[-1] if len(parts) > 1 else ""
            laws.update((trait.group(1), name) for name in re.findall(r"^    ghost (\w+):", below, re.M))
    return laws


def check_code(crate, path, public, laws):
    """The faults of one source file: public clauses and public types' ghost facts that cite the code's own words."""
    text = path.read_text()
    words = words_of_own(text)
    faults = []
    owner, trait, name = "", "", ""
    of_trait = of_law = is_public = False
    for number, line in enumerate(text.split("\n"), 1):
        top = OWNER.match(line)
        if top:
            named = re.findall(r"\w+", re.sub(r"<[^<>]*(<[^<>]*>)?[^<>]*>", " ", top.group(2)))
            owner = named[-1] if named else ""
            of_trait = " for " in line and "Model for" not in line
            trait = named[named.index("for") - 1] if "for" in named else ""
            is_public = owner in public and not line.startswith("impl")
            name = owner
        elif line.startswith("}"):
            owner, trait, of_trait, is_public = "", "", False, False
        member = MEMBER.match(line)
        if member:
            of_law = (trait, member.group(1)) in laws
        function = FUNCTION.match(line)
        if function:
            of_law = False
            name = function.group(5)
            handed_out = function.group(2) and not function.group(3)
            is_public = bool(handed_out or of_trait) and (owner in public if function.group(1) else name in public)
        if is_public and words and not of_law and not line.lstrip().startswith(("//", "ghost use")):
            in_clause = CLAUSE.match(line) or "{ " in line or "→" in line or "λ" in line or "pub ghost" in line
            for word in cited(line, words) if in_clause else []:
                faults.append(f"{path.relative_to(ROOT)}:{number}: `{name}` cites `{word}` of the code's own words")
    return faults


def main():
    believed = own = 0
    faults = []
    laws = laws_of_traits()
    for crate in sorted((ROOT / "crates").iterdir()):
        public = public_names(crate)
        for path in sorted(crate.glob("src/**/*.rt")):
            faults += check_code(crate, path, public, laws)
        for path in sorted(crate.glob("specs/**/*.antt")):
            lines = len(path.read_text().splitlines())
            inside = path.relative_to(crate / "specs").parts[0] in ("own", "own.antt")
            own, believed = own + lines * inside, believed + lines * (not inside)
            if not inside and words_of_own(path.read_text()):
                faults.append(f"{path.relative_to(ROOT)}: a definition to believe cites the code's own words")
    print(f"lines of definitions: {believed} to believe, {own} of the code's own")
    for fault in faults:
        print(fault)
    sys.exit(1 if faults else 0)


main()
