#!/usr/bin/env python3
"""Fails where a line is too long to be read beside another: code, definitions, tables, tests and scripts have at most
120 columns, proofs 140. It says which lines have more.

    scripts/check_columns.py

Left out are documents, also where a script has the text that it puts into one: they have a width of their own
(`scripts/check_documents`). So are what a row of `runs` says, which stands there as it is typed and printed, and an
attribute of code, which `rattle fmt` keeps on one line.
"""
import subprocess
import sys
from pathlib import Path
from typing import Iterator, List, Set

ROOT = Path(__file__).resolve().parent.parent
MOST = 120
MOST_OF_PROOFS = 140
READ = ("*.rt", "*.antt", "*.py", "*.table", "scripts/*", "benches/*", ".ci/run")
# Documents, texts that are made for machines or are others', and lines of crates.txt, of which a crate has one.
NOT_READ = (".md", ".zip", ".png", ".json", ".svg", ".line")


def files(*patterns: str) -> List[str]:
    """The files of the repository that fit a pattern, as far as they are here."""
    listed = subprocess.run(["git", "ls-files", "--", *patterns], cwd=ROOT, capture_output=True, text=True, check=True)
    return [it for it in listed.stdout.split("\n") if it and (ROOT / it).is_file()]


def most_of(file: str) -> int:
    """How many columns a line of a file may have."""
    return MOST_OF_PROOFS if file.endswith((".antt", ".antt.txt")) and "/proofs/" in file else MOST


def is_left_out(file: str, line: str, documents: Set[str]) -> bool:
    """Whether a line may be as long as it is: a row's own, an attribute, or a document's."""
    if file.endswith(".table"):
        return not line.startswith(("#", "=="))
    if file.endswith(".rt"):
        return line.lstrip().startswith("#[")
    return file.startswith("scripts/") and line in documents


def too_long() -> Iterator[str]:
    """Each line that has more columns than it may have."""
    documents = {line for page in files("*.md") for line in (ROOT / page).read_text().split("\n")}
    for file in files(*READ):
        if file.endswith(NOT_READ):
            continue
        for number, line in enumerate((ROOT / file).read_text(errors="replace").split("\n"), 1):
            if len(line) > most_of(file) and not is_left_out(file, line, documents):
                yield f"{file}:{number}: {len(line)} columns, at most {most_of(file)}"


def main() -> int:
    found = list(too_long())
    print("\n".join(found) if found else "columns: no line is too long")
    return 1 if found else 0


if __name__ == "__main__":
    sys.exit(main())
