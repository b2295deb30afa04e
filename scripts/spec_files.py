"""The definitions in crates/*/specs, as the scripts that make pages of them read them."""
import re
import sys
import textwrap
from pathlib import Path
from typing import Dict, List, NamedTuple

ROOT = Path(__file__).resolve().parent.parent
NAME = r"[\w-]+"
DECLARES = re.compile(r"^(?:unfoldable |abbrev |pub |record |data |opaque )+(" + NAME + r")")
USE = re.compile(r"use (Rattle(?:\.\w+)+)\.\{([^}]*)\}", re.S)


class Word(NamedTuple):
    """A word of a definition: where it is defined, and its name there."""

    module: str
    name: str


def uses_of(text: str) -> Dict[str, Word]:
    """The words that a file brings in by `use`, by the names that it gives them."""
    found = {}
    for module, names in USE.findall(text):
        for each in names.split(","):
            name, _, alias = each.strip().partition(" as ")
            if name:
                found[alias or name] = Word(module, name)
    return found


def spec_path(module: str) -> Path:
    """The file of a module of definitions."""
    _, crate, *rest = module.split(".")
    return ROOT / "crates" / crate / ("/".join(rest) + ".antt")


def without_comments(text: str) -> str:
    return "\n".join(line for line in text.split("\n") if not line.lstrip().startswith(("--", "///", "#[")))


def paragraphs_of(text: str) -> Dict[str, str]:
    """The definitions of a file by name, each with the comment above it; what a `module` block indents is moved out."""
    found = {}
    for paragraph in re.split(r"\n\s*\n", text):
        lines = [line for line in paragraph.split("\n") if not line.startswith(("use ", "module "))]
        lines = textwrap.dedent("\n".join(lines)).split("\n")
        for line in lines:
            declared = DECLARES.match(line)
            if declared:
                found[declared.group(1)] = "\n".join(lines).strip("\n")
    return found


def named(path: str) -> str:
    """A file of definitions or code as the page names it: crate and file."""
    parts = Path(path).parts
    return f"{parts[1]}/{Path(*parts[3:]).stem}" if parts[2] == "specs" else f"{parts[1]}/src/{Path(*parts[3:])}"


def source_of(path: Path) -> str:
    """What a file of definitions says of its source, in its first lines."""
    lines = path.read_text().split("\n")
    behind = next(number for number, line in enumerate(lines) if not line.startswith("--"))
    return " ".join(line.removeprefix("--").strip() for line in lines[:behind])


def files_to_believe() -> List[Path]:
    """The files of definitions that public contracts cite, crate by crate in the order of crates.txt."""
    crates = [
        line.partition(":")[0] for line in (ROOT / "crates.txt").read_text().splitlines() if not line.startswith("#")
    ]
    return [
        path
        for crate in crates
        for path in sorted((ROOT / "crates" / crate / "specs").rglob("*.antt"))
        if path.name != "Lib.antt"
        and path.relative_to(ROOT / "crates" / crate / "specs").parts[0] not in ("own", "own.antt")
    ]


def write_or_compare(pages: Dict[Path, str], by: str) -> int:
    """Writes the pages that differ or, where the words ask for `--check`, names them; the status."""
    stale = [path for path, text in pages.items() if not path.exists() or path.read_text() != text]
    if sys.argv[1:] == ["--check"]:
        for path in stale:
            print(f"{path.relative_to(ROOT)} is stale: run scripts/{by}", file=sys.stderr)
        print(f"{by}: {len(pages) - len(stale)} of {len(pages)} pages are up to date")
        return 1 if stale else 0
    for path in stale:
        path.write_text(pages[path])
    return 0
