"""The crates of a repository with the libraries that each names, what a check of one reads, of which texts the program
is, and how files that a check kept are lent to a copy."""
import hashlib
import os
import re
import shutil
from pathlib import Path
from typing import Dict, List, Set, Tuple

READ_BY_A_CHECK = ("src", "specs", "proofs")
PROGRAM = "parcel_tool"
TEXTS = f"crates/{PROGRAM}/src/texts.rt"
"""The file with what `parcel_tool --version` prints, and so with the sum of all other texts."""
VERSION_LINE = re.compile(r"parcel_tool (\S+) \(([^,()]+), (proved|unproved), texts ([0-9a-f]{64})\)")
"""What `parcel_tool --version` prints: version, kit, whether it is built over proofs, and the sum of the texts."""


def libraries(root: Path) -> Dict[str, List[str]]:
    """For each crate the names on its line of `crates.txt`, in the file's order."""
    lines = (line.split("#")[0] for line in (root / "crates.txt").read_text().splitlines())
    parted = (line.partition(":") for line in lines if ":" in line)
    return {name.split()[0]: rest.split() for name, _, rest in parted}


def with_those_below(named: Dict[str, List[str]], crate: str) -> Set[str]:
    """A crate and the crates of the repository that it stands on."""
    found: Set[str] = set()
    left = [crate]
    while left:
        name = left.pop()
        if name in named and name not in found:
            found.add(name)
            left += named[name]
    return found


def sum_of_texts(root: Path, named: Dict[str, List[str]], crate: str, kit: str) -> str:
    """A checksum of all that a check of the crate reads: the kit, and the texts of the crate and those below it."""
    found = hashlib.sha256(kit.encode())
    for name in sorted(with_those_below(named, crate)):
        found.update(repr((name, named[name])).encode())
        folders = [root / "crates" / name / part for part in READ_BY_A_CHECK]
        for path in sorted(it for folder in folders for it in folder.rglob("*") if it.is_file()):
            found.update(repr((str(path.relative_to(root)), path.read_bytes())).encode())
    return found.hexdigest()


def sum_of_program(root: Path) -> str:
    """The SHA-256 of the texts that the program is proved and built of: of what `sha256sum` prints of the files of
    `src`, `specs` and `proofs` of its crate and of all below it, by their paths, without the file that has the sum."""
    found = hashlib.sha256()
    crates = with_those_below(libraries(root), PROGRAM)
    folders = [root / "crates" / name / part for name in crates for part in READ_BY_A_CHECK]
    for path in sorted(str(it.relative_to(root)) for folder in folders for it in folder.rglob("*") if it.is_file()):
        if path != TEXTS:
            found.update(f"{hashlib.sha256((root / path).read_bytes()).hexdigest()}  {path}\n".encode())
    return found.hexdigest()


def with_sum(text: str, verdict: str, texts: str) -> Tuple[str, int]:
    """The text of `TEXTS` with this verdict, `proved` or `unproved`, and this sum; and in how many places it has it."""
    return re.subn(r"\b(?:un)?proved, texts [0-9a-f]{64}\b", f"{verdict}, texts {texts}", text)


def link_or_copy(from_path: str, to_path: str) -> None:
    """Puts a file at another place too, by a link where both are on one disk."""
    try:
        os.link(from_path, to_path)
    except OSError:
        shutil.copy2(from_path, to_path)
