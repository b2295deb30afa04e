#!/usr/bin/env python3
"""Makes the zip of the plugin of QGIS, as "Install from ZIP" and `qgis/gandovel` take it.

    packaging/qgis_plugin.py OUT.zip [SECONDS] [PROGRAM]

SECONDS since 1970 is the time of its files, by default 0. The same files give the same bytes. The zip brings along its
side of the Python package, the plugin's page as help, and PROGRAM, if one is named: a parcel_tool of Linux x86-64,
such as `scripts/static_program` makes.
"""
from __future__ import annotations

import os
import sys
from pathlib import Path
from typing import Optional

sys.dont_write_bytecode = True
sys.path.insert(0, str(Path(__file__).resolve().parent))
import archives  # noqa: E402

HOME = "https://gandovel.example.org"
"""Where the repository is: the owner fills it in here, and nowhere else. Homepage and tracker follow from it."""
ROOT = Path(__file__).resolve().parent.parent
PLUGIN, PACKAGE, PAGE = ROOT / "qgis/gandovel", ROOT / "python/src/gandovel", ROOT / "docs/qgis.md"
ENDINGS = (".py", ".txt", ".svg", ".qml", ".ts")
"""What belongs to the plugin; anything else in its folder is left out."""
PLATFORM = "linux-x86_64"


def files_of(plugin: Path = PLUGIN, program: Optional[Path] = None) -> archives.Files:
    """The plugin's files under the folder `gandovel`, in order of their names. ValueError where there is none."""
    found = sorted(path for path in plugin.rglob("*") if path.suffix in ENDINGS and "__pycache__" not in path.parts)
    files: archives.Files = {f"gandovel/{it.relative_to(plugin).as_posix()}": (it.read_bytes(), False) for it in found}
    if "gandovel/metadata.txt" not in files:
        raise ValueError(f"{plugin} has no plugin")
    about = files["gandovel/metadata.txt"][0].decode("utf-8").replace("{home}", HOME)
    files["gandovel/metadata.txt"] = about.encode("utf-8"), False
    files["gandovel/help.md"] = PAGE.read_bytes(), False
    for path in sorted(PACKAGE.rglob("*")):
        name = path.relative_to(PACKAGE)
        if path.is_file() and "__pycache__" not in path.parts:
            files[f"gandovel/package/gandovel/{name.as_posix()}"] = path.read_bytes(), False
    if program is not None:
        files[f"gandovel/bin/{PLATFORM}/parcel_tool"] = program.read_bytes(), True
    return files


def zipped(seconds: int, plugin: Path = PLUGIN, program: Optional[Path] = None) -> bytes:
    """The zip, with a time in seconds since 1970 for all files."""
    made: bytes = archives.zip_file(files_of(plugin, program), seconds)
    return made


def main() -> int:
    """Writes the zip, under another name first; the status."""
    if len(sys.argv) not in (2, 3, 4) or (len(sys.argv) > 2 and not sys.argv[2].isdigit()):
        print("qgis_plugin.py: give OUT.zip, and SECONDS and PROGRAM if you like", file=sys.stderr)
        return 2
    out = Path(sys.argv[1])
    aside = out.with_name(f".{os.getpid()}.{out.name}")
    try:
        seconds = int(sys.argv[2]) if len(sys.argv) > 2 else 0
        aside.write_bytes(zipped(seconds, program=Path(sys.argv[3]) if len(sys.argv) > 3 else None))
        os.replace(aside, out)
    except (OSError, ValueError) as fault:
        print(f"error: {out} can't be written: {fault}", file=sys.stderr)
        return 1
    finally:
        if aside.exists():
            aside.unlink()
    return 0


if __name__ == "__main__":
    sys.exit(main())
