"""Links the program that the gate built to one file that needs no library of the system.

It is made of the object file that `rt` leaves beside the program, the kit's two archives of C, and the C library of
this machine as `cc` links it.
"""
import re
import subprocess
import tempfile
from pathlib import Path
from typing import List, Optional

ROOT = Path(__file__).resolve().parent.parent
OUT = ROOT / "crates/parcel_tool/out"
PROGRAM, OBJECT, MAP = OUT / "parcel_tool.static", OUT / "parcel_tool.o", OUT / "parcel_tool.map"
LINK = ["cc", "-static-pie", "-Wl,--gc-sections", "-Wl,--build-id=none", "-Wl,-z,relro,-z,now,-z,noexecstack", "-s"]
ARCHIVES = ["libos_c.a", "liblibc_c.a"]


class Missing(Exception):
    """What a static program needs and this machine has not."""


def said(words: List[str]) -> Optional[str]:
    """What a command prints, without the line's end; none where it is not there or fails."""
    try:
        ran = subprocess.run(
            words, stdout=subprocess.PIPE, stderr=subprocess.DEVNULL, stdin=subprocess.DEVNULL, text=True
        )
    except OSError:
        return None
    return ran.stdout.strip() if ran.returncode == 0 else None


def kit() -> Path:
    """The kit's folder, which is where `rt doc` has its first page."""
    page = said(["rt", "doc"])
    if not page or not (Path(page).parent / "c").is_dir():
        raise Missing("the Rattle kit: no `rt` that tells where its pages are")
    return Path(page).parent


def archives() -> List[Path]:
    """The kit's archives of C."""
    return [kit() / "c" / name for name in ARCHIVES]


def c_library() -> Path:
    """The C library's static archive, as `cc` finds it."""
    path = said(["cc", "-print-file-name=libc.a"])
    if not path or not Path(path).is_file():
        raise Missing("`cc` with a static C library, libc.a")
    return Path(path)


def link() -> None:
    """Links the program. Missing where a part is not there; CalledProcessError where `cc` refuses."""
    if not OBJECT.is_file():
        raise Missing("the object file crates/parcel_tool/out/parcel_tool.o, as where the kit has kept the program")
    c_library()
    PROGRAM.unlink(missing_ok=True)
    words = [*LINK, f"-Wl,-Map={MAP}", "-o", str(PROGRAM), str(OBJECT), *map(str, archives())]
    subprocess.run(words, check=True, stdin=subprocess.DEVNULL)


def as_the_kit_links(to: Path) -> None:
    """Links the object file as `rt ci` does, so that it can be compared with the program that the gate tried."""
    words = [
        str(kit() / "bin/rattle-link"),
        "--target",
        "x86_64-unknown-linux-gnu",
        "--toolchain",
        str(kit() / "toolchain"),
    ]
    subprocess.run(
        [*words, "-o", str(to), str(OBJECT), *map(str, archives())],
        check=True,
        stdin=subprocess.DEVNULL,
        capture_output=True,
    )


def is_of(program: bytes) -> bool:
    """Whether the object file is there and is this program's, byte for byte."""
    if not OBJECT.is_file():
        return False
    with tempfile.TemporaryDirectory(prefix="link-") as room:
        linked = Path(room) / "parcel_tool"
        as_the_kit_links(linked)
        return linked.read_bytes() == program


def parts() -> str:
    """The parts of archives that the static program has, a line each: the archive's name, the part's."""
    head = MAP.read_text(errors="replace").split("\nMemory Configuration")[0]
    found = re.findall(r"^(?:\S*/)?([^/\s(]+\.a)\((\S+?)\)$", head.replace("\n ", "\n"), re.MULTILINE)
    return "".join(f"{archive} {part}\n" for archive, part in sorted(set(found)))
