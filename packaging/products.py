"""What is handed out: the `.tar.gz`, the wheel and the `.deb` around one static program, and the sources of the wheel,
as bytes."""
import hashlib
import os
import re
import subprocess
import tempfile
import tomllib
from datetime import datetime, timezone
from pathlib import Path
from typing import Dict

from archives import EARLIEST_OF_ZIP, Files, ar, mode, packed, tar_gz

PLATFORM = "manylinux2014_x86_64.musllinux_1_1_x86_64"
"""Where a static program runs: with any C library."""
COMPLETIONS = {"bash": "parcel_tool.bash", "zsh": "_parcel_tool", "fish": "parcel_tool.fish"}
"""The completion of each shell."""


def read_tree(folder: Path, to: str) -> Files:
    """The files below a folder that git has, under another name."""
    listed = subprocess.run(["git", "ls-files", "-z", "."], cwd=folder, check=True, stdout=subprocess.PIPE).stdout
    names = [name.decode() for name in listed.split(b"\0") if name]
    return {f"{to}/{name}": ((folder / name).read_bytes(), False) for name in sorted(names)}


def plain(root: Path, program: bytes, proof: str, bill: bytes) -> Files:
    """What each of the packages has: by its role, the file's bytes."""
    folder = root / "packaging"
    return {
        "program": (program, True),
        "man": ((folder / "parcel_tool.1").read_bytes(), False),
        **{shell: ((folder / name).read_bytes(), False) for shell, name in COMPLETIONS.items()},
        "proof": (proof.encode(), False),
        "licence": ((folder / "LICENCE-STATE.txt").read_bytes(), False),
        "bill": (bill, False),
    }


def proof_name(parts: Files) -> str:
    """What the file is called that says what was proved: a text that begins so says that nothing was."""
    return "UNPROVED.txt" if parts["proof"][0].startswith(b"UNPROVED") else "PROOF.txt"


def documents(root: Path, to: str) -> Files:
    """The documents, with the pages beside them that they lead to."""
    pages = {
        f"{to}/{name}": ((root / name).read_bytes(), False) for name in ("README.md", "CHANGELOG.md", "CONTRIBUTING.md")
    }
    return {**pages, **read_tree(root / "docs", f"{to}/docs")}


def tarball(root: Path, parts: Files, relink: Files, name: str, seconds: int) -> bytes:
    """The `.tar.gz`: all lies in one folder of its name."""
    files = {
        "bin/parcel_tool": parts["program"],
        "man/man1/parcel_tool.1": parts["man"],
        **{f"completion/{name}": parts[shell] for shell, name in COMPLETIONS.items()},
        proof_name(parts): parts["proof"],
        "parcel_tool.spdx.json": parts["bill"],
        "LICENCE-STATE.txt": parts["licence"],
        **documents(root, "."),
        **read_tree(root / "examples/town", "examples/town"),
        **read_tree(root / "examples/demo", "examples/demo"),
        **{f"relink/{path}": it for path, it in relink.items()},
    }
    return tar_gz({path.removeprefix("./"): it for path, it in files.items()}, seconds, f"{name}/")


OVERRIDES = """# One file that needs no library of the system, so that a verdict does not depend on one: see
# PROOF.txt and relink in the .tar.gz.
parcel-tool: shared-library-lacks-prerequisites [usr/bin/parcel_tool]
"""
"""What lintian would say of the `.deb` and is meant so."""


def debian_changelog(version: str, maintainer: str, seconds: int) -> bytes:
    """Debian's changelog of the package, which points to the changes of the product."""
    when = datetime.fromtimestamp(seconds, timezone.utc).strftime("%a, %d %b %Y %H:%M:%S +0000")
    head = f"parcel-tool ({version}) unstable; urgency=medium"
    return f"{head}\n\n  * Release {version}: see NEWS.gz.\n\n -- {maintainer}  {when}\n".encode()


def deb(root: Path, parts: Files, version: str, maintainer: str, seconds: int) -> bytes:
    """The `.deb`, which installs the program with its man page, completions, documents, example, proof, bill and
    licence state."""
    share, doc = "./usr/share", "./usr/share/doc/parcel-tool"
    files = {
        "./usr/bin/parcel_tool": parts["program"],
        f"{share}/man/man1/parcel_tool.1.gz": (packed(parts["man"][0]), False),
        f"{share}/bash-completion/completions/parcel_tool": parts["bash"],
        f"{share}/zsh/vendor-completions/_parcel_tool": parts["zsh"],
        f"{share}/fish/vendor_completions.d/parcel_tool.fish": parts["fish"],
        f"{share}/lintian/overrides/parcel-tool": (OVERRIDES.encode(), False),
        f"{doc}/copyright": parts["licence"],
        f"{doc}/{proof_name(parts)}": parts["proof"],
        f"{doc}/parcel_tool.spdx.json": parts["bill"],
        f"{doc}/changelog.gz": (packed(debian_changelog(version, maintainer, seconds)), False),
        f"{doc}/NEWS.gz": (packed((root / "CHANGELOG.md").read_bytes()), False),
        **read_tree(root / "docs", f"{doc}/docs"),
        **read_tree(root / "examples/town", f"{doc}/examples/town"),
    }
    size = sum(len(data) + 1023 for data, _ in files.values()) // 1024
    control = (
        f"Package: parcel-tool\nVersion: {version}\nArchitecture: amd64\nMaintainer: {maintainer}\n"
        f"Installed-Size: {size}\nSection: science\nPriority: optional\n"
        "Description: exact answers about parcel layers in shapefiles\n"
        " Whether parcels tile their city, which parcels and zones overlap, who has a\n"
        " point, and exact areas. The answers are those of a formally verified program.\n"
        " It needs no library, and a processor of level x86-64-v2.\n"
    )
    sums = "".join(f"{hashlib.md5(data).hexdigest()}  {path[2:]}\n" for path, (data, _) in sorted(files.items()))
    about: Files = {"./control": (control.encode(), False), "./md5sums": (sums.encode(), False)}
    return ar(
        [
            ("debian-binary", b"2.0\n"),
            ("control.tar.gz", tar_gz(about, seconds)),
            ("data.tar.gz", tar_gz(files, seconds)),
        ],
        seconds,
    )


def sdist_name(project: Dict) -> str:
    """The file name of the source distribution."""
    return f"{project['name']}-{project['version']}.tar.gz"


def project_of(root: Path) -> Dict:
    """The table `project` of `python/pyproject.toml`."""
    return tomllib.loads((root / "python/pyproject.toml").read_text(encoding="utf-8"))["project"]


def wheel_name(project: Dict) -> str:
    """The wheel's file name."""
    plain_name = re.sub(r"[-_.]+", "_", project["name"]).lower()
    return f"{plain_name}-{project['version']}-py3-none-{PLATFORM}.whl"


def wheel(root: Path, parts: Files, seconds: int) -> bytes:
    """The wheel of `python/`, which carries the program as `bin/parcel_tool` of the package."""
    return built(root, "wheel", seconds, parts)


def sdist(root: Path, seconds: int) -> bytes:
    """The source distribution of `python/`: what builds a wheel again, without the program."""
    return built(root, "sdist", seconds, {})


ABOUT = {"proof": "PROOF.txt", "licence": "LICENCE-STATE.txt", "bill": "sboms/parcel_tool.spdx.json"}
"""What a wheel's folder of metadata has of the program."""


def built(root: Path, kind: str, seconds: int, parts: Files) -> bytes:
    """What Hatchling builds of the files of `python/` that git has, with these parts of a release."""
    subprocess.run([root / "scripts/install_packages", "python3-hatchling"], check=True)
    with tempfile.TemporaryDirectory() as name:
        room = Path(name)
        licence = {"python/LICENCE-STATE.txt": ((root / "packaging/LICENCE-STATE.txt").read_bytes(), False)}
        sources = {} if kind == "wheel" else licence
        put({**read_tree(root / "python", "python"), **sources}, room)
        put({"parcel_tool": parts.get("program", (b"", False))}, room)
        put({place: parts[role] for role, place in ABOUT.items()} if parts else {}, room / "info")
        more = {
            "SOURCE_DATE_EPOCH": str(max(seconds, EARLIEST_OF_ZIP)),
            "GANDOVEL_TOOL": str(room / "parcel_tool"),
            "GANDOVEL_PLATFORM": PLATFORM,
            "GANDOVEL_INFO": str(room / "info"),
        }
        command = ["/usr/bin/python3", "-m", "hatchling", "build", "-t", kind, "-d", str(room / "dist")]
        subprocess.run(command, cwd=room / "python", env={**os.environ, **more}, check=True, stdout=subprocess.DEVNULL)
        (made,) = (room / "dist").iterdir()
        return made.read_bytes()


def put(files: Files, folder: Path) -> None:
    """Writes files below a folder."""
    for path, (data, runs) in files.items():
        (folder / path).parent.mkdir(parents=True, exist_ok=True)
        (folder / path).write_bytes(data)
        (folder / path).chmod(mode(runs))
