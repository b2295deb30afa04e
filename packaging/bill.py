"""The bill of materials of the static program: what is linked into it, as SPDX 2.3 in JSON."""
import json
import re
from datetime import datetime, timezone
from pathlib import Path
from typing import Dict, List, Set

Package = Dict[str, object]


def kit_crates(root: Path) -> List[str]:
    """The ported crates that the program stands on, by crates.txt, in order of their names."""
    lines = [line.partition(":") for line in (root / "crates.txt").read_text().splitlines() if not line.startswith("#")]
    below = {name: on.split() for name, _, on in lines}
    seen: Set[str] = set()
    todo = ["parcel_tool"]
    while todo:
        name = todo.pop()
        if name not in seen:
            seen.add(name)
            todo += below.get(name, [])
    return sorted(seen - set(below))


def licence_of(folder: Path) -> str:
    """The licence that a crate of the kit declares by its files, as SPDX names it."""
    named = [
        spdx for file, spdx in (("LICENSE-APACHE", "Apache-2.0"), ("LICENSE-MIT", "MIT")) if (folder / file).is_file()
    ]
    return " OR ".join(named) if named else "NOASSERTION"


def ported_version(folder: Path, kit: str) -> str:
    """The version of the Rust crate that a crate of the kit is a port of, as its page says it, or else the kit."""
    page = folder / "README.md"
    found = re.search(r"Rust crate `\w+` (\d+(?:\.\d+)+)", page.read_text(encoding="utf-8")) if page.is_file() else None
    return f"{found[1]} ({kit})" if found else kit


def package(name: str, version: str, licence: str, says: str, sha256: str = "") -> Package:
    """A package of the bill."""
    made: Package = {
        "SPDXID": "SPDXRef-" + re.sub(r"[^A-Za-z0-9.-]", "-", name),
        "name": name,
        "versionInfo": version,
        "downloadLocation": "NOASSERTION",
        "filesAnalyzed": False,
        "licenseConcluded": "NOASSERTION",
        "licenseDeclared": licence,
        "copyrightText": "NOASSERTION",
        "comment": says,
    }
    if sha256:
        made["checksums"] = [{"algorithm": "SHA256", "checksumValue": sha256}]
    return made


def archives_of(parts: str) -> Dict[str, List[str]]:
    """The parts of each archive, of lines `ARCHIVE PART`."""
    found: Dict[str, List[str]] = {}
    for line in parts.splitlines():
        archive, _, part = line.partition(" ")
        found.setdefault(archive, []).append(part)
    return found


def packages(root: Path, kit: Path, versions: Dict[str, str], sums: Dict[str, str], parts: str) -> List[Package]:
    """The program first, and then all that is linked into it. `versions` and `sums` are by package and by archive."""
    linked = archives_of(parts)
    names = {
        "libc.a": ("GNU C library", "LGPL-2.1-or-later"),
        "libgcc.a": ("libgcc", "GPL-3.0-or-later WITH GCC-exception-3.1"),
        "libgcc_eh.a": ("libgcc_eh", "GPL-3.0-or-later WITH GCC-exception-3.1"),
    }
    made = [package("parcel_tool", versions["parcel_tool"], "NONE", "no licence is given yet", sums["parcel_tool"])]
    for archive, inside in sorted(linked.items()):
        name, licence = names.get(archive, (f"Rattle kit: {archive}", "NOASSERTION"))
        says = f"{len(inside)} parts of {archive}: {', '.join(inside)}"
        made.append(package(name, versions.get(archive, versions["kit"]), licence, says, sums.get(archive, "")))
    made.append(package("Rattle standard library", versions["kit"], "NOASSERTION", "compiled into the object file"))
    says = "a crate of the kit, compiled into the object file, with those of the kit that it stands on"
    made += [
        package(it, ported_version(kit / "rattle" / it, versions["kit"]), licence_of(kit / "rattle" / it), says)
        for it in kit_crates(root)
    ]
    return made


def bill(root: Path, kit: Path, versions: Dict[str, str], sums: Dict[str, str], parts: str, seconds: int) -> bytes:
    """The bill, with the time of the commit in seconds since 1970."""
    found = packages(root, kit, versions, sums, parts)
    program = str(found[0]["SPDXID"])
    relations = [{"spdxElementId": "SPDXRef-DOCUMENT", "relationshipType": "DESCRIBES", "relatedSpdxElement": program}]
    relations += [
        {"spdxElementId": program, "relationshipType": "STATIC_LINK", "relatedSpdxElement": str(it["SPDXID"])}
        for it in found[1:]
    ]
    created = datetime.fromtimestamp(seconds, timezone.utc).strftime("%Y-%m-%dT%H:%M:%SZ")
    document = {
        "spdxVersion": "SPDX-2.3",
        "dataLicense": "CC0-1.0",
        "SPDXID": "SPDXRef-DOCUMENT",
        "name": f"parcel_tool-{versions['parcel_tool']}",
        "documentNamespace": f"urn:gandovel:spdx:parcel_tool:{versions['parcel_tool']}:{sums['parcel_tool']}",
        "creationInfo": {"created": created, "creators": ["Tool: scripts/release"]},
        "packages": found,
        "relationships": relations,
    }
    return (json.dumps(document, indent=1, ensure_ascii=False) + "\n").encode()
