"""What Hatchling builds: the package, and in a wheel the program as `gandovel/bin/parcel_tool`, where it is there.

The program is the one that `GANDOVEL_TOOL` names, else `crates/parcel_tool/out/parcel_tool` of the repository. A
release also names the systems it runs on (`GANDOVEL_PLATFORM`), and a folder of files about it (`GANDOVEL_INFO`).
"""
from __future__ import annotations

import os
from pathlib import Path
from typing import Any, Dict, Optional

from hatchling.builders.hooks.plugin.interface import BuildHookInterface
from hatchling.metadata.plugin.interface import MetadataHookInterface

WITHOUT = "+without.parcel.tool"
"""What a version ends with where there is no program: the last line that pip prints says so."""


def program(root: str) -> Optional[Path]:
    """The built program, where there is one."""
    named = os.environ.get("GANDOVEL_TOOL")
    built = Path(named) if named else Path(root).parent / "crates/parcel_tool/out/parcel_tool"
    return built.resolve() if built.is_file() else None


class Metadata(MetadataHookInterface):
    """Without the program the version says so, and no command `parcel_tool` hides one that is on `PATH`."""

    def update(self, metadata: Dict[str, Any]) -> None:
        if program(self.root) is None:
            metadata["version"] += WITHOUT
            del metadata["scripts"]["parcel_tool"]


class Build(BuildHookInterface):
    """Puts the program into a wheel; a source distribution has what builds a wheel again."""

    def initialize(self, version: str, build_data: Dict[str, Any]) -> None:
        built = program(self.root)
        if self.target_name != "wheel" or built is None:
            return
        info = os.environ.get("GANDOVEL_INFO")
        about = [path for path in sorted(Path(info).rglob("*")) if path.is_file()] if info else []
        folder = f"{self.metadata.core.raw_name}-{self.metadata.version}.dist-info"
        build_data["pure_python"] = False
        build_data["tag"] = f"py3-none-{os.environ.get('GANDOVEL_PLATFORM', 'linux_x86_64')}"
        added = {path: f"{folder}/{path.relative_to(str(info))}" for path in about}
        added[built] = "gandovel/bin/parcel_tool"
        build_data["force_include"].update({str(path): place for path, place in added.items()})
