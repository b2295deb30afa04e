"""Archives whose bytes follow from their files alone: tar, zip and Debian's ar, with one time for all and no owner.

A list of files is `Files`: for each path, relative and with `/`, the bytes and whether it may be run.
"""
import gzip
import io
import tarfile
import zipfile
from datetime import datetime, timezone
from typing import Dict, List, Tuple

Files = Dict[str, Tuple[bytes, bool]]

EARLIEST_OF_ZIP = 315_532_800
"""The first second that a zip file can name, 1980-01-01."""


def mode(runs: bool) -> int:
    """The permissions of a file."""
    return 0o755 if runs else 0o644


def folders(files: Files) -> List[str]:
    """The folders in which files lie, each before those inside it."""
    found = set()
    for path in files:
        parts = path.split("/")[:-1]
        found |= {"/".join(parts[:n]) for n in range(1, len(parts) + 1)}
    return sorted(found)


def packed(data: bytes) -> bytes:
    """The bytes compressed by gzip, with no name and no time."""
    out = io.BytesIO()
    with gzip.GzipFile(filename="", mode="wb", fileobj=out, mtime=0, compresslevel=9) as stream:
        stream.write(data)
    return out.getvalue()


def tar_gz(files: Files, seconds: int, prefix: str = "") -> bytes:
    """A compressed tar of the files, each under the prefix, with a time in seconds since 1970."""
    out = io.BytesIO()
    with tarfile.open(fileobj=out, mode="w", format=tarfile.GNU_FORMAT) as tar:
        for path in folders(files):
            it = tarfile.TarInfo(f"{prefix}{path}/")
            it.type, it.mode, it.mtime = tarfile.DIRTYPE, 0o755, seconds
            it.uname = it.gname = "root"
            tar.addfile(it)
        for path, (data, runs) in sorted(files.items()):
            it = tarfile.TarInfo(prefix + path)
            it.size, it.mode, it.mtime = len(data), mode(runs), seconds
            it.uname = it.gname = "root"
            tar.addfile(it, io.BytesIO(data))
    return packed(out.getvalue())


def zip_file(files: Files, seconds: int) -> bytes:
    """A zip of the files, as a wheel is one, in the order given."""
    out = io.BytesIO()
    when = datetime.fromtimestamp(max(seconds, EARLIEST_OF_ZIP), timezone.utc).timetuple()[:6]
    with zipfile.ZipFile(out, "w", zipfile.ZIP_DEFLATED) as archive:
        for path, (data, runs) in files.items():
            it = zipfile.ZipInfo(path, when)
            it.create_system, it.compress_type = 3, zipfile.ZIP_DEFLATED
            it.external_attr = (0o100000 | mode(runs)) << 16
            archive.writestr(it, data)
    return out.getvalue()


def ar(members: List[Tuple[str, bytes]], seconds: int) -> bytes:
    """An archive of ar, as a `.deb` is one."""
    out = [b"!<arch>\n"]
    for name, data in members:
        out.append(f"{name:<16}{seconds:<12}{0:<6}{0:<6}{100644:<8}{len(data):<10}`\n".encode())
        out.append(data + b"\n" * (len(data) % 2))
    return b"".join(out)
