"""From the proof to the program: what the gate's record says of a log, and what it does not let through."""
from __future__ import annotations

import importlib.machinery
import importlib.util
import sys
from pathlib import Path
from types import ModuleType
from typing import List

import pytest

ROOT = Path(__file__).resolve().parents[2]
LOG = """== city_layers
logic=proved functions=8 sum=0
rt: city_layers proved
ring_core is kept: an earlier run on this machine proved the same files over the same libraries
== parcel_tool
logic=proved functions=124 cpu=x86-64-v2 threads=abort,pthread_create
"""


def script(name: str) -> ModuleType:
    """A script of the repository as a module."""
    sys.path.insert(0, str(ROOT / "scripts"))
    loader = importlib.machinery.SourceFileLoader(name, str(ROOT / "scripts" / name))
    spec = importlib.util.spec_from_loader(name, loader)
    assert spec is not None
    module = importlib.util.module_from_spec(spec)
    loader.exec_module(module)
    sys.path.remove(str(ROOT / "scripts"))
    return module


def test_log_says_what_was_proved_and_what_was_kept() -> None:
    """A crate that the log does not name is a fault; what the checker said of the program is in the record."""
    record = script("proof_to_program")
    assert record.verdicts(LOG) == {"city_layers": "proved", "ring_core": "kept"}
    assert record.of_the_program(LOG) == ["logic=proved functions=124 cpu=x86-64-v2 threads=abort,pthread_create"]
    record.linking.OBJECT = ROOT / "there/is/none"
    record.tells_its_texts = lambda: True
    faults = list(record.faults_of({"city_layers": "proved", "ring_core": "kept", "shp_files": "unknown"}, []))
    assert faults == ["shp_files was neither proved nor kept"]


def test_function_that_nothing_names_is_refused(monkeypatch: pytest.MonkeyPatch) -> None:
    """What the object file calls has to be trusted by its name, or the compiler's or the threads' own."""
    record = script("proof_to_program")
    calls: List[str] = ["fchown", "memcpy", "pthread_create", "read", "system"]
    monkeypatch.setattr(record, "called", lambda: calls)
    assert list(record.strangers(["libc::read", "libc::fchown"])) == ["system"]


def test_declarations_are_compared_by_type_and_contract(tmp_path: Path) -> None:
    """A function that is declared with another type or contract is a fault, though name and count are the same."""
    trusted = script("trusted_c")
    source = tmp_path / "libc/src/lib.rt"
    source.parent.mkdir(parents=True)
    source.write_text(
        'unsafe extern "C" {\n    // It reads.\n    pub fn access(path: &[u8; PATH_MAX], mode: i32) -> i32\n'
        "        requires { Ended path.now }\n        ensures { Status result };\n\n"
        "    pub safe fn close(fd: i32) -> i32;\n}\n"
    )
    names = ["libc::access", "libc::close", "libc::gone"]
    found = trusted.declarations(names, tmp_path)
    wanted = (
        "pub fn access(path: &[u8; PATH_MAX], mode: i32) -> i32 requires { Ended path.now } ensures { Status result }"
    )
    assert found == {"libc::access": wanted, "libc::close": "pub safe fn close(fd: i32) -> i32"}
    trusted.DECLARED = tmp_path / "declared.txt"
    trusted.DECLARED.write_text(f"libc::access: {wanted}\nlibc::close: pub safe fn close(fd: u32) -> i32\n")
    faults = list(trusted.undeclared(names, found))
    assert [fault.split(" ")[0] for fault in faults] == ["libc::close", "libc::gone"]


def test_list_is_as_the_kit_declares_it() -> None:
    """Each function of the list has its declaration in the file that is kept."""
    names = (ROOT / "packaging/trusted_c.txt").read_text().splitlines()
    lines = (ROOT / "packaging/trusted_c_declared.txt").read_text().splitlines()
    assert names == [line.partition(": ")[0] for line in lines]
    assert not any("declared nowhere" in line for line in lines)
