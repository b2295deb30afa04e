"""A disk as a cut of power may leave it, block by block: of what `recording_disk.c` wrote down."""
from __future__ import annotations

import random
import re
from pathlib import Path
from typing import Dict, Iterator, List, NamedTuple, Tuple

BLOCK = 512
ANSWERED = re.compile(rb"^(?:ok|entries|published|ready|closed) ([0-9]+)\b", re.MULTILINE)


class Event(NamedTuple):
    """What the program did: N a new file of a name, W a write, B and E a synchronisation's begin and end (of a file,
    F, or the folder, D), R, L and U names that change, and A an answer."""

    kind: str
    node: int
    thread: int
    is_failed: bool
    text: bytes


def events_of(record: bytes) -> Iterator[Event]:
    """The events of a record, in order."""
    while record:
        head, _, record = record.partition(b"\n")
        kind, node, thread, result, length = head.split(b" ")
        yield Event(kind.decode(), int(node), int(thread), int(result) != 0, record[: int(length)])
        record = record[int(length) + 1 :]


class File:
    """A file that only grows: its bytes, and how many of each block the disk has for certain."""

    def __init__(self, text: bytes = b"") -> None:
        self.text = bytearray(text)
        self.size = len(text)
        self.sure = {at: len(text[at * BLOCK : (at + 1) * BLOCK]) for at in range(-(-len(text) // BLOCK))}
        self.dirty: Dict[int, Tuple[int, int]] = {}
        """The blocks that a synchronisation has to bring, each with the numbers of the first and the last write."""

    def write(self, more: bytes, at: int) -> None:
        """Write number `at`."""
        first = len(self.text) // BLOCK
        self.text += more
        for block in range(first, -(-len(self.text) // BLOCK)):
            self.dirty[block] = self.dirty.get(block, (at, at))[0], at

    def synchronised(self, length: int, at: int, is_failed: bool) -> None:
        """A synchronisation that began after so many bytes, with event `at`, has ended.

        Where it failed, the blocks count as clean from now on, and no later one brings them, unless they are written to
        once more: the disk has of them whatever it has.
        """
        for block, (first, last) in list(self.dirty.items()):
            if first < at and not is_failed:
                self.sure[block] = max(self.sure.get(block, 0), min(BLOCK, length - block * BLOCK))
                self.dirty[block] = last, last
            if last < at:
                del self.dirty[block]
        self.size = self.size if is_failed else max(self.size, length)

    @property
    def is_open(self) -> bool:
        """Whether a cut may leave something else than is written."""
        return bool(self.dirty) or self.size < len(self.text)

    def left(self, draw: random.Random) -> bytes:
        """What a cut may leave: any end, and of each block any beginning behind what is sure; the rest are zeros."""
        size = draw.choice(
            [len(self.text), max(self.size, len(self.text) - 1), draw.randint(self.size, len(self.text)), self.size]
        )
        found = bytearray(self.text[:size])
        for start in range(0, size, BLOCK):
            end = min(start + BLOCK, len(self.text))
            sure = start + self.sure.get(start // BLOCK, 0)
            kept = draw.choice([sure, draw.randint(sure, end), end, end])
            found[kept:end] = bytes(len(found[kept:end]))
        return bytes(found)


class Disk:
    """A folder on a disk, and what the program was told of it."""

    def __init__(self, files: Dict[str, bytes]) -> None:
        """Begins with files that the disk has for certain."""
        self.names = {name: File(text) for name, text in files.items()}
        self.answered = 0
        """The greatest number of an entry that an answer has named."""
        self._sure_names = dict(self.names)
        self._changes: List[Tuple[int, Dict[str, File]]] = []
        self._nodes: Dict[int, File] = {}
        self._begun: Dict[Tuple[int, int], Tuple[int, int]] = {}
        self._at = 0

    def find(self, folder: Path) -> None:
        """Takes the numbers of the files that are there, before the program is started."""
        self._nodes = {(folder / name).stat().st_ino: file for name, file in self.names.items()}

    def take(self, event: Event) -> None:
        """What the event changes."""
        self._at += 1
        getattr(self, f"_{event.kind}")(event)

    def _N(self, event: Event) -> None:
        file = self._nodes[event.node] = File()
        self._renamed({**self.names, event.text.decode(): file})

    def _W(self, event: Event) -> None:
        self._nodes[event.node].write(event.text, self._at)

    def _B(self, event: Event) -> None:
        length = len(self._nodes[event.node].text) if event.text == b"F" else 0
        self._begun[event.thread, event.node] = self._at, length

    def _E(self, event: Event) -> None:
        at, length = self._begun.pop((event.thread, event.node))
        if event.text == b"F":
            self._nodes[event.node].synchronised(length, at, event.is_failed)
        elif not event.is_failed:
            for changed, names in self._changes:
                self._sure_names = names if changed < at else self._sure_names
            self._changes = [it for it in self._changes if it[0] >= at]

    def _A(self, event: Event) -> None:
        self.answered = max([self.answered, *map(int, ANSWERED.findall(event.text))])

    def _R(self, event: Event) -> None:
        old, new = event.text.decode().split("\n")
        names = dict(self.names)
        names[new] = names.pop(old)
        self._renamed(names)

    def _L(self, event: Event) -> None:
        old, new = event.text.decode().split("\n")
        self._renamed({**self.names, new: self.names[old]})

    def _U(self, event: Event) -> None:
        gone = event.text.decode().split("\n")[0]
        self._renamed({name: file for name, file in self.names.items() if name != gone})

    def _renamed(self, names: Dict[str, File]) -> None:
        self._changes.append((self._at, names))
        self.names = names

    @property
    def is_open(self) -> bool:
        """Whether a cut may leave something else than is written."""
        return bool(self._changes) or any(file.is_open for file in self.names.values())

    def left(self, draw: random.Random) -> Dict[str, bytes]:
        """What a cut may leave: the folder after any beginning of what was changed in it, and files as `File.left`."""
        names = draw.choice([self._sure_names, *(names for _, names in self._changes)])
        return {name: file.left(draw) for name, file in names.items()}
