"""The layer of an island's outlines, open in a session of the program: it tiles, and says in which district a point is.
"""
from __future__ import annotations

import asyncio
from pathlib import Path
from typing import List, Optional

from ..errors import ProgramEnded, Refused
from ..live.answers import place_of, test_error, tiling_of
from ..program.layer_files import read_rings
from ..serve.faults import NotServing
from ..serve.program import Program

TRIES = 3


class Outlines:
    """The outlines of an island's districts, by their records from 1."""

    def __init__(self, island: int, city: Path, path: Path) -> None:
        """Refused P1 where the layer of outlines can't be read."""
        self.island, self.rings = island, read_rings(path)
        self._words = [str(city), str(path), "--unit", "mm"]
        self._program: Optional[Program] = None
        self._starting = asyncio.Lock()

    async def start(self) -> None:
        """Starts the session, which refuses outlines that do not tile the city. Refused W8, which says so."""
        try:
            program = await Program.start(self._words)
            lines = [line.decode() for line in await program.operator.report(b"check")]
            test_error(lines[-1] if lines else "")
            tiling = tiling_of(lines)
        except Refused as fault:
            if not fault.code.startswith(("F", "G", "H")):
                raise  # it is not of the layer
            text = f"the outlines of island {self.island} do not tile its city ({fault})"
            raise Refused("W8", f"{text}: take the folder from a backup, or prepare the layer anew") from fault
        if tiling.count != len(self.rings):
            program.kill()
            raise Refused("W8", f"island {self.island} has {tiling.count} outlines, for {len(self.rings)} districts")
        self._program = program

    async def at(self, x: int, y: int) -> List[int]:
        """The records of the outlines that a point (mm) is in, or on the edge of. Raises `NotServing`."""
        for _ in range(TRIES):
            try:
                if self._program is None:
                    await self._start_anew()
                assert self._program is not None
                line = (await self._program.operator.ask(b"locate %d %d" % (x, y))).decode()
                test_error(line)
                return list(place_of(line, x, y).ids)
            except ProgramEnded:
                self._forget()
        raise NotServing("restarting", "the session of the outlines ends again and again")

    async def _start_anew(self) -> None:
        async with self._starting:
            if self._program is None:
                await self.start()

    def _forget(self) -> None:
        if self._program is not None and self._program.operator.has_ended:
            self._program.kill()
            self._program = None

    def close(self) -> None:
        """Ends the session, which keeps nothing."""
        if self._program is not None:
            self._program.kill()
        self._program = None
