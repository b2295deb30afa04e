"""What a run asks of the program, and what has come of it so far."""
from __future__ import annotations

import errno
import os
import sys
import threading
import time
import uuid
from contextlib import contextmanager
from dataclasses import replace
from importlib import import_module
from pathlib import Path
from typing import TYPE_CHECKING, Any, Callable, Dict, Iterator, List, Optional, Sequence, Set, Tuple, Union

from tqdm import tqdm

from ..errors import Refused
from .engines import Engine, Lost, Settings
from .engines.base import processors
from .manifest import Row, bottom_of, by_depth, cities_above
from .results import KINDS, Result, ResultsFolder, short
from .rings import DistrictLayer, NoRing, Ring
from .summary import Verdict, verdict_of
from .tasks import Batch, Program, Task
from .worker.files import checked

if TYPE_CHECKING:
    from .pairs import Overlay, ZonesOf

SHOWN_AFTER = 2.0
LOOKED_AT = 1000
"""For so many results it is looked at a time, while an engine runs."""

OF_THE_DISK = (errno.ENOSPC, errno.EDQUOT, errno.EROFS, errno.EACCES, errno.EPERM, errno.EIO, errno.ENOENT, errno.EFBIG)
"""Errors that say that a folder can't be written; any other one of an engine is the engine's."""

LINES_APART = 30.0
"""Seconds between two lines of progress where there is no terminal."""


class Run:
    """What a run has so far: results by kind (`KINDS`) and name, and why there is none."""

    def __init__(
        self,
        results: ResultsFolder,
        program: Program,
        settings: Settings,
        shown: bool,
        resume: bool,
        verify: bool = False,
    ) -> None:
        self.results, self.program, self.settings = results, program, settings
        self.shown, self.resume, self.verify, self.name = shown, resume, verify, uuid.uuid4().hex
        self.found: Dict[str, Dict[str, Tuple[Result, Verdict]]] = {kind: {} for kind in KINDS}
        """The results and their verdicts."""
        self.lost: Dict[str, Dict[str, Tuple[str, str]]] = {kind: {} for kind in KINDS}
        self.rings: Dict[str, Ring] = {}
        self.layers: Dict[str, DistrictLayer] = {}
        """The rings of districts by their names, and the layers of districts by the names of the rows that have
        them."""
        self.kept: Set[str] = set()
        self.before: Dict[str, Optional[Tuple[int, str, str]]] = {}
        """What results said that are asked for again, so as to be verified: status, output and errors."""
        self.batches = 0
        self.stopped: Optional[Refused] = None
        """Why something behind the cities could not be asked."""
        self.overlays: Dict[str, Optional[List[Overlay]]] = {}
        """The overlays of districts with the zones of their cities; None of one whose files changed meanwhile."""

    def begin(self, manifest: Union[str, Path], engine: str) -> None:
        """Clears the folder of what an earlier run left half done."""
        self.results.begin(
            {
                "run": self.name,
                "manifest": os.path.abspath(manifest),
                "engine": engine,
                "program": self.program.version,
                "begun": time.strftime("%Y-%m-%dT%H:%M:%SZ", time.gmtime()),
            }
        )

    def with_rings(self, rows: Sequence[Row]) -> List[Row]:
        """The rows, each district with its ring as its city: its record in the layer of districts; outer cities first.

        A district without a ring has no city; why stands with the cities that have no result.
        """
        placed: Dict[str, Row] = {}
        for level in by_depth(rows):
            for row in level:
                placed[row.name] = row
                if row.part_of is not None:
                    placed[row.name] = replace(row, city=self._city_of(row, placed[row.part_of]))
        return [placed[row.name] for row in rows]

    def _city_of(self, row: Row, above: Row) -> Optional[str]:
        """The file of a district's ring; None, and the reason noted, where there is none."""
        try:
            folder = self.results.rings_of(row.name)
            if above.name not in self.layers:
                layer = self.layers[above.name] = DistrictLayer(above.parcels)
                if above.city is not None:
                    aside = folder.with_name(f".{folder.name}.{os.getpid()}.parts")
                    layer.cut_by(self.program.path, above.city, above.unit, aside)
            self.rings[row.name] = self.layers[above.name].write(row.district or 0, above.unit, row.unit, folder)
        except NoRing as why:
            self.lost["cities"][row.name] = ("T10", f"its ring is not there: {why}")
            return None
        except OSError as fault:
            raise Refused("P14", f"{folder} can't be written: {short(fault)}") from fault
        return self.rings[row.name].path

    def do(self, engine: Engine, kind: str, tasks: List[Task]) -> None:
        """Runs what has no result yet, and reads the results of all."""
        old: List[bool] = [False] * len(tasks)
        if self.resume:
            old = self.results.kept(kind, tasks, self.program, self.settings.jobs or processors())
        if self.verify:
            kept = [task.name for task, is_kept in zip(tasks, old) if is_kept]
            self.before.update({f"{kind}/{name}": said_by(self.results.result(kind, name)) for name in kept})
            old = [False] * len(tasks)
        to_do = [task for task, kept in zip(tasks, old) if not kept]
        self.batches += bool(to_do)
        batch = Batch(
            self.results.path / "engine" / f"{self.batches}-{kind}",
            to_do,
            self.name,
            lambda task: self.results.run_of(kind, task.name) == self.name,
        )
        lost: Dict[int, Lost] = {}
        early = _Early(self.results, kind, to_do, self.name)
        if to_do:
            try:
                batch.write(
                    self.results.path / kind, self.program, self.settings.limits, self.verify or kind != "cities"
                )
                with _progress(len(to_do), kind, self.shown) as told:
                    lost = engine.run(batch, early.then(told))
            except OSError as fault:
                if fault.errno in OF_THE_DISK:
                    raise Refused("P14", f"{batch.folder} can't be written: {short(fault)}") from fault
                raise Refused("T7", f"the engine failed: {type(fault).__name__}: {short(fault)}") from fault
            finally:
                early.close()
        numbers = {task.name: number for number, task in enumerate(to_do)}
        for task in tasks:
            number = numbers.get(task.name)
            found = early.found(task.name)
            if found is not None and (number is None or found[0].run == self.name):
                self.found[kind][task.name] = found
            else:
                self.lost[kind][task.name] = _why(batch, number, lost)
        if kind == "cities":
            self.kept = {task.name for task in tasks if task.name not in numbers}

    def do_more(self, engine: Engine, kind: str, tasks: List[Task]) -> None:
        """The same of what is asked behind the cities. Where it can't be done, their verdicts are told, and then
        why."""
        try:
            self.do(engine, kind, tasks)
        except Refused as why:
            self.stopped = self.stopped or why

    def layer_of_first_fault(self, row: Row) -> Optional[str]:
        """The layer, `parcels` or `zones`, whose faults an overlay found and told the first of."""
        if row.name not in self.found["cities"]:
            return None
        result, verdict = self.found["cities"][row.name]
        if (
            result.command[1] != "overlay"
            or verdict.code not in ("H1", "H2")
            or verdict.layer not in ("parcels", "zones")
        ):
            return None
        return verdict.layer

    def overlays_of(self, rows: Sequence[Row], threads: int) -> List[Task]:
        """Writes what districts without zones are overlaid with, where they tile, and a city above has zones that
        do."""
        known: Dict[str, ZonesOf] = {}
        above = cities_above(rows)
        for row in bottom_of(rows):
            zoned = next((it for it in above[row.name] if it.zones is not None), None)
            if row.zones is not None or row.edits or zoned is None or not (self.tiles(row) and self.tiles(zoned)):
                continue
            from .pairs import ZonesOf, overlays_of

            if zoned.name not in known:
                known[zoned.name] = ZonesOf(zoned)
            folder = self.results.frames_of(row.name)
            try:
                made = overlays_of(row, known[zoned.name], folder, threads)
                judged = self._was_judged(row, row.parcels) and self._was_judged(zoned, str(zoned.zones))
                self.overlays[row.name] = made if judged else None
            except OSError as fault:
                self.overlays[row.name] = None
                self.lost["overlays"][row.name] = "P14", f"{folder} can't be written: {short(fault)}"
        return [overlay.task for made in self.overlays.values() for overlay in made or ()]

    def tiles(self, row: Row) -> bool:
        found = self.found["cities"]
        return row.name in found and found[row.name][1].tiles

    def _was_judged(self, row: Row, path: str) -> bool:
        """Whether a file is the one that a row's verdict is of. OSError where it can't be read."""
        here = checked(path)
        return here is not None and self.found["cities"][row.name][0].has_read(path, here)

    def has_its_ring(self, row: Row) -> bool:
        """Whether a district was judged in its ring: the record of the very file that the layer's verdict is of."""
        above, ring, found = str(row.part_of), self.rings.get(row.name), self.found["cities"]
        if ring is None or row.name not in found or above not in found:
            return False
        judged, of_layer = found[row.name][0], found[above][0]
        same_layer = all(of_layer.has_read(path, it) for path, it in self.layers[above].sums.items())
        return same_layer and judged.has_read(ring.path, ring.here)


class _Early:
    """Reads results while an engine runs the rest, and begins to import what writes faults when a city is refused."""

    def __init__(self, results: ResultsFolder, kind: str, tasks: Sequence[Task], run: str) -> None:
        self.results, self.kind, self.run = results, kind, run
        self.waiting = [task.name for task in tasks]
        self.read: Dict[str, Tuple[Any, Tuple[Result, Verdict]]] = {}
        self.importing: Optional[threading.Thread] = None

    def then(self, told: Callable[[int], None]) -> Callable[[int], None]:
        """The call that an engine makes when tasks have ended: it reads their results, too, as far as it finds them."""

        def both(done: int) -> None:
            told(done)
            if len(self.read) < done:
                first, rest = self.waiting[:LOOKED_AT], self.waiting[LOOKED_AT:]
                self.waiting = [name for name in first if not self._take(name)] + rest

        return both

    def _take(self, name: str) -> bool:
        stamp = self.results.stamp_of(self.kind, name)
        result = self.results.result(self.kind, name) if stamp is not None else None
        if result is None or result.run != self.run:
            return False
        self.read[name] = stamp, _short(result)
        if self.read[name][1][1].verdict == "refused" and self.importing is None:
            self.importing = threading.Thread(target=import_module, args=(f"{__package__}.faults_file",))
            self.importing.start()
        return True

    def found(self, name: str) -> Optional[Tuple[Result, Verdict]]:
        """A result, as it is now."""
        stamp, read = self.read.get(name, (None, None))
        if read is not None and stamp == self.results.stamp_of(self.kind, name):
            return read
        result = self.results.result(self.kind, name)
        return None if result is None else _short(result)

    def close(self) -> None:
        """Waits until nothing is imported any more: the next engine's processes are forked from this one."""
        if self.importing is not None:
            self.importing.join()


def said_by(result: Optional[Result]) -> Optional[Tuple[int, str, str]]:
    """What the program said in a result: status, output and errors; None of none."""
    return None if result is None else (result.status, result.output, result.errors)


def _short(result: Result) -> Tuple[Result, Verdict]:
    """A result and its verdict. What the program printed is left out: of all cities it may be too much."""
    return replace(result, output="", errors=""), verdict_of(result)


def _why(batch: Batch, number: Optional[int], lost: Dict[int, Lost]) -> Tuple[str, str]:
    """Why a task has no result: as it said itself, else as the engine says."""
    if number is None:
        return "P14", "its result was there when the run began, and is no longer"
    said = batch.note(number)
    return said or (lost[number][:2] if number in lost else ("T4", "the task left no result and said nothing"))


@contextmanager
def _progress(count: int, kind: str, shown: bool) -> Iterator[Callable[[int], None]]:
    """A bar on standard error, or a line now and then where it is no terminal."""
    apart = 0.1 if sys.stderr.isatty() else LINES_APART
    with tqdm(
        total=count,
        desc=kind,
        unit="city",
        delay=SHOWN_AFTER,
        mininterval=apart,
        file=sys.stderr,
        leave=False,
        disable=not shown,
    ) as bar:
        yield lambda done: bar.update(done - bar.n) and None
