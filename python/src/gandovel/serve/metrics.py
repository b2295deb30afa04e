"""What is counted, in the text that Prometheus reads."""
from __future__ import annotations

from bisect import bisect_left
from functools import partial
from itertools import accumulate
from pathlib import Path
from typing import Any, Callable, Dict, Iterator, List, Protocol, Sized, Tuple

from prometheus_client import CollectorRegistry, Counter, Gauge, generate_latest
from prometheus_client.core import CounterMetricFamily, HistogramMetricFamily
from prometheus_client.registry import Collector


_PATHS = (
    "locate",
    "edits",
    "drafts",
    "parcels",
    "entries",
    "changes",
    "overlay",
    "collections",
    "conformance",
    "styles",
    "tileMatrixSets",
    "api",
    "health",
    "metrics",
)
_SECONDS = (0.0005, 0.001, 0.002, 0.005, 0.01, 0.02, 0.05, 0.1, 0.2, 0.5, 1.0, 2.0, 5.0, 10.0)


class Counted(Protocol):
    """What is counted: a register, or several."""

    @property
    def entries(self) -> Sized:
        """Published entries."""

    @property
    def restarts(self) -> int:
        """How often sessions were started anew."""

    @property
    def synchronised(self) -> int:
        """Synchronisations of journals that answers told of."""

    @property
    def journal(self) -> Path:
        """The journal, or the folder of journals."""

    @property
    def state(self) -> str:
        """`serving` where it is open."""

    def memory(self) -> Dict[str, int]:
        """Bytes of memory of the programs."""


class Metrics:
    """Counters of a server's life, and the register's state when they are asked for."""

    def __init__(self, register: Counted) -> None:
        self._register, self._all = register, CollectorRegistry()
        self.accepted = Counter("gandovel_edits_accepted", "Edits that became an entry", registry=self._all)
        self.refused = Counter("gandovel_edits_refused", "Edits that were refused", ["code"], registry=self._all)
        self._requests = _Requests(register)
        self._all.register(self._requests)
        for name, text, value in (
            ("entries", "Published entries", lambda: len(register.entries)),
            ("journal_bytes", "Bytes of the journal", lambda: _size(register)),
            ("session_restarts", "How often the session was started anew", lambda: register.restarts),
            ("serving", "1 where the register is open", lambda: int(register.state == "serving")),
        ):
            Gauge(f"gandovel_{name}", text, registry=self._all).set_function(value)
        memory = Gauge("gandovel_program_bytes", "Memory of the program's two runs", ["run"], registry=self._all)
        for run in ("session", "follower"):
            memory.labels(run).set_function(partial(_memory_of, register, run))

    def show(self, name: str, text: str, value: Callable[[], float]) -> None:
        """Shows one more value, `gandovel_NAME`."""
        Gauge(f"gandovel_{name}", text, registry=self._all).set_function(value)

    def answered(self, path: str, status: int, seconds: float) -> None:
        """One more request was answered."""
        self._requests.add(path, status, seconds)

    def text(self) -> bytes:
        """All of it."""
        return generate_latest(self._all)


class _Requests(Collector):
    """Requests by their path's first part and status, and how long they took; those of `/changes` are not timed.

    And the register's own counts.
    """

    def __init__(self, register: Counted) -> None:
        self._register = register
        self._counts: Dict[Tuple[str, int], int] = {}
        self._times: Dict[str, List[int]] = {}
        self._sums: Dict[str, float] = {}

    def add(self, path: str, status: int, seconds: float) -> None:
        """Counts one."""
        name = _NAMES.get(path) or _name_of(path)
        self._counts[name, status] = self._counts.get((name, status), 0) + 1
        if name != "changes":
            if name not in self._times:
                self._times[name], self._sums[name] = [0] * (len(_SECONDS) + 1), 0.0
            self._times[name][bisect_left(_SECONDS, seconds)] += 1
            self._sums[name] += seconds

    def collect(self) -> Iterator[Any]:
        """What `prometheus_client` asks for."""
        counts = CounterMetricFamily("gandovel_requests", "Requests that were answered", labels=["path", "status"])
        for (name, status), count in self._counts.items():
            counts.add_metric([name, str(status)], count)
        yield counts
        text = "Synchronisations of the journal that answers told of: there were as many or more"
        yield CounterMetricFamily("gandovel_synchronisations", text, value=self._register.synchronised)
        times = HistogramMetricFamily("gandovel_request_seconds", "Seconds to an answer", labels=["path"])
        for name, found in self._times.items():
            buckets = list(zip([*map(str, _SECONDS), "+Inf"], accumulate(found)))
            times.add_metric([name], buckets, self._sums[name])
        yield times


def _name_of(path: str) -> str:
    first = path.split("/", 2)[1] if path.startswith("/") else "other"
    return first if first in _PATHS else "page" if first in ("", "page") else "other"


_NAMES = {f"/{name}": name for name in _PATHS}


def _size(register: Counted) -> int:
    try:
        return register.journal.stat().st_size
    except OSError:
        return 0


def _memory_of(register: Counted, run: str) -> float:
    """Bytes of memory that one of the program's runs has; 0 of none."""
    return register.memory().get(run, 0)
