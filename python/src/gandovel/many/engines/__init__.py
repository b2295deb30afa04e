"""The engines that run tasks: GNU parallel, processes, Slurm and Dask. Each gives every task to the same worker."""
from __future__ import annotations

import shutil
from typing import Dict, Type

from .base import Engine, Lost, Settings
from .dask import DaskEngine
from .parallel import ParallelEngine
from .processes import ProcessesEngine
from .slurm import SlurmEngine

ENGINES: Dict[str, Type[Engine]] = {
    "parallel": ParallelEngine,
    "processes": ProcessesEngine,
    "slurm": SlurmEngine,
    "dask": DaskEngine,
}


def default_engine() -> str:
    """What runs tasks where no engine is told: GNU parallel, or processes where there is no `parallel`."""
    return "parallel" if shutil.which("parallel") else "processes"


__all__ = ["ENGINES", "DaskEngine", "Engine", "Lost", "Settings", "default_engine"]
