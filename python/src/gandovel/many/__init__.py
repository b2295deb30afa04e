"""Many cities at once: a manifest, one task a city by GNU parallel, Slurm or Dask, whole results, and a summary."""
from .manifest import Row, read_manifest
from .results import Result, ResultsFolder
from .run import run_many
from .summary import Summary, Verdict, Whole, whole_of

__all__ = ["Result", "ResultsFolder", "Row", "Summary", "Verdict", "Whole", "read_manifest", "run_many", "whole_of"]
