"""The type of NumPy's arrays, whose shapes and kinds are told in words where they are used."""
from __future__ import annotations

from typing import Any

import numpy.typing as npt

Array = npt.NDArray[Any]
"""An array of NumPy."""
