"""Types of numpy's arrays, for annotations: numpy has none of them at run time in all versions that are taken here."""
from __future__ import annotations

from typing import TYPE_CHECKING, Any

import numpy as np

if TYPE_CHECKING:
    Array = np.ndarray[Any, np.dtype[Any]]
    DType = np.dtype[Any]
    RecordArray = np.recarray[Any, np.dtype[Any]]
else:
    Array, DType, RecordArray = np.ndarray, np.dtype, np.recarray
