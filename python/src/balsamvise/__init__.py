"""Reads and writes LAS and LAZ files as numpy arrays.

    import balsamvise

    points = balsamvise.read("tile.laz", threads=4)
    ground = points[points.classification == 2]
    balsamvise.write("ground.laz", points.head, ground)

The files are those of LAS 1.0 to 1.4 with the point data formats 0 to 3 and up to 192 extra bytes a record. Chunks are
packed and unpacked by the library liblaz, which is looked for in the environment variable `BALSAMVISE_LIBRARY`, beside
this package, in the `lib` folder of the Python installation, in `/usr/local/lib`, in `/usr/lib`, and where the loader
finds `liblaz.so.1`. In each folder the library in `glibc-hwcaps/x86-64-v3` comes first if the processor runs it. A
wheel has the library inside.
"""
from .crs import Crs
from .errors import CAUSES, LibraryMissing, ProcessorTooOld, Refused
from .extra_bytes import ExtraBytes
from .head import Head
from .library import check_processor
from .points import Point, Points, concatenate, dtype_of
from .reading import LasFile, read
from .reading import open_file as open
from .vlrs import Vlr, Vlrs
from .writing import LasWriter, append, create, write

__version__ = "1.2.0"

__all__ = [
    "CAUSES", "Crs", "ExtraBytes", "Head", "LasFile", "LasWriter", "LibraryMissing", "Point", "Points",
    "ProcessorTooOld", "Refused", "Vlr", "Vlrs", "append", "concatenate", "create", "dtype_of", "open", "read", "write",
]

check_processor()
