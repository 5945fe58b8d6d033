"""A data cube from Python: over feeds, or as a session that is kept right change by change.

    import jackraisin
    from jackraisin import ALL, ANY

    cube = jackraisin.cube("schema.toml", ["market.csv", "street.csv"])
    cube.at({"city": "York"})["sum(cents)"]

The program `datacube` does the work: it is in this package's wheel, and `DATACUBE` in the environment names another.
"""
from ._ask import cube, drill, merge, refusals, rollup, slice
from ._cells import ALL, ANY, KEEP, Cell, Coordinate, Pattern
from ._cube import Answer, Cube, Refusal, Row
from ._errors import DatacubeError, Ended, Failure, ProgramNotFound, RefusedLines, TimedOut, Unreadable, Unsayable
from ._live import Live
from ._made import cube_of
from ._program import explain, program
from ._schema import Schema
from ._views import Difference

# (the version of the distribution and of the program too)
__version__ = "1.32.0"

__all__ = [
    "ALL", "ANY", "KEEP", "Answer", "Cell", "Coordinate", "Cube", "DatacubeError", "Difference", "Ended", "Failure", "Live",
    "Pattern", "ProgramNotFound", "Refusal", "RefusedLines", "Row", "Schema", "TimedOut", "Unreadable", "Unsayable", "cube",
    "cube_of", "drill", "explain", "merge", "program", "refusals", "rollup", "slice",
]
