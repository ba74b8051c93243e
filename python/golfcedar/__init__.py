"""Golfcedar: the largest common subgraph of two labelled graphs, by a proved search.

The search itself is a shared library; this package makes its bytes from graphs, calls it, has it
check what it found once more, and tells it by names:

    >>> import golfcedar
    >>> old = golfcedar.Graph({"K1": "relay", "S1": "switch", "K2": "relay"},
    ...                       [("K1", "S1", "wire"), ("S1", "K2", "wire")])
    >>> new = golfcedar.Graph({"S": "switch", "K": "relay"}, [("S", "K", "wire")])
    >>> search = golfcedar.search(old, new)
    >>> for progress in search:
    ...     print(progress)
    Progress(size=2, ceiling=3, steps=6)
    >>> result = search.result()
    >>> result.final, result.mapping, result.removed_vertices
    (True, {'K1': 'K', 'S1': 'S'}, ['K2'])

A search can be stopped after any step, saved (`Search.save`) and gone on with (`Search.load`).
"""

from ._library import reason, step_limit, version
from .errors import (
    DamagedFile,
    GolfcedarError,
    GraphError,
    LibraryMissing,
    MappingRefused,
    OtherQuestion,
    Refused,
)
from .graph import Graph, Problem
from .result import Edge, Obstacle, Result
from ._search import Progress, Search, search

__all__ = [
    "DamagedFile",
    "Edge",
    "GolfcedarError",
    "Graph",
    "GraphError",
    "LibraryMissing",
    "MappingRefused",
    "Obstacle",
    "OtherQuestion",
    "Problem",
    "Progress",
    "Refused",
    "Result",
    "Search",
    "reason",
    "search",
    "step_limit",
    "version",
]
