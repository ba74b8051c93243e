"""What a search found: which vertices and edges are kept, and what is against the others."""

from __future__ import annotations

from typing import Hashable, NamedTuple

from . import _library
from .errors import MappingRefused
from .graph import Fixed, Graph, Problem


class Edge(NamedTuple):
    """An edge by the names of its vertices."""

    a: Hashable
    """The name of one vertex."""
    b: Hashable
    """The name of the other, or of the same one."""
    label: Hashable
    """The edge's label."""


class Obstacle(NamedTuple):
    """What is against keeping an old vertex as a new one, beside all that is kept."""

    new: Hashable
    """The new vertex, by name."""
    number: int
    """The library's number. 0: nothing forbids it; 20: the new vertex serves another one already;
    22: the edges differ."""
    with_old: Hashable | None
    """The kept old vertex that it is about; the old vertex itself, if its edge with itself is."""
    with_new: Hashable | None
    """The new vertex that `with_old` is kept as, or would be."""
    reason: str
    """The library's text of the number, empty for 0."""


class Result(Fixed):
    """What a search found, by names. Lists stand by rising vertex numbers.

    `size` is None, and everything is removed or new, if nothing is held. `final` says that no
    larger mapping exists (no larger connected one, if `connected`); else every one is smaller than
    `ceiling`.
    """

    __slots__ = (
        *("problem", "size", "ceiling", "steps", "done", "final", "connected", "minimum"),
        *("mapping", "kept_vertices", "removed_vertices", "new_vertices"),
        *("kept_edges", "removed_edges", "new_edges", "_rows"),
    )

    problem: Problem
    """The two graphs and the substitutes."""
    size: int | None
    """The number of kept vertices; None if nothing is held."""
    ceiling: int
    """Every common subgraph (in the connected search every connected one) is smaller."""
    steps: int
    """The steps that the search made."""
    done: bool
    """Whether the search was finished."""
    final: bool
    """Whether nothing larger exists."""
    connected: bool
    """Whether only connected mappings counted."""
    minimum: int
    """The smallest size of interest."""
    mapping: dict[Hashable, Hashable]
    """From the names of kept old vertices to those of their new ones."""
    kept_vertices: list[tuple[Hashable, Hashable]]
    """Old name and new name of each kept vertex."""
    removed_vertices: list[Hashable]
    """The names of the other old vertices."""
    new_vertices: list[Hashable]
    """The names of the new vertices that serve for no old one."""
    kept_edges: list[tuple[Edge, Edge]]
    """Each old edge of two kept vertices, and the new edge that it serves as, a for a, b for b."""
    removed_edges: list[Edge]
    """The other old edges."""
    new_edges: list[Edge]
    """The new edges that no old edge serves as."""

    def __init__(
        self,
        problem: Problem,
        rows: bytes | None,
        *,
        size: int | None,
        ceiling: int,
        steps: int,
        done: bool,
        final: bool,
        connected: bool,
        minimum: int,
    ) -> None:
        """`rows` is the library's mapping, one byte for each old vertex; None: nothing is held."""
        self.problem = problem
        self.size = size
        self.ceiling = ceiling
        self.steps = steps
        self.done = done
        self.final = final
        self.connected = connected
        self.minimum = minimum
        self._rows = bytes([_library.UNMAPPED] * len(problem.old)) if rows is None else rows
        self._list_vertices()
        self._list_edges()

    def obstacles(self, old_name: Hashable) -> list[Obstacle]:
        """What is against keeping an old vertex that is not kept, by the library.

        There is one for each new vertex whose label agrees. ValueError: the vertex is kept.
        """
        row = self.problem.old.number(old_name)
        if self._rows[row] != _library.UNMAPPED:
            kept_as = self.problem.new.names[self._rows[row]]
            raise ValueError(f"old vertex {old_name!r} is kept as {kept_as!r}")
        found = (self._obstacle(row, new) for new in range(len(self.problem.new)))
        return [obstacle for obstacle in found if obstacle is not None]

    def _list_vertices(self) -> None:
        old, new = self.problem.old, self.problem.new
        pairs = self._pairs()
        self.kept_vertices = [(old.names[i], new.names[j]) for i, j in pairs.items()]
        self.mapping = dict(self.kept_vertices)
        self.removed_vertices = [name for i, name in enumerate(old.names) if i not in pairs]
        served = set(pairs.values())
        self.new_vertices = [name for j, name in enumerate(new.names) if j not in served]

    def _list_edges(self) -> None:
        old, new = self.problem.old, self.problem.new
        pairs = self._pairs()
        self.kept_edges = [
            (_edge(old, i, j), _edge(new, pairs[i], pairs[j]))
            for i, j, _ in old.edges
            if i in pairs and j in pairs
        ]
        self.removed_edges = [
            _edge(old, i, j) for i, j, _ in old.edges if i not in pairs or j not in pairs
        ]
        served = set(pairs.values())
        self.new_edges = [
            _edge(new, i, j) for i, j, _ in new.edges if i not in served or j not in served
        ]

    def _pairs(self) -> dict[int, int]:
        return {i: j for i, j in enumerate(self._rows) if j != _library.UNMAPPED}

    def _obstacle(self, row: int, new: int) -> Obstacle | None:
        """None if the labels do not agree."""
        name = self.problem.new.names[new]
        rows = bytearray(self._rows)
        rows[row] = new
        try:
            _library.check_mapping(*self.problem.as_bytes(), bytes(rows))
        except MappingRefused as refused:
            if refused.number == 21:
                return None
            # The library goes row by row: the vertex that is tried may be either of the two.
            other = refused.earlier if refused.row == row else refused.row
            with_old = self.problem.old.names[other]
            with_new = self.problem.new.names[rows[other]]
            return Obstacle(name, refused.number, with_old, with_new, refused.reason)
        return Obstacle(name, 0, None, None, "")


def _edge(graph: Graph, i: int, j: int) -> Edge:
    return Edge(graph.names[i], graph.names[j], graph.edge_label(i, j))
