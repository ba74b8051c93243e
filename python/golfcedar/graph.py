"""Labelled graphs, and two of them as the library's bytes.

Names are told apart as dictionary keys are: 1, 1.0 and True are one name. Labels likewise, but two
that are equal and of different types, such as 1 and True, are refused in one Problem.
"""

from __future__ import annotations

from typing import Any, Dict, Hashable, Iterable, Iterator, Mapping, Sequence, cast

from . import _library
from .errors import GraphError, MappingRefused

_LARGEST_LABEL = 65535
_LARGEST_EDGE_LABEL = 255
_MAX_SUBSTITUTES = _library.SUBSTITUTES_BYTES // 4

_Numbering = Dict[Hashable, int]


class Fixed:
    """Attributes that are set once."""

    __slots__: tuple[str, ...] = ()

    def __setattr__(self, name: str, value: Any) -> None:
        if hasattr(self, name):
            raise AttributeError(f"{name} of a {type(self).__name__} cannot be changed")
        super().__setattr__(name, value)

    def __delattr__(self, name: str) -> None:
        raise AttributeError(f"{name} of a {type(self).__name__} cannot be deleted")


class Graph(Fixed):
    """A labelled graph, which never changes.

    Its vertices stand in order, at most 64, each with a name and a label. Two vertices have at most
    one edge, and so has one with itself; an edge has a label. Names and labels are hashable.
    """

    __slots__ = ("names", "labels", "edges", "_numbers", "_edge_labels")

    names: tuple[Hashable, ...]
    """The vertices' names, in order."""
    labels: tuple[Hashable, ...]
    """The vertices' labels, in order."""
    edges: tuple[tuple[int, int, Hashable], ...]
    """The edges as (i, j, label), with vertex numbers i <= j, sorted by these."""

    def __init__(
        self,
        vertices: Mapping[Hashable, Hashable] | Iterable[tuple[Hashable, Hashable]],
        edges: Iterable[tuple[Hashable, Hashable, Hashable]] = (),
    ) -> None:
        """Vertices are pairs of a name and a label, or a mapping; edges are (name, name, label)."""
        items = vertices.items() if isinstance(vertices, Mapping) else vertices
        labels: dict[Hashable, Hashable] = {}
        for item in items:
            name, label = _parts(item, 2, "a vertex")
            _add_vertex(labels, name, label)
        self.names = tuple(labels)
        self.labels = tuple(labels.values())
        self._numbers = {name: number for number, name in enumerate(self.names)}
        self._edge_labels = self._numbered(edges)
        self.edges = tuple((i, j, label) for (i, j), label in self._edge_labels.items())

    def __len__(self) -> int:
        """The number of vertices."""
        return len(self.names)

    def __eq__(self, other: object) -> bool:
        """Whether names, labels and edges are equal, and in the same order."""
        if not isinstance(other, Graph):
            return NotImplemented
        return self._content() == other._content()

    def __hash__(self) -> int:
        return hash(self._content())

    def __repr__(self) -> str:
        vertices = list(zip(self.names, self.labels))
        edges = [(self.names[i], self.names[j], label) for i, j, label in self.edges]
        return f"Graph({vertices!r}, {edges!r})"

    def number(self, name: Hashable) -> int:
        """The number of the vertex of this name. GraphError if there is none."""
        try:
            return self._numbers[name]
        except (KeyError, TypeError):
            raise GraphError(f"there is no vertex {name!r}") from None

    def edge_label(self, i: int, j: int) -> Hashable | None:
        """The label of the edge of two vertices, by number; None if there is no edge.

        An edge may have the label None: `has_edge` tells.
        """
        return self._edge_labels.get(_rising(i, j))

    def has_edge(self, i: int, j: int) -> bool:
        """Whether two vertices, by number, have an edge."""
        return _rising(i, j) in self._edge_labels

    @classmethod
    def from_bytes(cls, data: bytes) -> Graph:
        """A graph from bytes of either edition: those that begin with 4 are of edition 2.

        Names are the numbers from 0, labels the numbers in the bytes. Refused where the library
        refuses, with the place in `data`.
        """
        given = bytes(memoryview(data))
        if given[:1] == b"\4":
            _library.check_graph(given)
            return cls(*_read(given))
        return cls(*_read(_library.to_edition_2(given)))

    def to_bytes(self) -> bytes:
        """The bytes of edition 2. GraphError if a label is not a number in range.

        Labels of vertices are from 1 to 65,535, those of edges from 1 to 255.
        """
        for label in self.labels:
            _number_or_error(label, _LARGEST_LABEL, "a vertex")
        for _, _, label in self.edges:
            _number_or_error(label, _LARGEST_EDGE_LABEL, "an edge")
        return _written(self.labels, self.edges)

    @classmethod
    def from_networkx(
        cls, graph: Any, label: Hashable | None = "label", edge_label: Hashable | None = "label"
    ) -> Graph:
        """A graph from one of networkx, which is neither directed nor a multigraph.

        Names are the nodes; labels are the attributes `label` of the nodes and `edge_label` of the
        edges, and a missing one is a GraphError. Give None for `label` or `edge_label` if nodes or
        edges are all alike: their label is None.
        """
        if graph.is_directed():
            raise GraphError("a directed graph has no place here: give graph.to_undirected()")
        if graph.is_multigraph():
            raise GraphError("a multigraph has no place here: give one edge for each pair of nodes")
        nodes = [
            (name, _attribute(data, label, f"node {name!r}"))
            for name, data in graph.nodes(data=True)
        ]
        edges = [
            (a, b, _attribute(data, edge_label, f"the edge of {a!r} and {b!r}"))
            for a, b, data in graph.edges(data=True)
        ]
        return cls(nodes, edges)

    def _content(self) -> tuple[Any, ...]:
        return self.names, self.labels, self.edges

    def _numbered(
        self, edges: Iterable[tuple[Hashable, Hashable, Hashable]]
    ) -> dict[tuple[int, int], Hashable]:
        found: dict[tuple[int, int], Hashable] = {}
        for edge in edges:
            a, b, label = _parts(edge, 3, "an edge")
            what = f"the edge of {a!r} and {b!r}"
            try:
                ends = _rising(self.number(a), self.number(b))
            except GraphError as error:
                raise GraphError(f"{what}: {error}") from None
            if ends in found:
                raise GraphError(f"{what} is given twice")
            _check_label(label, what)
            found[ends] = label
        return dict(sorted(found.items(), key=lambda item: item[0]))


class Problem(Fixed):
    """Two graphs and substitutes as the library's bytes, and the way back from numbers to names.

    Substitutes are pairs of labels, of an old vertex and then of a new one, that agree though they
    differ. Their order is part of the bytes: give them in the same order to go on with a search.

    If every label of a vertex and of the substitutes is an int from 1 to 65,535, it stands for
    itself in the bytes; else the labels are numbered from 1 by first occurrence: old graph, new
    graph, substitutes. So are the edges' labels, on their own, from 1 to 255.

    GraphError: more than 255 labels of edges or 256 substitutes; or two labels that are equal but
    of different types, such as 1 and True or 1 and 1.0: whether they agree must not be guessed.
    """

    __slots__ = ("old", "new", "substitutes", "old_bytes", "new_bytes", "substitutes_bytes")

    old: Graph
    """The old graph."""
    new: Graph
    """The new graph."""
    substitutes: tuple[tuple[Hashable, Hashable], ...]
    """Pairs of labels, old then new."""
    old_bytes: bytes
    """The old graph as bytes of edition 2."""
    new_bytes: bytes
    """The new graph as bytes of edition 2."""
    substitutes_bytes: bytes
    """The substitutes as bytes."""

    def __init__(
        self, old: Graph, new: Graph, substitutes: Iterable[tuple[Hashable, Hashable]] = ()
    ) -> None:
        for graph in (old, new):
            if not isinstance(graph, Graph):
                raise TypeError(f"a Graph is needed, not {type(graph).__name__}")
        self.old = old
        self.new = new
        self.substitutes = _pairs(substitutes)
        listed = [label for pair in self.substitutes for label in pair]
        labels = _numbering([*old.labels, *new.labels, *listed], _LARGEST_LABEL, "labels")
        edge_labels = _numbering(
            [label for graph in (old, new) for _, _, label in graph.edges],
            _LARGEST_EDGE_LABEL,
            "edge labels",
        )
        self.old_bytes = _numbered_bytes(old, labels, edge_labels)
        self.new_bytes = _numbered_bytes(new, labels, edge_labels)
        self.substitutes_bytes = b"".join(_two_bytes(labels[label]) for label in listed)
        _library.check_problem(*self.as_bytes())

    def __repr__(self) -> str:
        return f"Problem({self.old!r}, {self.new!r}, {self.substitutes!r})"

    def as_bytes(self) -> tuple[bytes, bytes, bytes]:
        """Old graph, new graph and substitutes, as every call of the library takes them."""
        return self.old_bytes, self.new_bytes, self.substitutes_bytes

    def check(self, mapping: Mapping[Hashable, Hashable]) -> int:
        """The size of a mapping from old names to new ones, if it is a common subgraph.

        MappingRefused says which old vertices are at fault. GraphError: an unknown name.
        """
        rows = bytearray([_library.UNMAPPED] * len(self.old))
        for old_name, new_name in mapping.items():
            row = _number_in(self.old, old_name, "old graph")
            rows[row] = _number_in(self.new, new_name, "new graph")
        try:
            return _library.check_mapping(*self.as_bytes(), bytes(rows))
        except MappingRefused as refused:
            raise refused.named(self.old.names) from None


def _attribute(data: Mapping[Hashable, Hashable], key: Hashable, what: str) -> Hashable:
    if key is None:
        return None
    # Without it, everything would agree, and the answer would be to another question.
    if key not in data:
        raise GraphError(f"{what} has no attribute {key!r}; give None if all are alike")
    return data[key]


def _parts(item: Any, count: int, what: str) -> Sequence[Any]:
    # A text of the right length would fall into its letters.
    if not isinstance(item, (tuple, list)) or len(item) != count:
        raise GraphError(f"{what} is given by {count} things, not by {item!r}")
    return item


def _add_vertex(labels: dict[Hashable, Hashable], name: Hashable, label: Hashable) -> None:
    what = f"vertex {name!r}"
    _check_label(name, what, "name")
    if name in labels:
        raise GraphError(f"{what} is given twice")
    _check_label(label, what)
    if len(labels) == _library.MAX_VERTICES:
        raise GraphError(f"{what} is the 65th: a graph has at most {_library.MAX_VERTICES}")
    labels[name] = label


def _check_label(label: Hashable, what: str, part: str = "label") -> None:
    try:
        hash(label)
    except TypeError:
        raise GraphError(f"{what}: the {part} {label!r} is not hashable") from None
    if not label == label:
        raise GraphError(f"{what}: the {part} {label!r} is not equal to itself")


def _rising(i: int, j: int) -> tuple[int, int]:
    return (i, j) if i <= j else (j, i)


def _number_in(graph: Graph, name: Hashable, what: str) -> int:
    try:
        return graph.number(name)
    except GraphError as error:
        raise GraphError(f"{what}: {error}") from None


def _pairs(
    substitutes: Iterable[tuple[Hashable, Hashable]]
) -> tuple[tuple[Hashable, Hashable], ...]:
    pairs = []
    for item in substitutes:
        old_label, new_label = _parts(item, 2, "a substitute")
        for label in (old_label, new_label):
            _check_label(label, "substitutes")
        pairs.append((old_label, new_label))
    if len(pairs) > _MAX_SUBSTITUTES:
        raise GraphError(f"{len(pairs)} substitutes: at most {_MAX_SUBSTITUTES} may be given")
    return tuple(pairs)


def _numbering(labels: Sequence[Hashable], largest: int, what: str) -> _Numbering:
    first: dict[Hashable, Hashable] = {}
    for label in labels:
        if _types(first.setdefault(label, label)) != _types(label):
            raise GraphError(
                f"{what} {first[label]!r} and {label!r} are equal, but of different types: "
                "give one of them, or other labels"
            )
    if all(_is_number(label, largest) for label in first):
        return {label: cast(int, label) for label in first}
    if len(first) > largest:
        raise GraphError(f"{len(first)} different {what}: at most {largest} may be used")
    return {label: number for number, label in enumerate(first, 1)}


def _types(label: Hashable) -> Any:
    """The type of a label, and of its parts if it is a tuple."""
    return (type(label), *map(_types, label)) if isinstance(label, tuple) else type(label)


def _is_number(label: Hashable, largest: int) -> bool:
    return type(label) is int and 1 <= label <= largest


def _number_or_error(label: Hashable, largest: int, what: str) -> None:
    if not _is_number(label, largest):
        raise GraphError(f"{what} with the label {label!r}: bytes need numbers from 1 to {largest}")


def _numbered_bytes(graph: Graph, labels: _Numbering, edge_labels: _Numbering) -> bytes:
    edges = [(i, j, edge_labels[label]) for i, j, label in graph.edges]
    return _written([labels[label] for label in graph.labels], edges)


def _written(labels: Iterable[Any], edges: Iterable[tuple[int, int, Any]]) -> bytes:
    vertices = b"".join(b"\3" + _two_bytes(label) for label in labels)
    return b"\4\2" + vertices + b"".join(bytes([2, *edge]) for edge in edges) + b"\0"


def _two_bytes(label: int) -> bytes:
    return label.to_bytes(2, "little")


def _read(graph: bytes) -> tuple[list[tuple[int, int]], list[tuple[int, int, int]]]:
    """The vertices and edges of a graph of edition 2 that the library accepted."""
    labels: list[int] = []
    edges: list[tuple[int, int, int]] = []
    commands: Iterator[int] = iter(graph[2:-1])
    for command in commands:
        if command == 3:
            labels.append(next(commands) + 256 * next(commands))
        else:
            edges.append((next(commands), next(commands), next(commands)))
    return list(enumerate(labels)), edges
