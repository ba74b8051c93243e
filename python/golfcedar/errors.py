"""What goes wrong, as exceptions. All of them are GolfcedarError."""

from __future__ import annotations

from typing import Any, Hashable, Mapping, Sequence

_WITH_A_PLACE = frozenset([1, 2, 3, 4, 5, 7, 8, 9, 17, 27, 28])
_OF_A_ROW = frozenset([19, 21])
_OF_TWO_ROWS = frozenset([20, 22])


class GolfcedarError(Exception):
    """The base of all exceptions of this package."""


class LibraryMissing(GolfcedarError):
    """The shared library cannot be loaded. The text says what was tried and what to run."""


class GraphError(GolfcedarError):
    """A graph, or substitutes, that cannot be made into bytes. The text says what to mend."""


class OtherQuestion(GolfcedarError):
    """A saved search of another question. The text says which inputs differ.

    `saved` has these inputs as the file has them: "old", "new" and "substitutes" as hexadecimal
    bytes, "minimum", "connected" and "descend" as given to the search.
    """

    def __init__(self, text: str, saved: Mapping[str, Any]) -> None:
        super().__init__(text, saved)
        self.saved = dict(saved)

    def __str__(self) -> str:
        return str(self.args[0])


class DamagedFile(GolfcedarError):
    """A saved search that is cut off or changed, or a file that is none."""


class Refused(GolfcedarError):
    """The library refused.

    `number` is the refusal's number and `reason` the library's text of it. `value` is the place in
    the bytes, or the row of the mapping, where the number has one, else 0. `about` is what is
    refused: "old graph", "new graph", "graph", "substitutes", "mapping", "checkpoint" or "".
    """

    def __init__(self, number: int, value: int = 0, about: str = "", reason: str = "") -> None:
        super().__init__(number, value, about, reason)
        self.number = number
        self.value = value
        self.about = about
        self.reason = reason

    def __str__(self) -> str:
        about = f"{self.about}: " if self.about else ""
        return f"{about}{self.reason} (refusal {self.number}{self._where()})"

    def _where(self) -> str:
        return f", at byte {self.value}" if self.number in _WITH_A_PLACE else ""


class MappingRefused(Refused):
    """The library refused a mapping.

    `row` is the old vertex at fault, by number, and `earlier` the earlier one that it is at fault
    with (the same one, if it is an edge with itself). Both are 0 where the number has none.
    """

    def __init__(
        self,
        number: int,
        row: int = 0,
        earlier: int = 0,
        reason: str = "",
        names: Sequence[Hashable] | None = None,
    ) -> None:
        super().__init__(number, row, "mapping", reason)
        self.args = (number, row, earlier, reason, names)
        self.row = row
        self.earlier = earlier
        self._names = names

    def named(self, names: Sequence[Hashable]) -> MappingRefused:
        """The same refusal, with a text that names the old vertices."""
        return MappingRefused(self.number, self.row, self.earlier, self.reason, names)

    def _where(self) -> str:
        if self.number in _OF_A_ROW or (self.number in _OF_TWO_ROWS and self.row == self.earlier):
            return f", at old vertex {self._name(self.row)}"
        if self.number in _OF_TWO_ROWS:
            return f", at old vertices {self._name(self.earlier)} and {self._name(self.row)}"
        return ""

    def _name(self, row: int) -> str:
        return str(row) if self._names is None else repr(self._names[row])
