"""What a search holds, in the words of panels: as text, as JSON, and as a picture."""

from __future__ import annotations

import json
import os
from typing import Any, Iterable, NamedTuple, Sequence

from .panel import Panel, amount, shown
from .picture import Side, picture
from .result import Edge, Obstacle, Result
from ._search import Search

MAX_REASONS = 4


class Spent(NamedTuple):
    """What a run took: its seconds, the steps of the runs before it, and the file, if any."""

    seconds: float
    steps_before: int
    file: str | None


class Reason(NamedTuple):
    """Why a part cannot stay as a new part (as any, if None): the library's number, and a text."""

    new: str | None
    number: int
    text: str

    def __str__(self) -> str:
        return self.text if self.new is None else f"as {shown(self.new)}: {self.text}"


class Answer:
    """What a search holds, in words: which parts and wires stay, and why others do not."""

    def __init__(self, old: Panel, new: Panel, search: Search, spent: Spent) -> None:
        self.old = old
        self.new = new
        self.search = search
        self.spent = spent
        self.result: Result = search.result()

    def text(self, drawn: str | None) -> str:
        """The answer as plain text."""
        lines: list[str] = []
        if self.tells_parts:
            lines += self._part_sections() + self._wire_sections()
        lines += self._verdict()
        if drawn is not None:
            lines.append(f"picture: {drawn}")
        return "".join(f"{line}\n" for line in lines)

    def json(self, drawn: str | None) -> str:
        """The answer as one JSON object."""
        told = self.tells_parts
        answer = {
            "format": "golfcedar match 1",
            "state": "done" if self.result.final else "stopped",
            "final": self.result.final,
            "size": self.result.size,
            "ceiling": self.result.ceiling,
            "steps": self.result.steps,
            "seconds": round(self.spent.seconds, 3),
            "minimum": self.search.minimum,
            "connected": self.search.connected,
            "descend": self.search.descend,
            "keep": [{"old": a, "new": b, "old_kind": self.old.kind(a),
                      "new_kind": self.new.kind(b)} for a, b in self.result.kept_vertices],
            "remove": [{"old": name, "kind": self.old.kind(name),
                        "why": [reason._asdict() for reason in self.why(name)]}
                       for name in self.result.removed_vertices] if told else None,
            "fit": [{"new": name, "kind": self.new.kind(name)}
                    for name in self.result.new_vertices] if told else None,
            "wires": self._json_wires() if told else None,
            "proved": self.proved(),
            "picture": drawn,
        }
        return json.dumps(answer, indent=2) + "\n"

    def picture(self) -> str:
        """The list as an SVG document."""
        pairs = [(self.old.graph.number(a), self.new.graph.number(b))
                 for a, b in self.result.kept_vertices]
        proved = self.proved()
        title = f"{len(pairs)} of {amount(len(self.old.graph), 'part')} stay"
        title += f"; {proved}" if proved else f"; {self._unknown()}"
        return picture(_side(self.old), _side(self.new), pairs, title=title)

    def proved(self) -> str | None:
        """What is proved of all lists, if the answer is final."""
        if not self.result.final:
            return None
        if self.result.size is None:
            return f"no {self._lists} keeps {self.search.minimum} or more parts"
        return f"no {self._lists} keeps more" + ("" if self.search.connected else " parts")

    @property
    def tells_parts(self) -> bool:
        """Whether it is known what becomes of each part: by a list, or since no part may stay."""
        none_stays = self.result.final and self.search.minimum <= 1
        return self.result.size is not None or none_stays

    def why(self, name: str) -> list[Reason]:
        """What is against each new part that a removed part could serve as."""
        obstacles = self.result.obstacles(name)
        if not obstacles:
            nor = ", nor of a substitute" if self.result.problem.substitutes else ""
            return [Reason(None, 21, f"no new part of its kind{nor}")]
        # What is against a new part that is free tells more than that another one is taken.
        obstacles.sort(key=lambda obstacle: obstacle.number == 20)
        return [Reason(obstacle.new, obstacle.number, self._against(name, obstacle))
                for obstacle in obstacles]

    @property
    def _lists(self) -> str:
        return "list whose parts hang together" if self.search.connected else "list"

    def _part_sections(self) -> list[str]:
        kept = self.result.kept_vertices
        lines = [f"keep ({len(kept)} of {amount(len(self.old.graph), 'part')})"]
        lines += _table([self._kept_row(a, b) for a, b in kept])
        removed = self.result.removed_vertices
        lines.append(f"remove ({len(removed)})")
        rows = _table([(shown(name), shown(self.old.kind(name))) for name in removed])
        indent = " " * (2 + max((len(shown(name)) for name in removed), default=0) + 3)
        for name, row in zip(removed, rows):
            lines.append(row)
            lines += [indent + reason for reason in _shortened(map(str, self.why(name)))]
        if not removed:
            lines += rows
        fit = self.result.new_vertices
        lines.append(f"fit ({len(fit)})")
        return lines + _table([(shown(name), shown(self.new.kind(name))) for name in fit])

    def _kept_row(self, a: str, b: str) -> tuple[str, str, str]:
        kind, new_kind = self.old.kind(a), self.new.kind(b)
        other = "" if kind == new_kind else f", {shown(new_kind)}"
        return shown(a), shown(kind), f"as {shown(b)}{other}"

    def _wire_sections(self) -> list[str]:
        result = self.result
        kept = [(*_wire_row(edge), _partner(edge, new)) for edge, new in result.kept_edges]
        return [
            f"wires to keep ({len(kept)})", *_table(kept),
            f"wires to take out ({len(result.removed_edges)})",
            *_table([_wire_row(edge) for edge in result.removed_edges]),
            f"wires to run anew ({len(result.new_edges)})",
            *_table([_wire_row(edge) for edge in result.new_edges]),
        ]

    def _json_wires(self) -> dict[str, list[dict[str, Any]]]:
        return {
            "keep": [{"old": [old.a, old.b], "new": [new.a, new.b], "kind": old.label}
                     for old, new in self.result.kept_edges],
            "take_out": [{"old": [edge.a, edge.b], "kind": edge.label}
                         for edge in self.result.removed_edges],
            "run_anew": [{"new": [edge.a, edge.b], "kind": edge.label}
                         for edge in self.result.new_edges],
        }

    def _against(self, name: str, obstacle: Obstacle) -> str:
        if obstacle.number == 0:
            loose = self.search.connected and not self._touches(name)
            return ("would not hang together with the rest" if loose
                    else "nothing is against it so far")
        if obstacle.number == 20:
            return f"serves {shown(obstacle.with_old)} already"
        if obstacle.number == 22:
            return difference(self.old, self.new, (name, obstacle.with_old),
                               (obstacle.new, obstacle.with_new))
        return obstacle.reason

    def _touches(self, name: str) -> bool:
        """Whether a wire runs from this part to one that stays, or none stays."""
        kept = self.result.mapping
        return not kept or any(self.old.wire(name, other) is not None for other in kept)

    def _verdict(self) -> list[str]:
        proved = self.proved()
        steps = amount(self.result.steps, "step")
        if self.spent.steps_before:
            steps += f", {self.result.steps - self.spent.steps_before:,} of them in this run"
        time_line = f"{steps}, {self.spent.seconds:.1f} s"
        if proved:
            return [f"proved: {proved}", time_line]
        return [self._open(), self._go_on(), time_line]

    def _open(self) -> str:
        if self.result.size is None:
            return f"no list yet; {self._unknown()}"
        stay = amount(self.result.size, "part") + (" stays" if self.result.size == 1 else " stay")
        return f"open: {stay} in this list; {self._unknown()}"

    def _unknown(self) -> str:
        size, most = self.result.size, most_kept(self.search)
        least = self.search.minimum if size is None else size + 1
        if least > most:
            return f"no {self._lists} keeps more than {amount(most, 'part')}"
        between = {0: f"{least}", 1: f"{least} or {most}"}.get(most - least, f"{least} to {most}")
        if size is None:
            return (f"whether a {self._lists} keeps {between} parts is not known yet,"
                    " none keeps more")
        return f"whether a {self._lists} keeps {between} is not known yet"

    def _go_on(self) -> str:
        sooner = ""
        if self.result.size is None and self.search.descend:
            sooner = "; to have a list before the end, start anew with --plain"
        if self.spent.file is not None:
            return f"go on: the same command{sooner}"
        return f"go on: this run is not saved; with --resume FILE it would be{sooner}"


def _side(panel: Panel) -> Side:
    graph = panel.graph
    return Side(os.path.basename(panel.file), list(zip(graph.names, graph.labels)), graph.edges)


def _table(rows: Sequence[Sequence[str]]) -> list[str]:
    """Rows of words in columns, or the word none."""
    if not rows:
        return ["  none"]
    widths = [max(map(len, column)) for column in zip(*rows)]
    return [("  " + "   ".join(word.ljust(width) for word, width in zip(row, widths))).rstrip()
            for row in rows]


def _wire_row(edge: Edge) -> tuple[str, str]:
    return f"{shown(edge.a)} - {shown(edge.b)}", shown(edge.label)


def _partner(old: Edge, new: Edge) -> str:
    return "" if old == new else f"(as {shown(new.a)} - {shown(new.b)})"


def _shortened(all_reasons: Iterable[str]) -> list[str]:
    reasons = list(all_reasons)
    more = len(reasons) - MAX_REASONS
    return reasons[:MAX_REASONS] + ([f"and {more} more"] if more > 0 else [])


def difference(old: Panel, new: Panel, old_ends: tuple[str, str],
                new_ends: tuple[str, str]) -> str:
    """How the wire between two old parts differs from that between two new ones."""
    return (f"old: {_wire_between(old, *old_ends)};"
            f" new: {_wire_between(new, *new_ends)}")


def _wire_between(panel: Panel, a: str, b: str) -> str:
    kind = panel.wire(a, b)
    wire = "no wire" if kind is None else f"a wire {shown(kind)}"
    if a == b:
        return f"{wire} of {shown(a)} with itself"
    return f"{wire} between {shown(a)} and {shown(b)}"


def most_kept(search: Search) -> int:
    """No list keeps more parts. (Above a minimum that no panel reaches, the ceiling says less.)"""
    return min(search.ceiling - 1, len(search.problem.old), len(search.problem.new))
