"""The picture of a refit: which parts and wires of an old panel stay in the new one.

Both panels stand side by side as columns of boxes. A part that stays has its partner in the same
row; below these rows come the parts that are taken out, on the left, and the new ones, on the
right. Wires run in lanes on the outer side of their column, as in a wiring diagram. Every wire
has a place of its own at both its parts, and there its kind and the part at its other end.
"""

import unicodedata
from html import escape
from typing import Iterable, NamedTuple, Sequence

__all__ = ["Side", "picture"]


class Side(NamedTuple):
    """One panel: its title, its parts (name, kind), its wires (two part numbers, from 0, and a
    kind)."""

    title: str
    parts: Sequence[tuple[str, str]]
    wires: Sequence[tuple[int, int, str]]


class _Look(NamedTuple):
    """How parts and wires of one state are drawn, and the word for the state."""

    word: str
    colour: str
    fill: str
    stroke: str
    mark: str


# Grey, orange and blue stay apart for every kind of colour blindness; in black and white the
# thin, the dashed and the thick strokes do, and the marks in the boxes.
_LOOKS = {
    "kept": _Look("stays", "#454545", "#f2f2f2", 'stroke-width="1.3"', ""),
    "removed": _Look(
        "taken out",
        "#b84a00",
        "#fff1e4",
        'stroke-width="1.5" stroke-dasharray="5 3"',
        "m-4 -4l8 8m0 -8l-8 8",
    ),
    "new": _Look("new", "#0059b3", "#e8f2ff", 'stroke-width="2.4"', "m-4.5 0h9m-4.5 -4.5v9"),
}

_SUBSTITUTE = "substitute"

# Sizes of text.
_TITLE, _PANEL_TITLE, _NAME, _KIND, _LABEL = 18, 16, 13, 12, 11

# The widest that texts may be before they are shortened.
_NAME_ROOM, _BOX_ROOM, _LABEL_ROOM = 240, 420, 190

_MARGIN = 24
_TITLE_LINE = 36
_LEGEND_LINE = 24
_HEADING = 30

# Boxes: the space between the columns and between rows, and what is around the texts.
_CENTRE = 116
_ROW_GAP = 8
_BOX_LEAST = 26
_BOX_PADDING = 4
_INSET, _MARK, _BETWEEN = 9, 16, 16

# Wires: from a box come a stub, a gap, the label, a gap, and the line to the lane.
_PITCH = 14
_STUB, _GAP, _LOOP, _RUN = 8, 4, 8, 18
_LANE = 7
_CORNER = 4

# A panel without wires still needs room for its title.
_PANEL_LEAST = 300

# The classes of invisible characters that turn the direction of the text after them.
_TURNS = ("LRE", "RLE", "LRO", "RLO", "PDF", "LRI", "RLI", "FSI", "PDI")


def picture(
    old: Side, new: Side, pairs: Sequence[tuple[int, int]], *, title: str = ""
) -> str:
    """An SVG document that shows both panels, what stays, what is taken out and what is new.

    `pairs` has the parts that stay: the number of the old part and of the new part it serves as.
    A wire stays if both its parts do and their partners have a wire of the same kind. The text
    has no XML declaration, so it can also stand within HTML; written to a file it is UTF-8.
    """
    title, old, new = _clean(title), _clean_side(old), _clean_side(new)
    rows = _rows(old, new, sorted(pairs))
    left = _Panel(old, new, rows, "removed", -1)
    right = _Panel(new, old, [(there, here) for here, there in rows], "new", 1)

    headings = _MARGIN + (_TITLE_LINE if title else 0) + len(_LOOKS) * _LEGEND_LINE + 56
    height = _stack(left, right, headings + 24) + _MARGIN
    left.route()
    right.route()
    left.edge = _MARGIN + left.outer_width
    right.edge = left.edge + left.box_width + _CENTRE + right.box_width
    width = right.edge + right.outer_width + _MARGIN

    lines = [
        f'<svg xmlns="http://www.w3.org/2000/svg" class="golfcedar" width="{width}" '
        f'height="{height}" viewBox="0 0 {width} {height}" font-family="sans-serif">',
        f"<title>{_text(title or f'{old.title} – {new.title}')}</title>",
        "<style>.golfcedar .wire:hover path{stroke-width:4px}</style>",
        f'<rect width="{width}" height="{height}" fill="#ffffff"/>',
        *_draw_header(title, left, right, width),
        *left.draw_headings(headings),
        *right.draw_headings(headings),
        *_draw_partners(left, right),
        *left.draw_wires(),
        *right.draw_wires(),
        *left.draw_parts(),
        *right.draw_parts(),
        "</svg>",
    ]
    return "\n".join(lines) + "\n"


class _Box(NamedTuple):
    top: int
    height: int

    @property
    def middle(self) -> int:
        return self.top + self.height // 2


class _Label(NamedTuple):
    """What stands at one end of a wire: the kind of the wire and the part at its other end."""

    kind: str
    other: str

    @property
    def width(self) -> int:
        return _width(self.kind + " ", _LABEL) + _width(self.other, _LABEL, bold=True)


class _Panel:
    """One column of boxes, with its wires on the side `way` of it (-1 left, 1 right).

    `rows` has the parts that stay, each with its partner, from the top down; `own_state` is the
    state of the other parts and wires.
    """

    def __init__(
        self, side: Side, other: Side, rows: list[tuple[int, int]], own_state: str, way: int
    ) -> None:
        self.side = side
        self.other = other
        self.partner = dict(rows)
        self.own_state = own_state
        self.way = way
        self.kept = [here for here, _ in rows]
        self.own = _order_below(side, self.kept)
        self.states = [
            "kept" if part in self.partner else own_state for part in range(len(side.parts))
        ]
        self.wire_states = self._find_wire_states()
        self.labels = [self._labels_of(*wire) for wire in side.wires]
        widest = max((label.width for both in self.labels for label in both), default=0)
        self.label_zone = _STUB + 2 * _GAP + widest + _RUN
        self.ends = self._ends_of_parts()
        self.text_room = self._find_text_room()
        self.box_width = 2 * _INSET + _MARK + self.text_room
        self.boxes: dict[int, _Box] = {}
        self.own_top = 0
        self.end_y: dict[tuple[int, int], int] = {}
        self.lanes: dict[int, int] = {}
        self.edge = 0

    def _find_wire_states(self) -> list[str]:
        across = {frozenset((a, b)): kind for a, b, kind in self.other.wires}
        states = []
        for a, b, kind in self.side.wires:
            there = frozenset((self.partner.get(a), self.partner.get(b)))
            states.append("kept" if across.get(there) == kind else self.own_state)
        return states

    def _labels_of(self, a: int, b: int, kind: str) -> tuple[_Label, _Label]:
        kind = _shorten(kind, _LABEL, _LABEL_ROOM)
        first, second = (
            _shorten(self.side.parts[part][0], _LABEL, _LABEL_ROOM, bold=True) for part in (a, b)
        )
        return _Label(kind, second), _Label(kind, first)

    def _ends_of_parts(self) -> dict[int, list[tuple[int, int]]]:
        """The wire ends (wire number, 0 or 1) at every part, from the top down."""
        rank = {part: row for row, part in enumerate(self.kept + self.own)}
        ends: dict[int, list[tuple[int, int]]] = {part: [] for part in rank}
        for number, (a, b, _) in enumerate(self.side.wires):
            ends[a].append((number, 0))
            ends[b].append((number, 1))

        # Wires that go up leave above those that go down, the farthest ones in between: so no
        # two wires of a part cross where they leave it.
        def place(end: tuple[int, int]) -> tuple[int, int]:
            wire = self.side.wires[end[0]]
            down = rank[wire[1 - end[1]]] - rank[wire[end[1]]]
            return (down > 0) - (down < 0), -down

        return {part: sorted(those, key=place) for part, those in ends.items()}

    def _find_text_room(self) -> int:
        needed = [
            min(_width(name, _NAME, bold=True), _NAME_ROOM) + _BETWEEN + _width(kind, _KIND)
            for name, kind in self.side.parts
        ]
        return min(max(needed, default=0), _BOX_ROOM)

    def height_of(self, part: int) -> int:
        """The least height of a part's box: every wire end needs a line."""
        return max(_BOX_LEAST, len(self.ends[part]) * _PITCH + _BOX_PADDING)

    def route(self) -> None:
        """Settles where each wire meets its boxes, and its lane."""
        for part, ends in self.ends.items():
            first = self.boxes[part].middle - (len(ends) - 1) * _PITCH // 2
            for place, end in enumerate(ends):
                self.end_y[end] = first + place * _PITCH
        spans = {}
        for number, (a, b, _) in enumerate(self.side.wires):
            if a != b:
                upper, lower = self._ends_downwards(number)
                spans[number] = self.end_y[number, upper], self.end_y[number, lower]
        self.lanes = _lanes(spans)

    @property
    def outer_width(self) -> int:
        """The room for wires beside the boxes."""
        lanes = max(self.lanes.values(), default=0)
        used = self.label_zone + lanes * _LANE if self.side.wires else 0
        return max(used, _PANEL_LEAST - self.box_width)

    @property
    def box_left(self) -> int:
        return self.edge if self.way < 0 else self.edge - self.box_width

    @property
    def inner_edge(self) -> int:
        """Where the boxes end towards the other panel; at `edge` the wires enter."""
        return self.edge - self.way * self.box_width

    def draw_headings(self, y: int) -> Iterable[str]:
        """The title of the panel at the height `y`, and the heading of its lower part."""
        room = self.box_width + self.outer_width
        anchor = "end" if self.way < 0 else "start"
        age = "old" if self.way < 0 else "new"
        parts = _count(len(self.side.parts), "part")
        wires = _count(len(self.side.wires), "wire")
        yield (
            f'<g class="heading" text-anchor="{anchor}"><title>{_text(self.side.title)}</title>'
            f'<text x="{self.inner_edge}" y="{y}" font-size="{_PANEL_TITLE}" font-weight="bold">'
            f"{_text(_shorten(self.side.title, _PANEL_TITLE, room, bold=True))}</text>"
            f'<text x="{self.inner_edge}" y="{y + 18}" font-size="{_KIND}" fill="#454545">'
            f"{age} panel: {parts}, {wires}</text></g>"
        )
        if self.own:
            yield _draw_heading(self.own_state, self.inner_edge, self.own_top, anchor)

    def draw_parts(self) -> Iterable[str]:
        for part in self.kept + self.own:
            name, kind = self.side.parts[part]
            name = _shorten(name, _NAME, _NAME_ROOM, bold=True)
            left_over = self.text_room - _BETWEEN - _width(name, _NAME, bold=True)
            kind = _shorten(kind, _KIND, left_over)
            state, box = self.states[part], self.boxes[part]
            start = self.box_left + _INSET + _MARK
            end = self.box_left + self.box_width - _INSET
            base = box.middle + 5
            yield (
                f'<g class="part {state}"><title>{_text(self._tell(part))}</title>'
                + _draw_box(state, self.box_left, box.top, self.box_width, box.height)
                + f'<text x="{start}" y="{base}" font-size="{_NAME}" font-weight="bold">'
                f'{_text(name)}</text><text x="{end}" y="{base}" font-size="{_KIND}" '
                f'text-anchor="end">{_text(kind)}</text></g>'
            )

    def _tell(self, part: int) -> str:
        told = "{} ({}): ".format(*self.side.parts[part]) + _LOOKS[self.states[part]].word
        if part not in self.partner:
            return told
        there = "{} ({})".format(*self.other.parts[self.partner[part]])
        return f"{told} as {there}" if self.way < 0 else f"{told}, was {there}"

    def draw_wires(self) -> Iterable[str]:
        # What changes is drawn over what stays.
        numbers = range(len(self.side.wires))
        for number in sorted(numbers, key=lambda n: self.wire_states[n] != "kept"):
            a, b, kind = self.side.wires[number]
            state = self.wire_states[number]
            look = _LOOKS[state]
            told = f"{kind}: {self.side.parts[a][0]} – {self.side.parts[b][0]}: {look.word}"
            yield (
                f'<g class="wire {state}"><title>{_text(told)}</title>'
                f'<path fill="none" stroke="{look.colour}" {look.stroke} '
                f'd="{self._path(number)}"/>{self._draw_labels(number)}</g>'
            )

    def _ends_downwards(self, number: int) -> tuple[int, int]:
        return (0, 1) if self.end_y[number, 0] < self.end_y[number, 1] else (1, 0)

    def _path(self, number: int) -> str:
        """The line of a wire, from its upper end to its lower one, with gaps for the labels."""
        upper, lower = self._ends_downwards(number)
        top, bottom = self.end_y[number, upper], self.end_y[number, lower]
        stub = self.edge + self.way * _STUB
        after_upper = stub + self.way * (2 * _GAP + self.labels[number][upper].width)
        if number in self.lanes:
            after_lower = stub + self.way * (2 * _GAP + self.labels[number][lower].width)
            turn = self.edge + self.way * (self.label_zone + self.lanes[number] * _LANE)
            back = f"H{after_lower}M{stub} {bottom}H{self.edge}"
        else:
            # A wire of a part with itself turns back beside its label.
            turn = after_upper + self.way * _LOOP
            back = f"H{self.edge}"
        before = turn - self.way * _CORNER
        return (
            f"M{self.edge} {top}H{stub}M{after_upper} {top}H{before}"
            f"Q{turn} {top} {turn} {top + _CORNER}V{bottom - _CORNER}"
            f"Q{turn} {bottom} {before} {bottom}{back}"
        )

    def _draw_labels(self, number: int) -> str:
        anchor = "end" if self.way < 0 else "start"
        x = self.edge + self.way * (_STUB + _GAP)
        colour = _LOOKS[self.wire_states[number]].colour
        drawn = ""
        for end in self._ends_downwards(number)[: 2 if number in self.lanes else 1]:
            label = self.labels[number][end]
            drawn += (
                f'<text x="{x}" y="{self.end_y[number, end] + 4}" font-size="{_LABEL}" '
                f'text-anchor="{anchor}" fill="{colour}">{_text(label.kind)} '
                f'<tspan font-weight="bold">{_text(label.other)}</tspan></text>'
            )
        return drawn


def _stack(left: _Panel, right: _Panel, top: int) -> int:
    """Gives every part its box, from `top` down, and returns where the last box ends."""
    bottom = top
    if left.kept:
        top += _HEADING
    for here, there in left.partner.items():
        box = _Box(top, max(left.height_of(here), right.height_of(there)))
        left.boxes[here] = right.boxes[there] = box
        bottom = box.top + box.height
        top = bottom + _ROW_GAP
    bottoms = [bottom]
    for panel in (left, right):
        panel.own_top = top
        below = top + _HEADING
        for part in panel.own:
            box = _Box(below, panel.height_of(part))
            panel.boxes[part] = box
            bottoms.append(box.top + box.height)
            below = bottoms[-1] + _ROW_GAP
    return max(bottoms)


def _draw_header(title: str, left: _Panel, right: _Panel, width: int) -> Iterable[str]:
    """The title, and a legend with the three states and their counts."""
    top = _MARGIN
    if title:
        shown = _shorten(title, _TITLE, width - 2 * _MARGIN, bold=True)
        yield (
            f'<text x="{_MARGIN}" y="{top + 14}" font-size="{_TITLE}" font-weight="bold">'
            f"{_text(shown)}</text>"
        )
        top += _TITLE_LINE
    substitutes = sum(_differ(left, right, *pair) for pair in left.partner.items())
    for state, look in _LOOKS.items():
        panel = right if state == "new" else left
        parts = _count(panel.states.count(state), "part")
        wires = _count(panel.wire_states.count(state), "wire")
        if state == "kept" and substitutes:
            parts += f" ({_count(substitutes, _SUBSTITUTE)})"
        yield (
            f'<g class="legend">{_draw_box(state, _MARGIN, top, 34, 18)}'
            f'<path stroke="{look.colour}" {look.stroke} d="M{_MARGIN + 44} {top + 9}h40"/>'
            f'<text x="{_MARGIN + 96}" y="{top + 14}" font-size="{_NAME}">'
            f'<tspan font-weight="bold" fill="{look.colour}">{look.word}</tspan>: '
            f"{parts}, {wires}</text></g>"
        )
        top += _LEGEND_LINE
    yield (
        f'<text x="{_MARGIN}" y="{top + 11}" font-size="{_KIND}" fill="#454545">'
        "At both ends of a wire: its kind and, in bold, the part at its other end.</text>"
    )


def _draw_partners(left: _Panel, right: _Panel) -> Iterable[str]:
    start, end = left.inner_edge, right.inner_edge
    centre = (start + end) // 2
    look = _LOOKS["kept"]
    if left.kept:
        top = left.boxes[left.kept[0]].top - _HEADING
        yield _draw_heading("kept", centre, top, "middle")
    for here, there in left.partner.items():
        y = left.boxes[here].middle
        path, word = f"M{start} {y}H{end}", ""
        if _differ(left, right, here, there):
            half = _width(_SUBSTITUTE, _LABEL) // 2 + _GAP
            path = f"M{start} {y}H{centre - half}M{centre + half} {y}H{end}"
            word = (
                f'<text x="{centre}" y="{y + 4}" font-size="{_LABEL}" text-anchor="middle" '
                f'fill="{look.colour}">{_SUBSTITUTE}</text>'
            )
        yield (
            f'<g class="partner"><path stroke="{look.colour}" {look.stroke} d="{path}"/>'
            f"{word}</g>"
        )


def _differ(left: _Panel, right: _Panel, here: int, there: int) -> bool:
    return left.side.parts[here][1] != right.side.parts[there][1]


def _draw_heading(state: str, x: int, top: int, anchor: str) -> str:
    look = _LOOKS[state]
    return (
        f'<text class="heading" x="{x}" y="{top + 20}" font-size="{_NAME}" font-weight="bold" '
        f'text-anchor="{anchor}" fill="{look.colour}">{look.word}</text>'
    )


def _draw_box(state: str, x: int, y: int, width: int, height: int) -> str:
    look = _LOOKS[state]
    drawn = (
        f'<rect x="{x}" y="{y}" width="{width}" height="{height}" rx="4" fill="{look.fill}" '
        f'stroke="{look.colour}" {look.stroke}/>'
    )
    if look.mark:
        drawn += (
            f'<path fill="none" stroke="{look.colour}" stroke-width="2" '
            f'd="M{x + _INSET + 4} {y + height // 2}{look.mark}"/>'
        )
    return drawn


def _rows(old: Side, new: Side, pairs: list[tuple[int, int]]) -> list[tuple[int, int]]:
    """The pairs in such an order that the wires on both sides are short."""
    links = _links(old, [here for here, _ in pairs]) + _links(new, [there for _, there in pairs])
    return [pairs[number] for number in _short_order(len(pairs), links)]


def _links(side: Side, parts: list[int]) -> list[tuple[int, int]]:
    """The wires as pairs of places among `parts`; len(parts) stands for every other part."""
    place = {part: number for number, part in enumerate(parts)}
    ends = [(place.get(a, len(parts)), place.get(b, len(parts))) for a, b, _ in side.wires]
    return [(a, b) for a, b in ends if a != b]


def _short_order(count: int, links: list[tuple[int, int]]) -> list[int]:
    """The numbers below `count` in an order that makes the links short; a link to `count` goes
    to what comes after the last one."""
    inside = [link for link in links if count not in link]
    return _settle(_breadth_first(count, inside), links)


def _breadth_first(count: int, links: list[tuple[int, int]]) -> list[int]:
    """The order of Cuthill and McKee of the numbers below `count`."""
    neighbours: list[set[int]] = [set() for _ in range(count)]
    for a, b in links:
        neighbours[a].add(b)
        neighbours[b].add(a)

    def few_first(number: int) -> tuple[int, int]:
        return len(neighbours[number]), number

    order: list[int] = []
    met: set[int] = set()
    for start in sorted(range(count), key=few_first):
        if start in met:
            continue
        met.add(start)
        queue = [start]
        for number in queue:
            further = sorted(neighbours[number] - met, key=few_first)
            met.update(further)
            queue.extend(further)
        order.extend(queue)
    return order


def _settle(order: list[int], links: list[tuple[int, int]]) -> list[int]:
    """Moves one number at a time to where the links are shortest, until none gets shorter."""
    moved = True
    while moved:
        moved = False
        for number in sorted(order):
            now = order.index(number)
            rest = order[:now] + order[now + 1 :]
            lengths = _lengths(number, rest, links)
            best = lengths.index(min(lengths))
            if lengths[best] < lengths[now]:
                order = rest[:best] + [number] + rest[best:]
                moved = True
    return order


def _lengths(number: int, rest: list[int], links: list[tuple[int, int]]) -> list[int]:
    """How much length of links each place among `rest` would give `number`: that of its own
    links, and one for each other link that it would stand between."""
    places = {other: place for place, other in enumerate(rest + [len(rest) + 1])}
    own = [places[b if a == number else a] for a, b in links if number in (a, b)]
    change = [0] * (len(rest) + 3)
    for a, b in links:
        if number not in (a, b):
            first, last = sorted((places[a], places[b]))
            change[first + 1] += 1
            change[last + 1] -= 1
    lengths = []
    between = 0
    for place in range(len(rest) + 1):
        between += change[place]
        lengths.append(between + sum(p - place + 1 if p >= place else place - p for p in own))
    return lengths


def _order_below(side: Side, kept: list[int]) -> list[int]:
    """The parts that are not kept, in the order of their column."""
    row = {part: number for number, part in enumerate(kept)}
    reach: dict[int, list[int]] = {}
    for a, b, _ in side.wires:
        for here, there in ((a, b), (b, a)):
            if there in row:
                reach.setdefault(here, []).append(row[there])

    # From the bottom up, those with the highest kept neighbours come first: so the wires from
    # above rather enclose than cross each other, where their length leaves a choice.
    def place(part: int) -> float:
        rows = reach.get(part, [-1])
        return sum(rows) / len(rows)

    own = sorted((part for part in range(len(side.parts)) if part not in row), key=place)
    order = _short_order(len(own), _links(side, own))
    return [own[number] for number in reversed(order)]


def _lanes(spans: dict[int, tuple[int, int]]) -> dict[int, int]:
    """A lane for every span, counted from the column outwards, short spans in the inner ones."""
    lanes: list[list[tuple[int, int]]] = []
    found = {}
    for number in sorted(spans, key=lambda n: (spans[n][1] - spans[n][0], spans[n])):
        top, bottom = spans[number]
        for lane, taken in enumerate(lanes):
            if all(bottom < other[0] or other[1] < top for other in taken):
                break
        else:
            lane, taken = len(lanes), []
            lanes.append(taken)
        taken.append((top, bottom))
        found[number] = lane
    return found


def _count(number: int, word: str) -> str:
    return f"{number} {word}" if number == 1 else f"{number} {word}s"


def _width(text: str, size: int, bold: bool = False) -> int:
    """About how wide a text is, rather too wide than too narrow: fonts differ."""
    return int(sum(map(_ems, text)) * size * (1.12 if bold else 1)) + 1


def _ems(character: str) -> float:
    if _joins(character):
        return 0
    if character == "\ufffd" or unicodedata.east_asian_width(character) in "WF":
        return 1.1
    if ord(character) > 0x24F:
        return 0.9
    if character in " ijlI|!.,:;'":
        return 0.36
    if character in "frt-()[]/":
        return 0.45
    if character in "mwMW@%":
        return 1.0
    return 0.78 if character.isupper() else 0.64


def _joins(character: str) -> bool:
    """Whether a character only changes the one before it."""
    return unicodedata.category(character) in ("Mn", "Me", "Cf")


def _shorten(text: str, size: int, room: int, bold: bool = False) -> str:
    if _width(text, size, bold) <= room:
        return text
    # Names often differ in their last letters only, so the middle is left out.
    letters = _letters(text)
    kept = len(letters) - 1
    while kept > 0 and _width(_without_middle(letters, kept), size, bold) > room:
        kept -= 1
    return _without_middle(letters, kept)


def _without_middle(letters: Sequence[str], kept: int) -> str:
    tail = kept // 2
    return "".join(letters[: kept - tail]) + "…" + "".join(letters[len(letters) - tail :])


def _letters(text: str) -> list[str]:
    """The characters of a text, each with those that only change it."""
    letters: list[str] = []
    for character in text:
        if letters and _joins(character):
            letters[-1] += character
        else:
            letters.append(character)
    return letters


def _text(text: str) -> str:
    return escape(text, quote=False)


def _clean_side(side: Side) -> Side:
    return Side(
        _clean(side.title),
        [(_clean(name), _clean(kind)) for name, kind in side.parts],
        [(a, b, _clean(kind)) for a, b, kind in side.wires],
    )


def _clean(text: str) -> str:
    return "".join(map(_clean_character, text))


def _clean_character(character: str) -> str:
    """The character, or what stands for it if XML forbids it or it would upset a line of text."""
    if character.isspace():
        return " "
    turns = unicodedata.bidirectional(character) in _TURNS
    forbidden = unicodedata.category(character) in ("Cc", "Cs") or character in "\ufffe\uffff"
    return "\ufffd" if turns or forbidden else character
