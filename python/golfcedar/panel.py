"""Panels, substitutes and lists as text files: one thing a line, errors with the line to mend.

    part K1 contactor          # name, kind
    wire K1 M1 power           # two names, kind
"""

from __future__ import annotations

import difflib
import re
import unicodedata
from typing import Iterable, Iterator, NamedTuple, Sequence

from .errors import GolfcedarError, Refused
from .graph import Graph

MAX_PARTS = 64
MAX_WIRE_KINDS = 255
MAX_SUBSTITUTES = 256
MAX_ERRORS = 20
# Far above any panel: 64 parts and 2,080 wires. A wrong file is not read into memory whole.
MAX_FILE_BYTES = 1 << 20

_FORMS = {"part": "part NAME KIND", "wire": "wire NAME NAME KIND"}
_OTHER_QUOTES = "'\u2018\u2019\u201a\u201c\u201d\u201e\u00ab\u00bb"
_WORD = re.compile(r'"([^"]*)"|([^ \t"#]+)')
_BLANKS = re.compile(r"[ \t]*")


class PanelError(GolfcedarError):
    """What is to be mended in a file; `others` are further errors that go with it."""

    def __init__(self, file: str, line: int | None, what: str,
                 others: Sequence[PanelError] = ()) -> None:
        place = file if line is None else f"{file}:{line}"
        super().__init__(f"{place}: {what}")
        self.file = file
        self.line = line
        self.what = what
        self.others = tuple(others)

    def every(self) -> list[PanelError]:
        """This error and the others."""
        return [self, *self.others]

    @classmethod
    def together(cls, errors: Sequence[PanelError]) -> PanelError:
        """Several errors as one to raise."""
        first, *others = errors
        return cls(first.file, first.line, first.what, others)


class Panel:
    """A panel that was read: the file's bytes, and its graph, with names and kinds as words.

    `wire_kinds` has the first line of each kind of wire.
    """

    def __init__(self, file: str, data: bytes, graph: Graph, wire_kinds: dict[str, int],
                 notes: Sequence[str], is_text: bool) -> None:
        self.file = file
        self.data = data
        self.graph = graph
        self.wire_kinds = wire_kinds
        self.notes = tuple(notes)
        self.is_text = is_text

    def kind(self, name: str) -> str:
        """The kind of a part."""
        return self.graph.labels[self.graph.number(name)]

    def wire(self, a: str, b: str) -> str | None:
        """The kind of the wire between two parts, or None."""
        return self.graph.edge_label(self.graph.number(a), self.graph.number(b))


class Pairs(NamedTuple):
    """The pairs of words of a file, each with its line, in the order of the file."""

    file: str
    data: bytes
    lines: dict[tuple[str, str], int]
    notes: tuple[str, ...]

    @property
    def pairs(self) -> tuple[tuple[str, str], ...]:
        """The pairs alone."""
        return tuple(self.lines)


def shown(word: str) -> str:
    """A word as a file has it: in quotes if it has blanks."""
    return f'"{word}"' if " " in word or "#" in word else word


def amount(number: int, word: str) -> str:
    """A number of things: 1 part, 2 parts."""
    return f"{number:,} {word}{'' if number == 1 else 's'}"


def read_panel(file: str) -> Panel:
    """Reads a panel, text or graph bytes; PanelError says what is to be mended."""
    data = _read(file)
    # The commands of graph bytes are numbers below 9, where no text begins.
    if data and data[0] < 9:
        return _bytes_panel(file, data)
    return _text_panel(_Reader(file, data))


def check_pair(old: Panel, new: Panel) -> None:
    """Raises PanelError unless the two panels can be compared with each other."""
    if old.is_text != new.is_text:
        text, other = (old, new) if old.is_text else (new, old)
        raise PanelError(other.file, None, f"a graph file of bytes, but {text.file} is a text"
                         " panel: kinds are numbers in the one and words in the other;"
                         " give two text panels or two graph files")
    fresh = [kind for kind in new.wire_kinds if kind not in old.wire_kinds]
    room = MAX_WIRE_KINDS - len(old.wire_kinds)
    if len(fresh) > room:
        kind = fresh[room]
        raise PanelError(new.file, new.wire_kinds[kind], f"kind {shown(kind)}: {_TOO_MANY_KINDS},"
                         f" those of {old.file} counted")


def read_substitutes(file: str, old: Panel, new: Panel) -> Pairs:
    """Reads which new kinds may stand in for which old kinds."""
    reader = _Reader(file, _read(file))
    lines = _pairs(reader, "an old kind and a new kind", "contactor-24 contactor-24e")
    if len(lines) > MAX_SUBSTITUTES:
        reader.mend(list(lines.values())[MAX_SUBSTITUTES],
                    f"a {MAX_SUBSTITUTES + 1}th pair: there are at most {MAX_SUBSTITUTES}")
    reader.finish()
    for (first, second), line in lines.items():
        _note_kind(reader, line, "old", old, first)
        _note_kind(reader, line, "new", new, second)
    return Pairs(file, reader.data, lines, tuple(reader.notes))


def read_list(file: str, old: Panel, new: Panel) -> Pairs:
    """Reads a list by hand: an old part and the new part that it serves as, on each line."""
    reader = _Reader(file, _read(file))
    lines = _pairs(reader, "an old part and a new part", "K1 Q1")
    first_lines: dict[str, int] = {}
    for (first, second), line in lines.items():
        _expect(reader, line, first, old.graph.names, f"{old.file} has no part")
        _expect(reader, line, second, new.graph.names, f"{new.file} has no part")
        if first in first_lines:
            reader.mend(line, f"part {shown(first)} stands on line {first_lines[first]} already")
        first_lines.setdefault(first, line)
    reader.finish()
    return Pairs(file, reader.data, lines, tuple(reader.notes))


def near_kinds(old: Panel, new: Panel, substitutes: Iterable[tuple[str, str]]) -> list[str]:
    """Notes on kinds of one panel alone that may be another spelling of one of the other's.

    A kind that is written in two ways gives a shorter list, and nothing else shows it.
    """
    listed = set(substitutes)
    notes = []
    for what, here, there in (
        ("part", old.graph.labels, new.graph.labels),
        ("wire", old.wire_kinds, new.wire_kinds),
    ):
        for kind in dict.fromkeys(each for each in here if each not in there):
            for other in dict.fromkeys(each for each in there if each not in here):
                if (kind, other) not in listed and _nearly_equal(kind, other):
                    notes.append(f"note: {what}s of kind {shown(kind)} are only in {old.file}, of"
                                 f" {shown(other)} only in {new.file}; if they are of one kind,"
                                 f" write it in one way{_or_substitute(what)}")
    return notes


def _or_substitute(what: str) -> str:
    return ", or name the two in the file of substitutes" if what == "part" else ""


def _nearly_equal(one: str, other: str) -> bool:
    """Whether two words differ in capitals, signs, order around a +, or a letter or two."""
    plain, other_plain = _plain(one), _plain(other)
    digits = [[sign for sign in word if sign.isdigit()] for word in (plain, other_plain)]
    # Numbers tell kinds apart: a fuse of 6 A is none of 16 A.
    return digits[0] == digits[1] and difflib.SequenceMatcher(
        None, plain, other_plain, autojunk=False).ratio() > 0.8


def _plain(word: str) -> str:
    parts = sorted(word.casefold().split("+"))
    return "".join(sign for part in parts for sign in part if sign.isalnum())


_TOO_MANY_KINDS = (f"a {MAX_WIRE_KINDS + 1}th kind of wire; two panels together have at most"
                   f" {MAX_WIRE_KINDS}")


def _read(file: str) -> bytes:
    try:
        with open(file, "rb") as stream:
            data = stream.read(MAX_FILE_BYTES + 1)
    except (OSError, ValueError) as error:
        raise PanelError(file, None, getattr(error, "strerror", None) or str(error)) from None
    if len(data) > MAX_FILE_BYTES:
        raise PanelError(file, None, f"more than {MAX_FILE_BYTES:,} bytes: this is no panel")
    return data


class _Reader:
    """The lines of a text file as words; gathers errors and notes."""

    def __init__(self, file: str, data: bytes) -> None:
        self.file = file
        self.errors: list[PanelError] = []
        self.notes: list[str] = []
        # The words before the fault of a line that cannot be read to its end.
        self.partial: list[list[str]] = []
        self.data = data

    def __iter__(self) -> Iterator[tuple[int, list[str]]]:
        """Every line that has words, with its number; faulty ones are noted and left out."""
        if self.data.startswith((b"\xff\xfe", b"\xfe\xff")):
            self.mend(1, f"{_NOT_UTF8} (it looks like UTF-16)")
            return
        if b"\n" not in self.data and b"\r" in self.data:
            self.mend(1, "the lines end in carriage returns alone: save the file with other line"
                      " ends")
            return
        lines = self.data.removeprefix(b"\xef\xbb\xbf").split(b"\n")
        for number, raw in enumerate(lines, start=1):
            raw = raw[:-1] if raw.endswith(b"\r") else raw
            words, fault, glued = _split(raw)
            if fault:
                self.mend(number, fault)
                self.partial.append(words)
            elif words:
                if glued:
                    self.note(number, "the # right after a word begins a comment;"
                              " if it belongs to the word, put quotes around the word")
                yield number, words

    def mend(self, line: int, what: str) -> None:
        """Notes an error."""
        self.errors.append(PanelError(self.file, line, what))

    def note(self, line: int | None, what: str) -> None:
        """Notes what is worth a look, and no error."""
        place = self.file if line is None else f"{self.file}:{line}"
        self.notes.append(f"{place}: note: {what}")

    def finish(self) -> None:
        """Raises the errors, if there are any."""
        if not self.errors:
            return
        self.errors.sort(key=lambda error: error.line or 0)
        told = self.errors[:MAX_ERRORS]
        more = len(self.errors) - len(told)
        if more:
            told.append(PanelError(self.file, None, f"and {more} more"))
        raise PanelError.together(told)


_NOT_UTF8 = "not UTF-8: save the file as text in UTF-8"


def _split(raw: bytes) -> tuple[list[str], str | None, bool]:
    """A line's words; what is wrong with the line; whether a comment touches a word."""
    fault = None
    try:
        line = raw.decode("utf-8")
    except UnicodeDecodeError:
        line, fault = raw.decode("utf-8", "replace"), _NOT_UTF8
    # Two spellings of one letter look the same, so they count as the same.
    line = unicodedata.normalize("NFC", line)
    words: list[str] = []
    place = 0
    while True:
        start = _BLANKS.match(line, place).end()
        if start == len(line) or line[start] == "#":
            return words, fault, start == place and 0 < start < len(line)
        found = _WORD.match(line, start)
        if found is None:
            return words, fault or 'a quote (") that is not closed', False
        place = found.end()
        word = found.group(1) if found.group(2) is None else found.group(2)
        fault = fault or _word_fault(word, line[place:place + 1])
        words.append(word)


def _word_fault(word: str, following: str) -> str | None:
    """What is wrong with a word that is followed by a character or by the line's end."""
    if word.strip(" ") == "":
        return "an empty word"
    if word.strip(" ") != word:
        return f'"{word}": a blank at the beginning or end of a word'
    if following not in ("", " ", "\t", "#"):
        return f"a quote inside a word, at {word}: quotes stand around a whole word"
    for sign in word:
        if sign != " " and unicodedata.category(sign) in ("Cc", "Cf", "Zs", "Zl", "Zp"):
            return (f"a character that cannot be seen (U+{ord(sign):04X}) in a word:"
                    " type it anew, with plain blanks")
    return None


def _bytes_panel(file: str, data: bytes) -> Panel:
    try:
        graph = Graph.from_bytes(data)
    except Refused as refusal:
        raise PanelError(file, None, refusal_at_byte(refusal)) from None
    names = [str(name) for name in graph.names]
    parts = zip(names, map(str, graph.labels))
    wires = [(names[i], names[j], str(label)) for i, j, label in graph.edges]
    kinds = {kind: 0 for _, _, kind in wires}
    return Panel(file, data, Graph(parts, wires), kinds, _empty_note(file, len(names)), False)


def refusal_at_byte(refusal: Refused) -> str:
    """A refusal of graph bytes in words."""
    return f"byte {refusal.value}: {refusal.reason} (refusal {refusal.number})"


def _empty_note(file: str, parts: int) -> list[str]:
    return [] if parts else [f"{file}: note: a panel without parts"]


def _text_panel(reader: _Reader) -> Panel:
    parts: dict[str, str] = {}
    lines: dict[str, int] = {}
    wire_lines: list[tuple[int, list[str]]] = []
    known: set[str] = set()
    for line, words in reader:
        if words[0] not in _FORMS:
            reader.mend(line, f"{shown(words[0])}: a line begins with part or wire")
            known.update(words[1:2])
        elif words[0] == "wire":
            wire_lines.append((line, words))
        elif _well_formed(reader, line, words):
            _add_part(reader, line, words, parts, lines)
        else:
            known.update(words[1:2])
    # A part whose line is faulty is to be mended there, and not at each of its wires.
    known.update(words[1] for words in reader.partial if len(words) > 1)
    wires, kinds = _wires(reader, wire_lines, lines, known)
    reader.finish()
    notes = reader.notes + _empty_note(reader.file, len(parts))
    return Panel(reader.file, reader.data, Graph(parts, wires), kinds, notes, True)


def _well_formed(reader: _Reader, line: int, words: list[str]) -> bool:
    """Whether a line has as many words as its first one asks for; else notes the error."""
    form = _FORMS[words[0]]
    wanted = len(form.split())
    if len(words) < wanted:
        reader.mend(line, f"too few words: {form}")
    elif len(words) > wanted:
        straight = "straight " if any(word[0] in _OTHER_QUOTES for word in words) else ""
        reader.mend(line, f'too many words: {form}; put {straight}quotes around a word that has'
                    ' blanks, as in "main switch"')
    return len(words) == wanted


def _add_part(reader: _Reader, line: int, words: list[str], parts: dict[str, str],
              lines: dict[str, int]) -> None:
    _, name, kind = words
    if name in parts:
        reader.mend(line, f"part {shown(name)} is given on line {lines[name]} already")
        return
    parts[name] = kind
    lines[name] = line
    if len(parts) == MAX_PARTS + 1:
        reader.mend(line, f"a {MAX_PARTS + 1}th part: a panel has at most {MAX_PARTS}")


def _wires(reader: _Reader, wire_lines: Iterable[tuple[int, list[str]]], parts: dict[str, int],
           known: set[str]) -> tuple[list[tuple[str, str, str]], dict[str, int]]:
    """The wires, and every kind of wire with the first line that has it."""
    wires: list[tuple[str, str, str]] = []
    kinds: dict[str, int] = {}
    first_lines: dict[frozenset[str], int] = {}
    for line, words in wire_lines:
        if not _well_formed(reader, line, words):
            continue
        _, a, b, kind = words
        for name in dict.fromkeys((a, b)):
            if name not in known:
                _expect(reader, line, name, parts, "no line gives part")
        ends = frozenset((a, b))
        if ends in first_lines:
            reader.mend(line, f"a second wire between {shown(a)} and {shown(b)}, after line"
                        f" {first_lines[ends]}; two parts have one wire:"
                        " join the kinds into one word, such as power+control")
            continue
        first_lines[ends] = line
        wires.append((a, b, kind))
        if kind not in kinds and len(kinds) == MAX_WIRE_KINDS:
            reader.mend(line, f"kind {shown(kind)}: {_TOO_MANY_KINDS}")
        kinds.setdefault(kind, line)
    return wires, kinds


def _pairs(reader: _Reader, what: str, example: str) -> dict[tuple[str, str], int]:
    """The lines of two words, each pair with its line."""
    lines: dict[tuple[str, str], int] = {}
    for line, words in reader:
        if len(words) < 2:
            reader.mend(line, f"too few words: a line has {what}, as in: {example}")
        elif len(words) > 2:
            reader.mend(line, f"too many words: a line has {what}, as in: {example};"
                        " put quotes around a word that has blanks")
        elif (pair := (words[0], words[1])) in lines:
            reader.mend(line, f"this pair stands on line {lines[pair]} already")
        else:
            lines[pair] = line
    return lines


def _expect(reader: _Reader, line: int, name: str, names: Iterable[str], what: str) -> None:
    names = list(names)
    if name not in names:
        reader.mend(line, f"{what} {shown(name)}{_close(name, names)}")


def _note_kind(reader: _Reader, line: int, side: str, panel: Panel, kind: str) -> None:
    kinds = list(dict.fromkeys(panel.graph.labels))
    if kind not in kinds:
        what = f"no part of the {side} panel has kind {shown(kind)}"
        reader.note(line, what + _close(kind, kinds))


def _close(word: str, words: list[str]) -> str:
    """A question that names words which are close to a wrong one, or nothing."""
    folded = {each.casefold(): each for each in words}
    near = difflib.get_close_matches(word.casefold(), folded, n=3)
    return f"; did you mean {' or '.join(shown(folded[each]) for each in near)}?" if near else ""
