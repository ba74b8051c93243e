"""The command golfcedar: panels as text files in, an answer for technicians out."""

from __future__ import annotations

import argparse
import os
import signal
import sys
import threading
import time
import traceback
from types import FrameType
from typing import Any, Callable, NamedTuple, Sequence

from . import _files, _library
from .answer import Answer, Spent, difference, most_kept
from .errors import DamagedFile, GolfcedarError, MappingRefused, OtherQuestion, Refused
from .graph import Problem
from .panel import (MAX_PARTS, Pairs, Panel, PanelError, amount, check_pair, near_kinds, read_list,
                    read_panel, read_substitutes, refusal_at_byte, shown)
from ._search import Search

DONE, STOPPED, REFUSED = 0, 1, 2

SAVE_SECONDS = 30.0
PROGRESS_SECONDS = 0.2
PICTURE_BEGINS = b'class="golfcedar"'

_REFUSED = "  2  refused or not understood; the error text says what to mend"
_STATUS = f"exit status:\n  0  done\n{_REFUSED}"
_CHECK_STATUS = f"exit status:\n  0  no errors, and the list fits\n{_REFUSED}"
_MATCH_STATUS = f"""exit status:
  0  done: the answer is final
  1  stopped before the answer was final
{_REFUSED}"""

_FORMAT = """a panel is a text file with one thing a line:
  part K1 contactor       a part: its name and its kind
  wire K1 M1 power        a wire between two parts, and its kind
  # a comment
put quotes around a word that has blanks: part S1 "main switch\""""


class Outcome(NamedTuple):
    """What a subcommand ends with: the exit status, and the text for standard output."""

    status: int
    text: str


def main(argv: Sequence[str] | None = None) -> int:
    """Runs the command and returns its exit status."""
    try:
        arguments = _parser().parse_args(argv)
        outcome = arguments.run(arguments)
    except SystemExit as end:
        outcome = Outcome(int(end.code or 0), "")
    except PanelError as error:
        _tell(*error.every())
        outcome = Outcome(REFUSED, "")
    except GolfcedarError as error:
        _tell(f"golfcedar: {error}")
        outcome = Outcome(REFUSED, "")
    except KeyboardInterrupt:
        _tell("golfcedar: stopped")
        outcome = Outcome(STOPPED, "")
    except Exception:
        # A fault of this program must not have the status of a stopped search.
        _tell(traceback.format_exc().rstrip())
        outcome = Outcome(REFUSED, "")
    return _finish(outcome)


def _finish(outcome: Outcome) -> int:
    """Writes the text; an answer that got lost on its way has not the status of one.

    Where the reader went away before the end, as in a pipe to head, it had what it wanted.
    """
    if sys.stdout is None:
        return REFUSED if outcome.text else outcome.status
    encoding = getattr(sys.stdout, "encoding", None) or "utf-8"
    text = outcome.text.encode(encoding, "backslashreplace").decode(encoding)
    try:
        print(text, end="", flush=True)
    except BrokenPipeError:
        _drop_output()
    except OSError as error:
        _drop_output()
        _tell(f"golfcedar: standard output: {error.strerror}")
        return REFUSED
    return outcome.status


def _drop_output() -> None:
    # Python would try to write the rest at its end, and complain.
    os.dup2(os.open(os.devnull, os.O_WRONLY), sys.stdout.fileno())


def _tell(*lines: object) -> None:
    # With no standard error, print would take standard output.
    for line in lines if sys.stderr is not None else ():
        print(line, file=sys.stderr)


# The command line


class _Version(argparse.Action):
    """Asks the library for its version only if that is what is wanted."""

    def __call__(self, parser: argparse.ArgumentParser, *_: Any) -> None:
        print("golfcedar", ".".join(map(str, _library.version())))
        parser.exit()


def _whole(largest: int) -> Callable[[str], int]:
    def parse(word: str) -> int:
        number = _digits(word)
        if number is None or number > largest:
            raise argparse.ArgumentTypeError(f"{word!r} is no whole number from 0 to {largest:,}")
        return number
    return parse


def _digits(word: str) -> int | None:
    """The number that a word of digits stands for; more than 20 digits count as 2^64."""
    if not (word.isascii() and word.isdigit()):
        return None
    digits = word.lstrip("0") or "0"
    return int(digits) if len(digits) <= 20 else 2**64


def _seconds(word: str) -> float:
    try:
        seconds = float(word)
    except ValueError:
        seconds = -1.0
    if not 0 <= seconds < float("inf"):
        raise argparse.ArgumentTypeError(f"{word!r} is no number of seconds, such as 60 or 0.5")
    return seconds


def _parser() -> argparse.ArgumentParser:
    parser = argparse.ArgumentParser(
        prog="golfcedar", epilog=f"{_FORMAT}\n\n{_MATCH_STATUS}", allow_abbrev=False,
        formatter_class=argparse.RawDescriptionHelpFormatter,
        description="Compares an old panel with a new one, and says which parts and wires may"
        " stay.\nWhat it calls proved holds for every list that there is.")
    parser.add_argument("--version", action=_Version, nargs=0, help="show the version and end")
    commands = parser.add_subparsers(metavar="COMMAND", required=True)
    _add_match(commands)
    _add_check(commands)
    _add_limit(commands)
    _add_move(commands)
    return parser


def _add_command(commands: Any, name: str, run: Callable[[argparse.Namespace], Outcome],
                 summary: str, description: str, epilog: str = _STATUS) -> argparse.ArgumentParser:
    parser = commands.add_parser(name, help=summary, description=description, epilog=epilog,
                                 allow_abbrev=False,
                                 formatter_class=argparse.RawDescriptionHelpFormatter)
    parser.set_defaults(run=run, parser=parser)
    return parser


def _add_match(commands: Any) -> None:
    parser = _add_command(
        commands, "match", _match, "which parts and wires of an old panel may stay in a new one",
        "Says which parts of the panel OLD may stay, and as which parts of the panel NEW.\n"
        "A part may stay as a part of the same kind, or of a kind that may stand in for it.\n"
        "Between two parts that stay runs a wire of the same kind in both panels, or none in\n"
        "both. Of all lists of parts that may stay, the longest is given.",
        f"{_FORMAT}\n\n{_MATCH_STATUS}")
    parser.add_argument("old", metavar="OLD", help="the file of the old panel")
    parser.add_argument("new", metavar="NEW", help="the file of the new panel")
    parser.add_argument("--minimum", type=_whole(MAX_PARTS), default=1, metavar="N",
                        help="only lists that keep N parts or more are of interest (default: 1)")
    parser.add_argument("--connected", action="store_true",
                        help="the parts that stay are to hang together by wires among themselves")
    parser.add_argument("--substitutes", metavar="FILE",
                        help="which kinds may stand in for others: on each line an old kind and a"
                        " new kind that may replace it")
    way = parser.add_mutually_exclusive_group()
    way.add_argument("--plain", dest="descend", action="store_false",
                     help="search from short lists upwards; better if the panels have little in"
                     " common")
    way.add_argument("--descend", dest="descend", action="store_true", default=True,
                     help="search from the longest list downwards; better if the panels resemble"
                     " each other (default)")
    parser.add_argument("--steps", type=_whole(2**64 - 1), metavar="N",
                        help="stop after N steps of this run")
    parser.add_argument("--seconds", type=_seconds, metavar="S",
                        help="stop after about S seconds")
    parser.add_argument("--resume", metavar="FILE",
                        help="save the search in FILE, and go on from it if it is there; a search"
                        " of other panels or options is refused")
    parser.add_argument("--svg", metavar="FILE", help="draw the list as a picture")
    parser.add_argument("--json", action="store_true", help="give the answer as JSON")
    parser.add_argument("--quiet", action="store_true", help="no progress line")


def _add_check(commands: Any) -> None:
    parser = _add_command(
        commands, "check", _check, "whether panels are well written, or a list by hand fits",
        "Reads each PANEL, and counts its parts and wires or says what is to be mended.\n"
        "With --list, give two panels, the old one and the new one: a list made by hand is\n"
        "checked against them.", _CHECK_STATUS)
    parser.add_argument("panels", metavar="PANEL", nargs="+", help="the file of a panel")
    parser.add_argument("--list", metavar="FILE", dest="pairs",
                        help="a list by hand: on each line the name of an old part that stays, and"
                        " of the new part that it serves as")
    parser.add_argument("--substitutes", metavar="FILE",
                        help="with --list: which kinds may stand in for others")


def _add_limit(commands: Any) -> None:
    parser = _add_command(
        commands, "limit", _limit, "how many steps a search takes at most",
        "Says how many steps a search takes at most, from the numbers of parts alone. With\n"
        "`match --plain --steps` and this number, a search is sure to end. Most searches take\n"
        "far fewer, so a large number says nothing about how long a search takes. A search\n"
        "with --descend takes at most so many steps for each length of list that it tries.")
    for side in ("OLD", "NEW"):
        parser.add_argument(side.lower(), metavar=side,
                            help=f"the file of the {side.lower()} panel, or its number of parts")


def _add_move(commands: Any) -> None:
    parser = _add_command(
        commands, "move", _move, "a graph file of edition 1 to edition 2, or back",
        "Reads the graph file FROM, of edition 1, and writes the same graph to TO in edition\n"
        "2. A file that exists is never overwritten.")
    parser.add_argument("source", metavar="FROM", help="the graph file to read")
    parser.add_argument("target", metavar="TO", help="the graph file to write; it must not exist")
    parser.add_argument("--back", action="store_true", help="from edition 2 back to edition 1")


# Files


def _read_both(old_file: str, new_file: str) -> tuple[Panel, Panel]:
    panels: list[Panel] = []
    errors: list[PanelError] = []
    for file in (old_file, new_file):
        try:
            panels.append(read_panel(file))
        except PanelError as error:
            errors += error.every()
    if errors:
        raise PanelError.together(errors)
    old, new = panels
    check_pair(old, new)
    _tell(*old.notes, *new.notes)
    return old, new


def _read_substitutes(file: str | None, old: Panel, new: Panel) -> Pairs:
    if file is None:
        return Pairs("", b"", {}, ())
    pairs = read_substitutes(file, old, new)
    _tell(*pairs.notes)
    return pairs


def _check_unchanged(*inputs: Panel | Pairs) -> None:
    """Raises PanelError if a file changed since it was read: the answer is to another question."""
    for read in inputs:
        # What came through a pipe cannot be read again.
        piped = os.path.exists(read.file) and not os.path.isfile(read.file)
        if read.file and not piped and _content(read.file) != read.data:
            raise PanelError(read.file, None, "changed while the search ran, so its answer would be"
                             " to another question: run it again")


def _content(file: str) -> bytes | None:
    try:
        with open(file, "rb") as stream:
            return stream.read()
    except OSError:
        return None


def _file_error(file: str, error: OSError) -> PanelError:
    return PanelError(file, None, error.strerror or str(error))


# match


def _match(arguments: argparse.Namespace) -> Outcome:
    old, new = _read_both(arguments.old, arguments.new)
    substitutes = _read_substitutes(arguments.substitutes, old, new)
    _tell(*near_kinds(old, new, substitutes.pairs))
    _check_places(arguments)
    search = _begin(arguments, old, new, substitutes.pairs)
    run = _Run(search, arguments)
    run.go()
    _check_unchanged(old, new, substitutes)
    answer = Answer(old, new, search, Spent(run.seconds, run.steps_before, run.file))
    status = DONE if search.final else STOPPED
    drawn = None
    if arguments.svg is not None:
        try:
            drawn = _draw(arguments.svg, answer)
        except OSError as error:
            # The answer is shown even so.
            _tell(_file_error(arguments.svg, error))
            status = REFUSED
    return Outcome(status, answer.json(drawn) if arguments.json else answer.text(drawn))


def _begin(arguments: argparse.Namespace, old: Panel, new: Panel,
           substitutes: tuple[tuple[str, str], ...]) -> Search:
    """The search that the file has, if there is one; else a new one."""
    # An option that is left out counts as its default: what was saved with another one is the
    # answer to another question.
    options = {"minimum": arguments.minimum, "connected": arguments.connected,
               "descend": arguments.descend, "substitutes": substitutes}
    if not (arguments.resume and os.path.exists(arguments.resume)):
        return Search(old.graph, new.graph, **options)
    try:
        return Search.load(arguments.resume, old.graph, new.graph, **options)
    except OtherQuestion as error:
        raise _other_question(arguments.resume, error.saved) from None
    except DamagedFile as error:
        # It may be a file of quite another kind, so nobody is told to remove it.
        what = str(error).removeprefix(f"{arguments.resume}: ")
        raise PanelError(arguments.resume, None, f"{what}; name another file") from None
    except OSError as error:
        raise _file_error(arguments.resume, error) from None


def _other_question(file: str, saved: dict[str, Any]) -> PanelError:
    """A file that was saved for another question, with what to do."""
    words = []
    if saved.keys() & {"old", "new", "substitutes"}:
        words.append("for other panels or substitutes")
    if "minimum" in saved:
        words.append(f"with --minimum {saved['minimum']}")
    if "connected" in saved:
        words.append("with --connected" if saved["connected"] else "without --connected")
    if "descend" in saved:
        words.append("with --descend" if saved["descend"] else "with --plain")
    return PanelError(file, None, f"saved {' and '.join(words)}, so its answer is to another"
                      " question: name another file, or remove this one to start anew")


class _Signals:
    """While it is entered, an interrupt or a request to end sets `asked`."""

    def __init__(self) -> None:
        self.asked = False
        self._before: dict[int, Any] = {}

    def __enter__(self) -> _Signals:
        # Only the main thread may set handlers; and what a caller ignores stays ignored.
        if threading.current_thread() is threading.main_thread():
            for number in (signal.SIGINT, signal.SIGTERM, signal.SIGHUP):
                if signal.getsignal(number) not in (signal.SIG_IGN, None):
                    self._before[number] = signal.signal(number, self._ask)
        return self

    def __exit__(self, *_: object) -> None:
        for number, handler in self._before.items():
            signal.signal(number, handler)

    def _ask(self, _number: int, _frame: FrameType | None) -> None:
        self.asked = True


class _ProgressLine:
    """A line on a terminal that is written over and over."""

    def __init__(self, wanted: bool, parts: int) -> None:
        self._wanted = wanted and sys.stderr is not None and sys.stderr.isatty()
        self._parts = parts
        self._due = 0.0
        self._width = 0

    def show(self, search: Search, seconds: float) -> None:
        """Writes the line anew if that is due."""
        if not self._wanted or time.monotonic() < self._due:
            return
        self._due = time.monotonic() + PROGRESS_SECONDS
        least = search.size or 0
        most = max(least, most_kept(search))
        self._write(f"at least {least}, at most {most} of {amount(self._parts, 'part')} stay;"
                    f" {amount(search.steps, 'step')}; {seconds:.1f} s")

    def clear(self) -> None:
        """Takes the line away."""
        if self._width:
            self._write("")
            self._write("")

    def _write(self, line: str) -> None:
        print("\r" + line.ljust(self._width), end="", file=sys.stderr, flush=True)
        self._width = len(line)


class _Run:
    """One run of a search, from its limits to its end: steps, time, saving, progress."""

    def __init__(self, search: Search, arguments: argparse.Namespace) -> None:
        self.search = search
        self.file: str | None = arguments.resume
        self.steps_before = search.steps
        self._saved: bytes | None = _content(arguments.resume) if arguments.resume else None
        self._limit: int | None = arguments.steps
        self._most_seconds: float | None = arguments.seconds
        self._line = _ProgressLine(not (arguments.quiet or arguments.json),
                                   len(search.problem.old))
        self._began = time.monotonic()
        self._ended: float | None = None

    @property
    def steps(self) -> int:
        """The steps of this run."""
        return self.search.steps - self.steps_before

    @property
    def seconds(self) -> float:
        """How long it has run, or ran."""
        return (self._ended or time.monotonic()) - self._began

    def go(self) -> None:
        """Goes on until the answer is final, a limit is reached or somebody asks to stop."""
        if self.search.final and self.file is not None and os.path.exists(self.file):
            self._ended = time.monotonic()
            return
        with _Signals() as signals:
            if self.file is not None:
                self._save_first(self.file)
            try:
                self._advance(signals)
            finally:
                self._line.clear()
            self._ended = time.monotonic()
            if self.file is not None:
                self._save(self.file)

    def _advance(self, signals: _Signals) -> None:
        due = time.monotonic() + SAVE_SECONDS
        while not (self.search.final or signals.asked or self._is_over()):
            self.search.work(None if self._limit is None else self._limit - self.steps)
            self._line.show(self.search, self.seconds)
            if self.file is not None and time.monotonic() >= due:
                self._save(self.file)
                due = time.monotonic() + SAVE_SECONDS

    def _is_over(self) -> bool:
        steps_over = self._limit is not None and self.steps >= self._limit
        return steps_over or (self._most_seconds is not None
                              and self.seconds >= self._most_seconds)

    def _save_first(self, file: str) -> None:
        # A file that cannot be written is better known before hours of search.
        try:
            self.search.save(file)
        except OSError as error:
            raise _file_error(file, error) from None
        self._saved = _content(file)

    def _save(self, file: str) -> None:
        if _content(file) != self._saved:
            # What another run saved here meanwhile may be hours of work.
            self.file = None
            self._line.clear()
            _tell(f"{file}: changed by another run while this one searched: this one is not saved")
            return
        try:
            self.search.save(file)
            self._saved = _content(file)
        except OSError as error:
            self._line.clear()
            _tell(f"{file}: not saved, it has an earlier state: {error.strerror}")


def _check_places(arguments: argparse.Namespace) -> None:
    """Raises PanelError if what is to be written cannot be, or would overwrite another file."""
    taken = [arguments.old, arguments.new, arguments.substitutes]
    for file, what in ((arguments.resume, "saved search"), (arguments.svg, "picture")):
        if file is None:
            continue
        if os.path.realpath(file) in [os.path.realpath(other) for other in taken if other]:
            raise PanelError(file, None, f"the {what} would overwrite this file; name another one")
        taken.append(file)
    if arguments.svg is not None:
        _check_picture_place(arguments.svg)


def _check_picture_place(file: str) -> None:
    if os.path.lexists(file) and not _is_picture(file):
        raise PanelError(file, None, "is there already and no picture of a list: name another file")
    folder = os.path.dirname(file) or "."
    if not (os.path.isdir(folder) and os.access(folder, os.W_OK)):
        raise PanelError(file, None, f"no file can be written to the folder {folder}")


def _is_picture(file: str) -> bool:
    try:
        with open(file, "rb") as stream:
            return PICTURE_BEGINS in stream.read(200)
    except OSError:
        return False


def _draw(file: str, answer: Answer) -> str | None:
    """Draws the list; without one no earlier picture is left: it would be of another question."""
    if answer.result.size is not None:
        _files.replace(file, answer.picture().encode("utf-8"))
        return file
    if os.path.exists(file):
        os.remove(file)
    _tell(f"{file}: note: no picture, since there is no list to draw")
    return None


# check


def _check(arguments: argparse.Namespace) -> Outcome:
    if arguments.pairs is not None:
        return _check_list(arguments)
    if arguments.substitutes is not None:
        arguments.parser.error("--substitutes goes with --list")
    status, text = DONE, ""
    for file in arguments.panels:
        try:
            panel = read_panel(file)
        except PanelError as error:
            _tell(*error.every())
            status = REFUSED
            continue
        _tell(*panel.notes)
        graph = panel.graph
        text += f"{file}: {amount(len(graph), 'part')}, {amount(len(graph.edges), 'wire')}\n"
    return Outcome(status, text)


def _check_list(arguments: argparse.Namespace) -> Outcome:
    if len(arguments.panels) != 2:
        arguments.parser.error("--list goes with two panels, OLD and NEW")
    old, new = _read_both(*arguments.panels)
    substitutes = _read_substitutes(arguments.substitutes, old, new)
    problem = Problem(old.graph, new.graph, substitutes.pairs)
    pairs = read_list(arguments.pairs, old, new)
    _tell(*pairs.notes)
    try:
        size = problem.check(dict(pairs.pairs))
    except MappingRefused as refusal:
        raise _against_list(pairs, old, new, refusal) from None
    return Outcome(DONE, f"fits: {amount(size, 'part')}\n")


def _against_list(pairs: Pairs, old: Panel, new: Panel, refusal: MappingRefused) -> PanelError:
    """Which pair of a list by hand is against it, at its line."""
    mapping = dict(pairs.pairs)
    name = old.graph.names[refusal.row]
    serves = mapping[name]
    if refusal.number == 21:
        what = (f"{shown(name)} is of kind {shown(old.kind(name))}, {shown(serves)} of kind"
                f" {shown(new.kind(serves))}")
    else:
        # 20 or 22: these are about an earlier part too, which is in the list.
        other = old.graph.names[refusal.earlier]
        other_serves = mapping[other]
        what = (f"{shown(serves)} serves {shown(other)} already" if refusal.number == 20
                else difference(old, new, (name, other), (serves, other_serves)))
        what += "" if name == other else f" (line {pairs.lines[other, other_serves]})"
    return PanelError(pairs.file, pairs.lines[name, serves],
                      f"{shown(name)} as {shown(serves)} does not fit: {what}"
                      f" (refusal {refusal.number})")


# limit and move


def _limit(arguments: argparse.Namespace) -> Outcome:
    old, new = _order(arguments.old), _order(arguments.new)
    try:
        limit = _library.step_limit(new, old)
    except Refused as refusal:
        raise GolfcedarError(f"limit {arguments.old} {arguments.new}: {refusal.reason}"
                             f" (refusal {refusal.number})") from None
    if limit == _library.STEP_LIMIT_CAP:
        return Outcome(DONE, "2^64 - 1 steps or more (says nothing about how long a search"
                       " takes)\n")
    return Outcome(DONE, f"at most {amount(limit, 'step')}\n")


def _order(word: str) -> int:
    """A number of parts: the word itself, or that of the panel which it names."""
    number = _digits(word)
    if number is not None:
        return min(number, 2**64 - 1)
    panel = read_panel(word)
    _tell(*panel.notes)
    return len(panel.graph)


def _move(arguments: argparse.Namespace) -> Outcome:
    try:
        with open(arguments.source, "rb") as stream:
            # Some bytes more than a graph has: a fault beyond them comes after one before.
            data = stream.read(_library.GRAPH_BYTES + 5)
    except OSError as error:
        raise _file_error(arguments.source, error) from None
    try:
        moved = (_library.to_edition_1 if arguments.back else _library.to_edition_2)(data)
    except Refused as refusal:
        what = refusal_at_byte(refusal)
        if data[:1] == b"\4" and not arguments.back:
            what += "; a file that begins with 4 is of edition 2 already"
        elif data[:1] > b"\10":
            what += "; this looks like a text, and a graph file has bytes"
        raise PanelError(arguments.source, None, what) from None
    _write_new(arguments.target, moved)
    return Outcome(DONE, "")


def _write_new(file: str, data: bytes) -> None:
    """Writes a file that is not there yet; a failure leaves none."""
    try:
        stream = open(file, "xb")
    except FileExistsError:
        raise PanelError(file, None, "exists already; name another file") from None
    except OSError as error:
        raise _file_error(file, error) from None
    try:
        with stream:
            stream.write(data)
    except OSError as error:
        os.unlink(file)
        raise _file_error(file, error) from None
