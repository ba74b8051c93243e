"""The shared library by ctypes: plain Python values in and out, or Refused."""

from __future__ import annotations

import ctypes
import functools
import importlib
import operator
import os
from pathlib import Path
from typing import Any, Callable, Iterator, NamedTuple

from .errors import LibraryMissing, MappingRefused, Refused

MAX_VERTICES = 64
UNMAPPED = 255
CHECKPOINT_BYTES = 270
GRAPH_BYTES = 8515
EDITION_1_BYTES = 8449
WORKSPACE_WORDS = 4160
SUBSTITUTES_BYTES = 1024
REASON_BYTES = 80
STEP_LIMIT_CAP = 2**64 - 1

# A library of another major version has other calls under the same names.
MAJOR = 1
SONAME = f"libgolfcedar.so.{MAJOR}"

# Bytes that are only read. ctypes lends the bytes object's own memory, which is never null and has
# one byte more than its length; the length always goes along, so zero bytes end nothing.
_READ = (ctypes.c_char_p, ctypes.c_size_t)
_WRITTEN = (ctypes.POINTER(ctypes.c_uint8), ctypes.c_size_t)
_WORDS = (ctypes.POINTER(ctypes.c_uint64), ctypes.c_size_t)
_NUMBER = ctypes.POINTER(ctypes.c_uint64)
_PROBLEM = _READ * 3
_SMALL = ctypes.c_uint8
_WORD = ctypes.c_uint32
_LONG = ctypes.c_uint64

_ARGUMENTS: dict[str, tuple[Any, ...]] = {
    "version": (),
    "reason": (_WORD, *_WRITTEN, _NUMBER),
    "check_graph": (*_READ, _NUMBER),
    "check_problem": (*_PROBLEM, _NUMBER, _NUMBER),
    "check_mapping": (*_PROBLEM, *_READ, _NUMBER, _NUMBER),
    "start": (*_PROBLEM, _WORD, _SMALL, *_WRITTEN, _NUMBER),
    "resume": (*_PROBLEM, _WORD, *_READ, _LONG, *_WORDS, *_WRITTEN, _NUMBER, _NUMBER),
    "read_out": (*_PROBLEM, _WORD, *_READ, *_WRITTEN, *[_NUMBER] * 4),
    "descend_start": (*_PROBLEM, _WORD, _SMALL, *_WRITTEN, _NUMBER),
    "descend_resume": (
        *(*_PROBLEM, _WORD, _SMALL, *_READ, _LONG, *_WORDS, *_WRITTEN),
        *[_NUMBER] * 3,
    ),
    "step_limit": (_LONG, _LONG, _NUMBER),
    "to_edition_2": (*_READ, *_WRITTEN, _NUMBER),
    "to_edition_1": (*_READ, *_WRITTEN, _NUMBER),
}

_ABOUT = {1: "old graph", 2: "new graph", 3: "substitutes"}
_OF_THE_PROBLEM = frozenset([*range(1, 10), 23, 24, 27])
_OF_THE_CHECKPOINT = frozenset([14, 17])
_OF_THE_MAPPING = frozenset(range(18, 23))


class ReadOut(NamedTuple):
    """What a checkpoint says: `state` 0 to 3 as in the header, `mapping` None if none is held."""

    state: int
    steps: int
    size: int
    ceiling: int
    mapping: bytes | None


def version() -> tuple[int, int, int]:
    """The library's version: major, minor, patch."""
    number = _function("version")()
    return number >> 16, number >> 8 & 255, number & 255


def reason(number: int) -> str:
    """The library's text of a refusal's number; empty if it is no refusal's number."""
    text, value = _buffer(REASON_BYTES), _LONG()
    word = _ranged(number, 2**32 - 1, "a refusal's number")
    answer = _function("reason")(word, text, REASON_BYTES, value)
    if answer != 0:
        raise Refused(answer, value.value)
    return bytes(text[: value.value]).decode("ascii")


def check_graph(graph: bytes) -> int:
    """The number of vertices of a graph of edition 2."""
    value = _LONG()
    number = _function("check_graph")(*_lent(graph), value)
    if number != 0:
        raise _refusal(number, value.value, "graph")
    return value.value


def check_problem(old: bytes, new: bytes, substitutes: bytes) -> None:
    """Refused, with what it is about, if a call on these two graphs and substitutes would be."""
    number, value, about = _problem_flaw(old, new, substitutes)
    if number != 0:
        raise _refusal(number, value, about)


def check_mapping(old: bytes, new: bytes, substitutes: bytes, mapping: bytes) -> int:
    """The size of a mapping, if it is a common subgraph; else MappingRefused."""
    problem = old, new, substitutes
    value, earlier = _LONG(), _LONG()
    number = _function("check_mapping")(*_lent(*problem, mapping), value, earlier)
    if number in _OF_THE_MAPPING:
        raise MappingRefused(number, value.value, earlier.value, reason(number))
    _accept(number, value.value, problem)
    return value.value


def start(
    old: bytes, new: bytes, substitutes: bytes, connected: bool, minimum: int, descend: bool
) -> bytes:
    """The checkpoint of a search, or of a descent, that has not begun."""
    problem = old, new, substitutes
    floor = _ranged(minimum, 255, "the minimum")
    out, value = _buffer(CHECKPOINT_BYTES), _LONG()
    call = _function("descend_start" if descend else "start")
    number = call(*_lent(*problem), bool(connected), floor, out, CHECKPOINT_BYTES, value)
    _accept(number, value.value, problem)
    return bytes(out[: value.value])


def resume(
    old: bytes, new: bytes, substitutes: bytes, connected: bool, checkpoint: bytes, budget: int
) -> tuple[bytes, int]:
    """Goes on with a search: the next checkpoint, and the ceiling."""
    problem = old, new, substitutes
    work = _Work(budget)
    number = _function("resume")(
        *_lent(*problem), bool(connected), *_lent(checkpoint), *work.lent(), work.ceiling
    )
    _accept(number, work.value.value, problem)
    return work.checkpoint(), work.ceiling.value


def descend(
    old: bytes,
    new: bytes,
    substitutes: bytes,
    connected: bool,
    floor: int,
    checkpoint: bytes,
    budget: int,
) -> tuple[bytes, int, int]:
    """Goes on with a descent: the next checkpoint, the ceiling, and the visits of this call."""
    problem = old, new, substitutes
    least = _ranged(floor, 255, "the minimum")
    work, visits = _Work(budget), _LONG()
    before = *_lent(*problem), bool(connected), least, *_lent(checkpoint)
    number = _function("descend_resume")(*before, *work.lent(), work.ceiling, visits)
    _accept(number, work.value.value, problem)
    return work.checkpoint(), work.ceiling.value, visits.value


def read_out(
    old: bytes, new: bytes, substitutes: bytes, connected: bool, checkpoint: bytes
) -> ReadOut:
    """What a checkpoint says."""
    problem = old, new, substitutes
    mapping = _buffer(MAX_VERTICES)
    state, steps, size, ceiling = _LONG(), _LONG(), _LONG(), _LONG()
    before = *_lent(*problem), bool(connected), *_lent(checkpoint)
    number = _function("read_out")(*before, mapping, MAX_VERTICES, state, steps, size, ceiling)
    _accept(number, state.value, problem)
    held = bytes(mapping[: check_graph(old)]) if state.value % 2 == 1 else None
    return ReadOut(state.value, steps.value, size.value, ceiling.value, held)


def step_limit(new_order: int, old_order: int) -> int:
    """At most so many steps a search of so many new and old vertices takes.

    The new graph's number comes first. 2**64 - 1 says: so many or more.
    """
    orders = [_ranged(order, 2**64 - 1, "a number of vertices") for order in (new_order, old_order)]
    value = _LONG()
    number = _function("step_limit")(*orders, value)
    _accept(number, value.value)
    return value.value


def to_edition_2(graph: bytes) -> bytes:
    """A graph of edition 1, moved to edition 2."""
    return _moved("to_edition_2", graph, GRAPH_BYTES)


def to_edition_1(graph: bytes) -> bytes:
    """A graph of edition 2, moved to edition 1."""
    return _moved("to_edition_1", graph, EDITION_1_BYTES)


class _Work:
    """What a search call is lent beside its inputs; one for each call, so threads share none."""

    def __init__(self, budget: int) -> None:
        self._budget = _ranged(budget, 2**64 - 1, "a budget")
        self._words = (ctypes.c_uint64 * WORKSPACE_WORDS)()
        self._next = _buffer(CHECKPOINT_BYTES)
        self.value = _LONG()
        self.ceiling = _LONG()

    def lent(self) -> tuple[Any, ...]:
        words = self._words, WORKSPACE_WORDS
        return (self._budget, *words, self._next, CHECKPOINT_BYTES, self.value)

    def checkpoint(self) -> bytes:
        return bytes(self._next[: self.value.value])


def _moved(name: str, graph: bytes, size: int) -> bytes:
    out, value = _buffer(size), _LONG()
    number = _function(name)(*_lent(graph), out, size, value)
    if number != 0:
        raise _refusal(number, value.value, "graph")
    return bytes(out[: value.value])


def _problem_flaw(old: bytes, new: bytes, substitutes: bytes) -> tuple[int, int, str]:
    value, about = _LONG(), _LONG()
    number = _function("check_problem")(*_lent(old, new, substitutes), value, about)
    return number, value.value, _ABOUT.get(about.value, "")


def _accept(number: int, value: int, problem: tuple[bytes, bytes, bytes] | None = None) -> None:
    if number == 0:
        return
    about = "checkpoint" if number in _OF_THE_CHECKPOINT else ""
    if problem is not None and number in _OF_THE_PROBLEM:
        about = _problem_flaw(*problem)[2]
    raise _refusal(number, value, about)


def _refusal(number: int, value: int, about: str) -> Refused:
    return Refused(number, value, about, reason(number))


def _buffer(size: int) -> Any:
    return (ctypes.c_uint8 * size)()


def _lent(*parts: bytes) -> list[Any]:
    lent: list[Any] = []
    for part in parts:
        if not isinstance(part, bytes):
            raise TypeError(f"bytes are needed, not {type(part).__name__}")
        lent += part, len(part)
    return lent


def _ranged(number: int, largest: int, what: str) -> int:
    # ctypes would cut a number that is too large, and so ask another question.
    number = operator.index(number)
    if not 0 <= number <= largest:
        raise ValueError(f"{what} is from 0 to {largest}, not {number}")
    return number


def _function(name: str) -> Callable[..., int]:
    return getattr(_shared_library(), f"golfcedar_{name}")


@functools.lru_cache(maxsize=None)
def _shared_library() -> ctypes.CDLL:
    tried = []
    for candidate in _candidates():
        try:
            return _loaded(candidate)
        except (OSError, AttributeError) as error:
            tried.append(f"  {candidate}: {error}")
        if os.path.lexists(candidate):
            # Another library than the one that should be it would be worse than none.
            break
    raise LibraryMissing(
        "the library of Golfcedar cannot be loaded: run `make library` in a clone of it,\n"
        "or name the library's file in the environment variable GOLFCEDAR_LIBRARY. Tried:\n"
        + "\n".join(tried)
    )


def _candidates() -> Iterator[str]:
    named = os.environ.get("GOLFCEDAR_LIBRARY")
    if named:
        yield os.path.abspath(named)
        return
    installed = _installed()
    if installed:
        yield installed
    yield str(Path(__file__).resolve().parents[2] / "target" / "lib" / SONAME)
    yield SONAME


def _installed() -> str | None:
    try:
        return str(importlib.import_module("._installed", __package__).LIBRARY)
    except ImportError:
        return None


def _loaded(file: str) -> ctypes.CDLL:
    library = ctypes.CDLL(file)
    for name, arguments in _ARGUMENTS.items():
        function = getattr(library, f"golfcedar_{name}")
        function.argtypes = arguments
        function.restype = ctypes.c_uint32
    major = library.golfcedar_version() >> 16
    if major != MAJOR:
        raise OSError(f"this is version {major}, and version {MAJOR} is needed")
    return library
