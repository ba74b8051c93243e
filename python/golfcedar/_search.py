"""A search that can be stopped after any number of steps, saved in a file, and gone on with."""

from __future__ import annotations

import hashlib
import json
import operator
import os
import time
from typing import Any, Hashable, Iterable, Iterator, NamedTuple, Union

from . import _files, _library
from .errors import DamagedFile, GolfcedarError, OtherQuestion, Refused
from .graph import Graph, Problem
from .result import Result

_SHARE_SECONDS = 0.1
_LEAST_SHARE = 1000
_FASTEST_GROWTH = 4

_FORMAT = "golfcedar search 1"
_FIELDS = frozenset(
    "format old new substitutes checkpoint minimum connected descend steps digest".split()
)
# No saved search comes near it, and what is larger is not read whole.
_FILE_LIMIT = 65536

_Path = Union[str, bytes, "os.PathLike[str]", "os.PathLike[bytes]"]


class Progress(NamedTuple):
    """How far a search is."""

    size: int | None
    """The size of the mapping that is held; None if nothing is held yet."""
    ceiling: int
    """Every common subgraph (in the connected search every connected one) is smaller."""
    steps: int
    """The steps of the whole search, in all calls and runs."""


class Search(Iterator[Progress]):
    """A search, or a descent, that can be stopped after any number of steps and gone on with.

    It looks for the largest common subgraph of two graphs, and of equally large ones for the first
    in order: compared from old vertex 0 on, the smaller new number comes first, left out last.

    `minimum` is the smallest size of interest, from 0 to 255. With `connected`, only mappings count
    whose old vertices hang together by edges among themselves. `substitutes` are pairs of labels,
    old then new, that agree though they differ. With `descend`, the search is a descent: it asks
    for the largest conceivable size first, then for one less, down to the minimum. Both find the
    same; the descent is faster by far where the graphs resemble each other.

    Iterating works, about 0.1 s each time, and gives the progress; it ends once the search is done.
    The question is fixed when the search is made. One Search is for one thread at a time.
    """

    _question: _Question
    _state: _State

    def __init__(
        self,
        old: Graph,
        new: Graph,
        *,
        minimum: int = 1,
        connected: bool = False,
        substitutes: Iterable[tuple[Hashable, Hashable]] = (),
        descend: bool = True,
    ) -> None:
        """Begins a search. GraphError, ValueError or TypeError say what to mend."""
        question = _Question(
            Problem(old, new, substitutes),
            _whole(minimum, "minimum"),
            _truth(connected, "connected"),
            _truth(descend, "descend"),
        )
        self._begin(question, question.start(), 0)

    @property
    def problem(self) -> Problem:
        """The two graphs and the substitutes."""
        return self._question.problem

    @property
    def minimum(self) -> int:
        """The smallest size of interest."""
        return self._question.minimum

    @property
    def connected(self) -> bool:
        """Whether only connected mappings count."""
        return self._question.connected

    @property
    def descend(self) -> bool:
        """Whether the search is a descent."""
        return self._question.descend

    @property
    def size(self) -> int | None:
        """The size of the mapping that is held; None if nothing is held yet."""
        return None if self._state.mapping is None else self._state.size

    @property
    def ceiling(self) -> int:
        """Every common subgraph (in the connected search every connected one) is smaller."""
        return self._state.ceiling

    @property
    def steps(self) -> int:
        """The steps made so far, in all calls and runs."""
        return self._state.steps

    @property
    def done(self) -> bool:
        """Whether the search is finished: nothing is left to visit."""
        return self._state.done

    @property
    def final(self) -> bool:
        """Whether no larger mapping exists; no larger connected one, if `connected`.

        So it is once the search is done (if nothing is held then, none reaches the minimum), and
        before that if size + 1 is the ceiling.
        """
        return self.done or (self.size is not None and self.size + 1 == self.ceiling)

    def advance(self, steps: int) -> Progress:
        """Goes on for so many steps, fewer only if the search is done.

        The work is done in shares of about 0.1 s: stopped between two, the search stands where it
        is.
        """
        left = _whole(steps, "steps")
        while left > 0 and not self.done:
            before = self.steps
            self.work(left)
            left -= self.steps - before
        return self._progress()

    def work(self, most: int | None = None) -> Progress:
        """Goes on for about 0.1 s, and for at most so many steps; less only if it is done."""
        budget = self._share if most is None else min(self._share, _whole(most, "steps"))
        if not self.done:
            self._make(budget)
        return self._progress()

    def __iter__(self) -> Search:
        return self

    def __next__(self) -> Progress:
        """Goes on for about 0.1 s. StopIteration once the search is done."""
        if self.done:
            raise StopIteration
        return self.work()

    def result(self) -> Result:
        """What is found so far, checked again by the library against the same two graphs."""
        state = self._state
        if state.mapping is not None:
            size = _library.check_mapping(*self.problem.as_bytes(), state.mapping)
            if size != state.size or not self.minimum <= size < state.ceiling:
                raise GolfcedarError(
                    f"the mapping that is held has size {size}, but the search says "
                    f"{state.size}, at least {self.minimum} and below {state.ceiling}"
                )
        return Result(
            self.problem,
            state.mapping,
            size=self.size,
            ceiling=self.ceiling,
            steps=self.steps,
            done=self.done,
            final=self.final,
            connected=self.connected,
            minimum=self.minimum,
        )

    def save(self, path: _Path) -> None:
        """Writes the whole question and the state of the search to a file.

        It goes through a second file in the same folder: the file is the earlier one or the new
        one, never half of it. OSError if it cannot be written.
        """
        content = {
            "format": _FORMAT,
            **self._question.as_saved(),
            "checkpoint": self._state.checkpoint.hex(),
            "steps": self.steps,
        }
        content["digest"] = _digest(content)
        text = json.dumps(content, indent=1) + "\n"
        _files.replace(os.fsdecode(path), text.encode("utf-8"))

    @classmethod
    def load(
        cls,
        path: _Path,
        old: Graph,
        new: Graph,
        *,
        minimum: int | None = None,
        connected: bool | None = None,
        substitutes: Iterable[tuple[Hashable, Hashable]] = (),
        descend: bool | None = None,
    ) -> Search:
        """Goes on with a saved search of the same question.

        An option that is None is as it was saved; the graphs and the substitutes are compared.
        OtherQuestion: one of them differs. DamagedFile: the file is cut off, changed, or no saved
        search. OSError: it cannot be read. The file guards against accidents, not against forgery.
        """
        name = os.fsdecode(path)
        saved = _read_saved(name)
        question = _Question(
            Problem(old, new, substitutes),
            saved["minimum"] if minimum is None else _whole(minimum, "minimum"),
            saved["connected"] if connected is None else _truth(connected, "connected"),
            saved["descend"] if descend is None else _truth(descend, "descend"),
        )
        differing = question.differences(saved)
        if differing:
            raise OtherQuestion(
                f"{name}: saved for {_in_words(differing)}: start anew, or name another file",
                differing,
            )
        return cls._resumed(name, question, saved)

    @classmethod
    def _resumed(cls, name: str, question: _Question, saved: dict[str, Any]) -> Search:
        search = cls.__new__(cls)
        try:
            search._begin(question, bytes.fromhex(saved["checkpoint"]), saved["steps"])
        except Refused as refused:
            raise _damaged(name, str(refused)) from refused
        if search.steps != saved["steps"] or not question.could_leave(search._state):
            raise _damaged(name, "minimum or steps are not those of the checkpoint")
        return search

    def _begin(self, question: _Question, checkpoint: bytes, steps: int) -> None:
        self._question = question
        self._share = _LEAST_SHARE
        reading = question.read_out(checkpoint)
        self._state = question.go_on(_State.of(checkpoint, steps, 0, reading), 0)

    def _progress(self) -> Progress:
        return Progress(self.size, self.ceiling, self.steps)

    def _make(self, budget: int) -> None:
        began = time.monotonic()
        state = self._question.go_on(self._state, budget)
        seconds = time.monotonic() - began
        # One assignment, so that an interrupt leaves either the earlier state or the next one.
        self._state = state
        growth = min(_FASTEST_GROWTH, _SHARE_SECONDS / seconds) if seconds > 0 else _FASTEST_GROWTH
        if budget == self._share:
            self._share = max(_LEAST_SHARE, int(self._share * growth))


def search(old: Graph, new: Graph, **options: Any) -> Search:
    """The same as Search(old, new, ..)."""
    return Search(old, new, **options)


class _State(NamedTuple):
    """What calls have left: the checkpoint, and what it says."""

    checkpoint: bytes
    steps: int
    ceiling: int
    own_steps: int
    size: int
    done: bool
    mapping: bytes | None

    @classmethod
    def of(cls, checkpoint: bytes, steps: int, ceiling: int, reading: _library.ReadOut) -> _State:
        done = reading.state >= 2
        return cls(
            checkpoint, steps, ceiling, reading.steps, reading.size, done, reading.mapping
        )


class _Question(NamedTuple):
    """All that the answer depends on. The same one goes into every call of a search."""

    problem: Problem
    minimum: int
    connected: bool
    descend: bool

    def start(self) -> bytes:
        return _library.start(
            *self.problem.as_bytes(), self.connected, self.minimum, self.descend
        )

    def read_out(self, checkpoint: bytes) -> _library.ReadOut:
        return _library.read_out(*self.problem.as_bytes(), self.connected, checkpoint)

    def go_on(self, state: _State, budget: int) -> _State:
        """The state after so many steps more, fewer if the library cannot count them."""
        room = _library.STEP_LIMIT_CAP - state.own_steps
        # With no room left the library refuses, which is better than to make no step for ever.
        budget = min(budget, room) if room > 0 else budget
        call = *self.problem.as_bytes(), self.connected
        if self.descend:
            checkpoint, ceiling, visits = _library.descend(
                *call, self.minimum, state.checkpoint, budget
            )
            reading = self.read_out(checkpoint)
            return _State.of(checkpoint, state.steps + visits, ceiling, reading)
        checkpoint, ceiling = _library.resume(*call, state.checkpoint, budget)
        reading = self.read_out(checkpoint)
        return _State.of(checkpoint, reading.steps, ceiling, reading)

    def as_saved(self) -> dict[str, Any]:
        old, new, substitutes = self.problem.as_bytes()
        return {
            "old": old.hex(),
            "new": new.hex(),
            "substitutes": substitutes.hex(),
            "minimum": self.minimum,
            "connected": self.connected,
            "descend": self.descend,
        }

    def differences(self, saved: dict[str, Any]) -> dict[str, Any]:
        """What a saved search has otherwise, as it has it."""
        return {key: saved[key] for key, mine in self.as_saved().items() if saved[key] != mine}

    def could_leave(self, state: _State) -> bool:
        """Whether minimum and steps of a state that was loaded can be those of this question."""
        # The second byte of a checkpoint is its minimum.
        minimum = state.checkpoint[1]
        if self.descend:
            return minimum >= self.minimum and state.steps >= state.own_steps
        return minimum == self.minimum


def _in_words(saved: dict[str, Any]) -> str:
    options = [f"{key} {saved[key]}" for key in ("minimum", "connected", "descend") if key in saved]
    # Labels are numbered jointly, so a new label in one graph may change the bytes of all three.
    inputs = saved.keys() & {"old", "new", "substitutes"}
    return ", ".join(["other graphs or substitutes"] * bool(inputs) + options)


def _whole(number: int, what: str) -> int:
    whole = int(operator.index(number))
    if whole < 0:
        raise ValueError(f"{what} is a number from 0 up, not {number}")
    return whole


def _truth(value: bool, what: str) -> bool:
    if not isinstance(value, bool):
        raise TypeError(f"{what} is True or False, not {value!r}")
    return value


def _digest(content: dict[str, Any]) -> str:
    rest = {key: value for key, value in content.items() if key != "digest"}
    canonical = json.dumps(rest, sort_keys=True, separators=(",", ":"))
    return hashlib.sha256(canonical.encode("utf-8")).hexdigest()


def _damaged(name: str, why: str) -> DamagedFile:
    return DamagedFile(f"{name}: damaged, or not a saved search: {why}")


def _read_saved(name: str) -> dict[str, Any]:
    with open(name, "rb") as stream:
        data = stream.read(_FILE_LIMIT + 1)
    if len(data) > _FILE_LIMIT:
        raise _damaged(name, f"it has more than {_FILE_LIMIT} bytes")
    try:
        content = json.loads(data.decode("utf-8"))
    except (ValueError, RecursionError):
        raise _damaged(name, "it is not JSON, or cut off") from None
    if not isinstance(content, dict) or content.keys() != _FIELDS:
        raise _damaged(name, "it does not have the fields of one")
    if not _in_form(content):
        raise _damaged(name, f"its fields are not those of the format {_FORMAT!r}")
    if content["digest"] != _digest(content):
        raise _damaged(name, "it was changed after it was saved")
    return content


def _in_form(content: dict[str, Any]) -> bool:
    texts = [content[key] for key in ("old", "new", "substitutes", "checkpoint")]
    numbers = [content[key] for key in ("minimum", "steps")]
    return (
        content["format"] == _FORMAT
        and all(isinstance(text, str) and _is_hex(text) for text in texts)
        and all(type(number) is int and number >= 0 for number in numbers)
        and content["minimum"] <= 255
        and all(isinstance(content[key], bool) for key in ("connected", "descend"))
    )


def _is_hex(text: str) -> bool:
    try:
        return bytes.fromhex(text).hex() == text
    except ValueError:
        return False
