"""The command: its answers, options and statuses, and that it never answers another question."""

from __future__ import annotations

import contextlib
import io
import json
import os
import random
import re
import signal
import subprocess
import sys
import tempfile
import time
import unittest
import xml.etree.ElementTree
from pathlib import Path
from typing import NamedTuple
from unittest import mock

import golfcedar
from golfcedar import Search, command

PACKAGE = Path(golfcedar.__file__).resolve().parents[1]
EXAMPLES = PACKAGE.parent / "examples" / "panels"
# The tests change the folder.
if "GOLFCEDAR_LIBRARY" in os.environ:
    os.environ["GOLFCEDAR_LIBRARY"] = os.path.abspath(os.environ["GOLFCEDAR_LIBRARY"])

OLD = """part S1 "main switch"
part F1 fuse
part K1 contactor
part K2 contactor
part M1 motor
part X1 terminal
part H1 horn
wire S1 F1 power
wire F1 K1 power
wire F1 K2 power
wire K1 M1 power
wire K2 X1 control
wire K1 K1 hold
wire H1 F1 power
"""
NEW = """part Q0 "main switch"
part F1 fuse
part Q1 contactor-e
part Q2 contactor
part M1 motor
part X1 terminal
part P1 light
wire Q0 F1 power
wire F1 Q1 power
wire Q2 F1 power
wire Q1 M1 power
wire Q2 X1 power
wire Q1 Q1 hold
wire P1 F1 power
"""
SUBSTITUTES = "contactor contactor-e\n"


class Ran(NamedTuple):
    """What a run left."""

    status: int
    out: str
    err: str


class Terminal(io.StringIO):
    """A stream that says it is a terminal."""

    def isatty(self) -> bool:
        return True


def random_panel(seed: int, parts: int) -> str:
    """A panel that resembles no other: a search of two with 40 parts takes very long."""
    chance = random.Random(seed)
    lines = [f"part P{n} kind{chance.randrange(2)}" for n in range(parts)]
    lines += [f"wire P{a} P{b} wire{chance.randrange(2)}" for a in range(parts) for b in range(a)
              if chance.random() < 0.3]
    return "\n".join(lines)


class CommandCase(unittest.TestCase):
    """A folder with panels, and a way to run the command in it."""

    def setUp(self) -> None:
        folder = tempfile.TemporaryDirectory()
        self.addCleanup(folder.cleanup)
        self.folder = Path(folder.name)
        before = os.getcwd()
        os.chdir(self.folder)
        self.addCleanup(os.chdir, before)
        self.write("old.txt", OLD)
        self.write("new.txt", NEW)
        self.write("sub.txt", SUBSTITUTES)

    def write(self, name: str, content: str | bytes) -> str:
        data = content.encode("utf-8") if isinstance(content, str) else content
        (self.folder / name).write_bytes(data)
        return name

    def read(self, name: str) -> bytes:
        return (self.folder / name).read_bytes()

    def run_in_place(self, *words: str, err: io.StringIO | None = None) -> Ran:
        out, err = io.StringIO(), err or io.StringIO()
        with contextlib.redirect_stdout(out), contextlib.redirect_stderr(err):
            status = command.main(list(words))
        return Ran(status, out.getvalue(), err.getvalue())

    def match(self, *options: str, status: int = 0) -> Ran:
        ran = self.run_in_place("match", "old.txt", "new.txt", *options)
        self.assertEqual(ran.status, status, ran)
        return ran

    def match_json(self, *options: str, status: int = 0) -> dict:
        return json.loads(self.match("--json", *options, status=status).out)

    def refused(self, *words: str) -> str:
        ran = self.run_in_place(*words)
        self.assertEqual((ran.status, ran.out), (2, ""), ran)
        self.assertNotEqual(ran.err, "")
        return ran.err

    def random_pair(self, parts: int) -> None:
        self.write("old.txt", random_panel(0, parts))
        self.write("new.txt", random_panel(1, parts))

    def start(self, *words: str, **options) -> subprocess.Popen:
        environment = dict(os.environ, PYTHONPATH=str(PACKAGE))
        return subprocess.Popen([sys.executable, "-m", "golfcedar", *words], text=True,
                                stdout=subprocess.PIPE, stderr=subprocess.PIPE, env=environment,
                                **options)


ANSWER = """keep (5 of 7 parts)
  S1   "main switch"   as Q0
  F1   fuse            as F1
  K1   contactor       as Q1, contactor-e
  K2   contactor       as Q2
  M1   motor           as M1
remove (2)
  X1   terminal
       as X1: old: a wire control between X1 and K2; new: a wire power between X1 and Q2
  H1   horn
       no new part of its kind, nor of a substitute
fit (2)
  X1   terminal
  P1   light
wires to keep (5)
  S1 - F1   power   (as Q0 - F1)
  F1 - K1   power   (as F1 - Q1)
  F1 - K2   power   (as F1 - Q2)
  K1 - K1   hold    (as Q1 - Q1)
  K1 - M1   power   (as Q1 - M1)
wires to take out (2)
  F1 - H1   power
  K2 - X1   control
wires to run anew (2)
  F1 - P1   power
  Q2 - X1   power
proved: no list keeps more parts
"""


class Match(CommandCase):
    def test_the_answer(self) -> None:
        ran = self.match("--substitutes", "sub.txt")
        self.assertEqual(ran.out[:len(ANSWER)], ANSWER)
        self.assertRegex(ran.out[len(ANSWER):], r"\A\d+ steps, \d+\.\d s\n\Z")
        self.assertEqual(ran.err, "")

    def test_the_examples(self) -> None:
        names = [str(EXAMPLES / name) for name in ("old.txt", "new.txt", "substitutes.txt")]
        ran = self.run_in_place("match", *names[:2], "--substitutes", names[2])
        self.assertEqual((ran.status, ran.err), (0, ""))
        self.assertIn("keep (12 of 14 parts)", ran.out)
        self.assertIn("as K11, contactor-24V-e", ran.out)
        connected = self.run_in_place("match", *names[:2], "--substitutes", names[2], "--connected")
        self.assertIn("keep (11 of 14 parts)", connected.out)
        self.assertIn("as Y1: would not hang together with the rest", connected.out)
        self.assertIn("proved: no list whose parts hang together keeps more\n", connected.out)

    def test_sections_without_entries_say_none(self) -> None:
        out = self.run_in_place("match", "old.txt", "old.txt").out
        self.assertIn("keep (7 of 7 parts)", out)
        self.assertIn("K1 - M1   power\n", out)
        for section in ("remove", "fit", "wires to take out", "wires to run anew"):
            self.assertIn(f"{section} (0)\n  none\n", out)
        self.write("none.txt", "")
        ran = self.run_in_place("match", "none.txt", "none.txt", "--minimum", "0")
        self.assertIn("keep (0 of 0 parts)\n  none\n", ran.out)
        self.assertIn("wires to keep (0)\n  none\n", ran.out)
        self.assertEqual(ran.err, "none.txt: note: a panel without parts\n" * 2)

    def test_without_substitutes(self) -> None:
        out = self.match().out
        self.assertIn("no new part of its kind\n", out)
        self.assertNotIn("contactor-e   as", out)

    def test_why_a_part_cannot_stay(self) -> None:
        self.write("old.txt", "part A a\npart B b\npart C b\npart D b\nwire A B x\nwire A C x\n"
                   "wire D D own\n")
        self.write("new.txt", "part A a\npart B b\npart C b\nwire A B x\nwire A C y\n")
        out = self.match("--plain").out
        self.assertIn("  C   b\n"
                      "      as C: old: a wire x between C and A; new: a wire y between C and A\n"
                      "      as B: serves B already\n", out)
        self.assertIn("as B: old: a wire own of D with itself; new: no wire of B with itself\n",
                      out)

    def test_at_most_four_reasons(self) -> None:
        self.write("old.txt", "\n".join(f"part R{n} relay" for n in range(8)))
        self.write("new.txt", "\n".join(f"part R{n} relay" for n in range(7)))
        out = self.match().out
        self.assertIn("  R7   relay\n       as R0: serves R0 already\n", out)
        self.assertIn("       as R3: serves R3 already\n       and 3 more\n", out)
        self.assertEqual(out.count("serves"), 4)
        self.assertEqual(len(self.match_json()["remove"][0]["why"]), 7)

    def test_names_with_blanks_are_in_quotes(self) -> None:
        self.write("old.txt", 'part "K 1" "re lay"\npart F fuse\nwire "K 1" F "po wer"\n')
        self.write("new.txt", 'part "Q 1" "re lay"\npart F fuse\nwire F "Q 1" "po wer"\n')
        out = self.match().out
        self.assertIn('  "K 1"   "re lay"   as "Q 1"\n', out)
        self.assertIn('  "K 1" - F   "po wer"   (as "Q 1" - F)\n', out)

    def test_graph_files(self) -> None:
        self.write("old", bytes([4, 2, 3, 7, 0, 3, 9, 0, 3, 7, 0, 2, 0, 1, 1, 2, 1, 2, 1, 0]))
        self.write("new", bytes([1, 9, 1, 8, 2, 0, 1, 1, 0]))
        self.write("sub.txt", "7 8\n")
        out = self.run_in_place("match", "old", "new", "--substitutes", "sub.txt").out
        self.assertIn("  0   7   as 1, 8\n  1   9   as 0\n", out)
        self.assertIn("text panel", self.refused("match", "old.txt", "new"))

    def test_minimum(self) -> None:
        out = self.match("--minimum", "7").out
        self.assertTrue(out.startswith("proved: no list keeps 7 or more parts\n"), out)
        answer = self.match_json("--minimum", "7", "--connected")
        self.assertEqual((answer["size"], answer["final"], answer["keep"], answer["remove"]),
                         (None, True, [], None))
        self.assertEqual(answer["proved"],
                         "no list whose parts hang together keeps 7 or more parts")

    def test_nothing_may_stay(self) -> None:
        self.write("new.txt", "part Q1 siren\n")
        out = self.match().out
        self.assertTrue(out.startswith("keep (0 of 7 parts)\n  none\nremove (7)\n"), out)
        self.assertIn("fit (1)\n  Q1   siren\n", out)
        self.assertIn("proved: no list keeps 1 or more parts\n", out)
        answer = self.match_json()
        self.assertEqual((len(answer["remove"]), len(answer["fit"])), (7, 1))
        self.assertIsNone(self.match_json("--minimum", "2")["remove"])

    def test_a_fault_of_the_command_is_no_stopped_search(self) -> None:
        with mock.patch.object(command, "_begin", side_effect=KeyError("fault")):
            ran = self.run_in_place("match", "old.txt", "new.txt")
        self.assertEqual((ran.status, ran.out), (2, ""))
        self.assertIn("KeyError: 'fault'", ran.err)

    def test_closed_streams(self) -> None:
        for closed, status in (("2>&-", 0), (">&-", 2)):
            script = f'exec "$0" -m golfcedar match old.txt new.txt --json {closed}'
            environment = dict(os.environ, PYTHONPATH=str(PACKAGE))
            ran = subprocess.run(["sh", "-c", script, sys.executable], env=environment,
                                 capture_output=True, text=True)
            self.assertEqual(ran.returncode, status)
            if status == 0:
                self.assertEqual(json.loads(ran.stdout)["format"], "golfcedar match 1")

    def test_plain_and_descend_agree(self) -> None:
        answers = [self.match_json(*options)
                   for options in ([], ["--descend"], ["--plain"], ["--plain", "--minimum", "3"])]
        self.assertEqual([answer["descend"] for answer in answers], [True, True, False, False])
        for answer in answers[1:]:
            self.assertEqual(answer["keep"], answers[0]["keep"])

    def test_stopped_with_a_list(self) -> None:
        def opened(parts: int, steps: int, *options: str) -> str:
            self.random_pair(parts)
            ran = self.match("--plain", "--steps", str(steps), *options, status=1)
            self.assertIn(f"go on: this run is not saved; with --resume FILE it would be\n{steps}"
                          " steps,", ran.out)
            self.assertIn("keep (", ran.out)
            return re.search("open: (.*)\n", ran.out).group(1)
        self.assertEqual(opened(5, 11), "2 parts stay in this list; whether a list keeps 3 is not"
                         " known yet")
        self.assertEqual(opened(5, 6), "2 parts stay in this list; whether a list keeps 3 or 4 is"
                         " not known yet")
        self.assertEqual(opened(6, 7), "2 parts stay in this list; whether a list keeps 3 to 5 is"
                         " not known yet")
        self.assertEqual(opened(5, 15, "--connected"), "1 part stays in this list; whether a list"
                         " whose parts hang together keeps 2 to 4 is not known yet")

    def test_stopped_without_a_list(self) -> None:
        ran = self.match("--steps", "0", "--substitutes", "sub.txt", status=1)
        self.assertRegex(ran.out, r"\Ano list yet; whether a list keeps 1 to 6 parts is not known"
                         r" yet, none keeps more\ngo on: .*\n0 steps, 0\.\d s\n\Z")
        ran = self.match("--steps", "0", "--minimum", "50", status=1)
        self.assertIn("no list yet; no list keeps more than 7 parts\n", ran.out)

    def test_parts_with_nothing_against_them(self) -> None:
        # A search does not hold a list that one more part could join, but a stopped one may say so.
        free = [golfcedar.Obstacle("P0", 0, None, None, "")]
        self.random_pair(5)
        with mock.patch.object(golfcedar.Result, "obstacles", return_value=free):
            out = self.match("--plain", "--steps", "11", status=1).out
            self.assertIn("as P0: nothing is against it so far\n", out)
        out = self.match("--plain", "--steps", "15", "--connected", status=1).out
        self.assertIn("as P0: would not hang together with the rest\n", out)

    def test_seconds(self) -> None:
        self.random_pair(40)
        began = time.monotonic()
        ran = self.match("--seconds", "0.2", status=1)
        self.assertLess(time.monotonic() - began, 2)
        self.assertIn("no list yet", ran.out)
        self.assertEqual(ran.err, "")

    def test_errors_of_both_panels_and_of_substitutes(self) -> None:
        self.write("old.txt", "part K1\n")
        self.write("new.txt", "x\ny\n")
        self.assertEqual(re.findall(r"^\S+:\d+", self.refused("match", "old.txt", "new.txt"), re.M),
                         ["old.txt:1", "new.txt:1", "new.txt:2"])
        self.write("sub.txt", "a\n")
        self.assertIn("sub.txt:1: too few words",
                      self.refused("match", *[self.write("o", "")] * 2, "--substitutes", "sub.txt"))

    def test_notes_of_substitutes(self) -> None:
        self.write("sub.txt", "contactr contactor-e\n")
        self.assertIn("sub.txt:1: note: no part of the old panel has kind contactr; did you mean"
                      " contactor?", self.match("--substitutes", "sub.txt").err)

    def test_options_that_are_not_understood(self) -> None:
        for options in (["--minimum", "65"], ["--minimum", "-1"], ["--steps", "1.5"],
                        ["--steps", "9" * 5000], ["--seconds", "nan"], ["--seconds", "inf"],
                        ["--seconds", "-1"], ["--seconds", "x"], ["--plain", "--descend"],
                        ["--unknown"], ["more.txt"], ["--step", "3"]):
            self.refused("match", "old.txt", "new.txt", *options)


class Json(CommandCase):
    def test_it_agrees_with_the_text(self) -> None:
        answer = self.match_json("--substitutes", "sub.txt")
        text = self.match("--substitutes", "sub.txt").out
        self.assertEqual({key: answer[key] for key in (
            "format", "state", "final", "size", "ceiling", "minimum", "connected", "descend",
            "proved", "picture")}, {
            "format": "golfcedar match 1", "state": "done", "final": True, "size": 5, "ceiling": 6,
            "minimum": 1, "connected": False, "descend": True,
            "proved": "no list keeps more parts", "picture": None})
        self.assertIn(f"{answer['steps']:,} steps", text)
        self.assertGreaterEqual(answer["seconds"], 0)
        self.assertEqual(answer["keep"][2], {"old": "K1", "new": "Q1", "old_kind": "contactor",
                                             "new_kind": "contactor-e"})
        for part in answer["keep"]:
            self.assertRegex(text, rf"\n  {part['old']} .* as {part['new']}")
        for part in answer["remove"]:
            self.assertRegex(text, rf"\n  {part['old']}   {part['kind']}\n")
            for reason in part["why"]:
                beginning = "" if reason["new"] is None else f"as {reason['new']}: "
                self.assertIn(f" {beginning}{reason['text']}\n", text)
        numbers = [[reason["number"] for reason in part["why"]] for part in answer["remove"]]
        self.assertEqual(numbers, [[22], [21]])
        self.assertEqual(answer["fit"], [{"new": "X1", "kind": "terminal"},
                                         {"new": "P1", "kind": "light"}])
        self.assertEqual([len(answer["wires"][key]) for key in ("keep", "take_out", "run_anew")],
                         [5, 2, 2])
        self.assertEqual(answer["wires"]["keep"][1],
                         {"old": ["F1", "K1"], "new": ["F1", "Q1"], "kind": "power"})
        self.assertEqual(answer["wires"]["take_out"][0], {"old": ["F1", "H1"], "kind": "power"})
        self.assertEqual(answer["wires"]["run_anew"][0], {"new": ["F1", "P1"], "kind": "power"})

    def test_stopped(self) -> None:
        answer = self.match_json("--steps", "1", status=1)
        self.assertEqual((answer["state"], answer["final"], answer["size"], answer["proved"]),
                         ("stopped", False, None, None))
        self.assertEqual([answer[key] for key in ("keep", "remove", "fit", "wires")],
                         [[], None, None, None])

    def test_final_before_it_is_done(self) -> None:
        kinds = "".join(f"part P{number} kind{number}\n" for number in range(4))
        self.write("old.txt", kinds)
        self.write("new.txt", kinds)
        answer = self.match_json("--steps", "5")
        self.assertEqual((answer["state"], answer["final"], answer["size"], answer["proved"]),
                         ("done", True, 4, "no list keeps more parts"))
        self.assertEqual(answer["steps"], 5)

    def test_options_are_told(self) -> None:
        answer = self.match_json("--minimum", "2", "--connected", "--plain")
        self.assertEqual([answer[key] for key in ("minimum", "connected", "descend")],
                         [2, True, False])

    def test_steps_of_all_runs(self) -> None:
        whole = self.match_json("--plain")
        self.match("--plain", "--resume", "saved", "--steps", "3", status=1)
        self.assertEqual(self.match_json("--plain", "--resume", "saved")["steps"], whole["steps"])

    def test_refusals_are_text(self) -> None:
        text = self.refused("match", "old.txt", "missing", "--json")
        self.assertTrue(text.startswith("missing: "), text)


class Resume(CommandCase):
    RESUME = ("--resume", "saved")

    def resumed(self, *options: str, status: int = 0) -> Ran:
        return self.match("--substitutes", "sub.txt", *self.RESUME, *options, status=status)

    def assert_refused(self, *options: str, old: str = "old.txt", new: str = "new.txt",
                       substitutes: str = "sub.txt") -> str:
        """The saved search is refused, with a text that says what to do, and stays as it is."""
        before = self.read("saved")
        text = self.refused("match", old, new, "--substitutes", substitutes, *self.RESUME, *options)
        self.assertRegex(text, "(?m)^saved: saved (for|with|without) ")
        self.assertIn("name another file, or remove this one to start anew", text)
        self.assertEqual(self.read("saved"), before)
        return text

    def test_stopped_anywhere_and_gone_on_is_one_go(self) -> None:
        for options in ([], ["--plain"], ["--connected"], ["--plain", "--connected"]):
            whole = self.match_json("--substitutes", "sub.txt", *options)
            for steps in (0, 1, 2, 7):
                with self.subTest(options=options, steps=steps):
                    Path("saved").unlink(missing_ok=True)
                    self.resumed("--steps", str(steps), *options, status=1)
                    rest = json.loads(self.resumed("--json", *options).out)
                    for key in ("keep", "remove", "fit", "wires", "size", "ceiling", "proved"):
                        self.assertEqual(rest[key], whole[key])

    def test_step_by_step(self) -> None:
        for expected in (1, 2, 3):
            out = self.resumed("--steps", "1", status=1).out
            self.assertIn(f"{expected} step", out)
            self.assertIn("go on: the same command; to have a list before the end, start anew with"
                          " --plain\n", out)
        self.assertIn("1 of them in this run", out)

    def test_a_panel_changed_while_the_search_ran(self) -> None:
        go = command._Run.go
        for name in ("old.txt", "new.txt", "sub.txt"):
            def changing(run: command._Run) -> None:
                go(run)
                self.write(name, self.read(name) + b"# changed\n")
            with mock.patch.object(command._Run, "go", changing):
                text = self.refused("match", "old.txt", "new.txt", "--substitutes", "sub.txt")
            self.assertIn(f"{name}: changed while the search ran", text)

    def test_panels_through_pipes(self) -> None:
        script = 'exec "$0" -m golfcedar match <(cat old.txt) <(cat new.txt) --json'
        ran = subprocess.run(["bash", "-c", script, sys.executable], capture_output=True,
                             text=True, env=dict(os.environ, PYTHONPATH=str(PACKAGE)))
        self.assertEqual(json.loads(ran.stdout)["keep"], self.match_json()["keep"])

    def test_two_runs_of_one_file(self) -> None:
        advance = command._Run._advance
        def meanwhile(run: command._Run, signals: command._Signals) -> None:
            self.write("saved", "what another run saved")
            advance(run, signals)
        with mock.patch.object(command._Run, "_advance", meanwhile):
            ran = self.resumed("--steps", "1", status=1)
        self.assertIn("saved: changed by another run", ran.err)
        self.assertIn("this run is not saved", ran.out)
        self.assertEqual(self.read("saved"), b"what another run saved")

    def test_a_final_search_is_not_searched_again(self) -> None:
        first = self.resumed().out
        with mock.patch.object(Search, "advance", side_effect=AssertionError), \
                mock.patch.object(Search, "save", side_effect=AssertionError):
            again = self.resumed().out
        self.assertEqual(again.splitlines()[:-1], first.splitlines()[:-1])
        self.assertIn(" 0 of them in this run", again)

    def test_one_wire_corrected(self) -> None:
        for steps in (["--steps", "2"], []):
            self.write("new.txt", NEW)
            Path("saved").unlink(missing_ok=True)
            self.resumed(*steps, status=1 if steps else 0)
            self.write("new.txt", NEW.replace("wire Q2 X1 power", "wire Q2 X1 control"))
            self.assertIn("new", self.assert_refused())
            self.assert_refused("--json")
            self.write("new.txt", NEW)
            self.resumed()

    def test_other_substitutes(self) -> None:
        self.resumed("--steps", "2", status=1)
        self.write("sub.txt", "contactor contactor-e\nhorn light\n")
        self.assertIn("substitutes", self.assert_refused())
        self.write("empty.txt", "")
        self.assert_refused(substitutes="empty.txt")

    def test_old_and_new_exchanged(self) -> None:
        self.resumed()
        self.assert_refused(old="new.txt", new="old.txt")

    def test_other_options(self) -> None:
        # An option left out counts as its default: what was saved answers another question.
        self.resumed("--minimum", "2", "--steps", "1", status=1)
        for options in ([], ["--minimum", "3"], ["--minimum", "2", "--connected"],
                        ["--minimum", "2", "--plain"]):
            self.assert_refused(*options)
        self.resumed("--minimum", "2", "--descend")

    def test_a_connected_search_is_no_answer_to_the_other_one(self) -> None:
        self.resumed("--connected")
        self.assert_refused()

    def test_a_part_renamed_in_both_panels(self) -> None:
        # The library knows numbers and no names: with other names for the same parts the graph
        # bytes are the same, so is the question, and the answer shows the names as they are now.
        self.resumed("--steps", "2", status=1)
        self.write("old.txt", OLD.replace("M1", "M77"))
        self.write("new.txt", NEW.replace("M1", "M78"))
        out = self.resumed().out
        self.assertRegex(out, r"  M77 +motor +as M78\n")
        self.assertNotIn("M1 ", out)

    def test_lines_in_another_order_are_another_question(self) -> None:
        # The parts are numbered in the order of their lines, and the numbers are what is saved.
        self.resumed("--steps", "2", status=1)
        lines = OLD.splitlines()
        self.write("old.txt", "\n".join([lines[1], lines[0], *lines[2:]]))
        self.assert_refused()
        # Wires have no numbers.
        self.write("old.txt", "\n".join([*lines[:7], *reversed(lines[7:])]))
        self.resumed()

    def test_damaged(self) -> None:
        self.resumed("--steps", "2", status=1)
        whole = self.read("saved")
        for content in (whole[:-20], whole.replace(b'"minimum": 1', b'"minimum": 0'), b"", b"\0\1"):
            self.write("saved", content)
            text = self.refused("match", "old.txt", "new.txt", "--substitutes", "sub.txt",
                                *self.RESUME)
            self.assertTrue(text.startswith("saved: "), text)
            self.assertIn("name another file", text)
            self.assertEqual(self.read("saved"), content)

    def test_files_that_are_read_are_not_written_to(self) -> None:
        for name in ("old.txt", "new.txt", "sub.txt", "./old.txt"):
            before = self.read(name)
            for option in ("--resume", "--svg"):
                text = self.refused("match", "old.txt", "new.txt", "--substitutes", "sub.txt",
                                    option, name)
                self.assertIn(f"{name}: the ", text)
            self.assertEqual(self.read(name), before)
        self.refused("match", "old.txt", "new.txt", "--resume", "x", "--svg", "x")
        self.assertFalse(Path("x").exists())

    def test_a_file_that_cannot_be_written_is_known_before(self) -> None:
        with mock.patch.object(Search, "advance", side_effect=AssertionError):
            text = self.refused("match", "old.txt", "new.txt", "--resume", "no/folder")
            self.assertTrue(text.startswith("no/folder: "), text)
            self.refused("match", "old.txt", "new.txt", "--resume", ".")

    def test_saved_from_time_to_time(self) -> None:
        self.random_pair(40)
        with mock.patch.object(command, "SAVE_SECONDS", 0), \
                mock.patch.object(Search, "save", autospec=True) as save:
            self.match(*self.RESUME, "--steps", "20000", status=1)
        self.assertGreater(save.call_count, 3)

    def test_a_save_that_fails_later_does_not_lose_the_answer(self) -> None:
        full = OSError(28, "No space left on device")
        with mock.patch.object(Search, "save", side_effect=[None, full]):
            ran = self.match(*self.RESUME)
        self.assertIn("saved: not saved, it has an earlier state: No space left", ran.err)
        self.assertIn("proved: ", ran.out)


class Stopping(CommandCase):
    def test_signals(self) -> None:
        self.random_pair(40)
        for number in (signal.SIGINT, signal.SIGTERM):
            saved = f"saved{number}"
            # A run in the background may have come with SIGINT ignored.
            process = self.start("match", "old.txt", "new.txt", "--resume", saved, preexec_fn=(
                lambda: signal.signal(signal.SIGINT, signal.default_int_handler)))
            while not Path(saved).exists():
                self.assertIsNone(process.poll())
                time.sleep(0.01)
            time.sleep(0.15)
            process.send_signal(number)
            out, err = process.communicate(timeout=20)
            self.assertEqual((process.returncode, err), (1, ""))
            self.assertIn("no list yet", out)
            self.assertIn("go on: the same command", out)
            steps = json.loads(self.read(saved))["steps"]
            self.assertGreater(steps, 0)
            self.assertIn(f"{steps:,} steps", out)
            again = self.match("--resume", saved, "--steps", "5", status=1)
            self.assertIn(f"{steps + 5:,} steps, 5 of them in this run", again.out)
        self.assertEqual(sorted(os.listdir()),
                         ["new.txt", "old.txt", "saved15", "saved2", "sub.txt"])

    def test_handlers_are_put_back(self) -> None:
        before = signal.getsignal(signal.SIGINT)
        self.match()
        self.assertIs(signal.getsignal(signal.SIGINT), before)

    def test_an_interrupt_elsewhere(self) -> None:
        with mock.patch.object(command, "read_panel", side_effect=KeyboardInterrupt):
            ran = self.run_in_place("check", "old.txt")
        self.assertEqual((ran.status, ran.err), (1, "golfcedar: stopped\n"))

    def test_broken_pipe(self) -> None:
        process = self.start("match", "old.txt", "new.txt")
        process.stdout.close()
        process.stdout = None
        _, err = process.communicate(timeout=20)
        self.assertEqual((process.returncode, err), (0, ""))

    @unittest.skipUnless(os.path.exists("/dev/full"), "needs /dev/full")
    def test_an_answer_that_cannot_be_written(self) -> None:
        environment = dict(os.environ, PYTHONPATH=str(PACKAGE))
        with open("/dev/full", "w") as full:
            done = subprocess.run([sys.executable, "-m", "golfcedar", "limit", "3", "2"],
                                  stdout=full, stderr=subprocess.PIPE, text=True, env=environment,
                                  timeout=20)
        self.assertEqual(done.returncode, 2)
        self.assertRegex(done.stderr, r"\Agolfcedar: standard output: .*\n\Z")


class Progress(CommandCase):
    def progress(self, *options: str) -> str:
        self.random_pair(40)
        with mock.patch.object(command, "PROGRESS_SECONDS", 0):
            return self.run_in_place("match", "old.txt", "new.txt", "--steps", "30000", *options,
                                     err=Terminal()).err

    def test_the_line(self) -> None:
        lines = self.progress().split("\r")
        self.assertRegex(lines[1], r"\Aat least 0, at most \d+ of 40 parts stay; 1,000 steps;"
                         r" 0\.\d s\Z")
        self.assertGreater(len(lines), 4)
        self.assertEqual(lines[-2].strip(" "), "")
        self.assertEqual(lines[-1], "")
        self.assertGreaterEqual(len(lines[-2]), len(lines[-3]))

    def test_a_list_that_is_held(self) -> None:
        self.assertRegex(self.progress("--plain"), r"at least [1-9]\d*, at most \d+ of 40 parts")

    def test_none_where_nobody_looks(self) -> None:
        self.assertEqual(self.progress("--quiet"), "")
        self.assertEqual(self.progress("--json"), "")
        self.assertEqual(self.match("--steps", "2000", status=1).err, "")


class Svg(CommandCase):
    def test_a_picture(self) -> None:
        ran = self.match("--svg", "list.svg")
        self.assertTrue(ran.out.endswith("picture: list.svg\n"))
        root = xml.etree.ElementTree.fromstring(self.read("list.svg"))
        self.assertTrue(root.tag.endswith("svg"))
        text = " ".join(root.itertext())
        for word in ("main switch", "Q0", "contactor-e", "old.txt", "no list keeps more parts"):
            self.assertIn(word, text)
        self.assertEqual(self.match_json("--svg", "list.svg")["picture"], "list.svg")

    def test_of_a_stopped_search(self) -> None:
        self.random_pair(5)
        self.match("--plain", "--steps", "6", "--svg", "list.svg", status=1)
        self.assertIn("is not known yet", self.read("list.svg").decode("utf-8"))

    def test_no_list_no_picture(self) -> None:
        ran = self.match("--minimum", "7", "--svg", "list.svg")
        self.assertIn("list.svg: note: no picture", ran.err)
        self.assertNotIn("picture:", ran.out)
        self.assertFalse(Path("list.svg").exists())
        self.assertIsNone(self.match_json("--minimum", "7", "--svg", "list.svg")["picture"])

    def test_places_that_cannot_be_written(self) -> None:
        for file in ("no/folder.svg", "."):
            self.refused("match", "old.txt", "new.txt", "--svg", file)

    def test_a_write_that_fails_leaves_the_earlier_picture(self) -> None:
        self.match("--svg", "list.svg")
        earlier = self.read("list.svg")
        with mock.patch.object(command.os, "replace", side_effect=OSError(28, "No space left")):
            ran = self.match("--svg", "list.svg", "--connected", status=2)
        self.assertIn("list.svg: No space left\n", ran.err)
        self.assertIn("proved:", ran.out)
        self.assertEqual(self.read("list.svg"), earlier)
        self.assertEqual(len(os.listdir()), 4)

    def test_no_earlier_picture_is_left_without_a_list(self) -> None:
        for options, status in ((["--minimum", "7"], 0), (["--steps", "1"], 1)):
            self.match("--svg", "list.svg")
            self.match("--svg", "list.svg", *options, status=status)
            self.assertFalse(Path("list.svg").exists())

    def test_other_files_are_not_overwritten(self) -> None:
        self.write("notes.svg", "mine")
        self.refused("match", "old.txt", "new.txt", "--svg", "notes.svg")
        self.assertEqual(self.read("notes.svg"), b"mine")


class Check(CommandCase):
    def test_panels(self) -> None:
        ran = self.run_in_place("check", "old.txt", "new.txt", "old.txt")
        self.assertEqual((ran.status, ran.err), (0, ""))
        self.assertEqual(ran.out, "old.txt: 7 parts, 7 wires\nnew.txt: 7 parts, 7 wires\n"
                         "old.txt: 7 parts, 7 wires\n")
        self.write("one", "part K1 relay\nwire K1 K1 hold\n")
        self.assertEqual(self.run_in_place("check", "one").out, "one: 1 part, 1 wire\n")

    def test_panels_with_errors(self) -> None:
        self.write("faulty", "part K1\nx\n")
        ran = self.run_in_place("check", "faulty", "old.txt", "missing")
        self.assertEqual((ran.status, ran.out), (2, "old.txt: 7 parts, 7 wires\n"))
        self.assertRegex(ran.err, r"\Afaulty:1: .*\nfaulty:2: .*\nmissing: No such file.*\n\Z")

    def check_list(self, content: str, *options: str) -> Ran:
        self.write("list.txt", content)
        return self.run_in_place("check", "old.txt", "new.txt", "--list", "list.txt", *options)

    def test_a_list_that_fits(self) -> None:
        ran = self.check_list("S1 Q0\nF1 F1 # a comment\n\nK2 Q2\n")
        self.assertEqual(ran, Ran(0, "fits: 3 parts\n", ""))
        self.assertEqual(self.check_list("M1 M1\n").out, "fits: 1 part\n")
        self.assertEqual(self.check_list("").out, "fits: 0 parts\n")
        ran = self.check_list("K1 Q1\n", "--substitutes", "sub.txt")
        self.assertEqual(ran, Ran(0, "fits: 1 part\n", ""))

    def test_what_match_answers_fits(self) -> None:
        answer = self.match_json("--substitutes", "sub.txt")
        pairs = "".join(f"{part['old']} {part['new']}\n" for part in answer["keep"])
        self.assertEqual(self.check_list(pairs, "--substitutes", "sub.txt").out, "fits: 5 parts\n")

    def assert_misfit(self, content: str, text: str) -> None:
        ran = self.check_list(content)
        self.assertEqual((ran.status, ran.out, ran.err), (2, "", f"list.txt:{text}\n"))

    def test_lists_that_do_not_fit(self) -> None:
        unlike = ("K1 as Q1 does not fit: K1 is of kind contactor, Q1 of kind contactor-e"
                  " (refusal 21)")
        self.assert_misfit("S1 Q0\nK1 Q1\n", f"2: {unlike}")
        self.assert_misfit("K1 Q1\n", f"1: {unlike}")
        self.assert_misfit("K2 Q2\nX1 X1\n", "2: X1 as X1 does not fit: old: a wire control between"
                           " X1 and K2; new: a wire power between X1 and Q2 (line 1) (refusal 22)")
        self.assert_misfit("K1 Q2\n", "1: K1 as Q2 does not fit: old: a wire hold of K1 with"
                           " itself; new: no wire of Q2 with itself (refusal 22)")
        self.write("old.txt", OLD.replace("wire K1 K1 hold\n", ""))
        self.assert_misfit("K2 Q2\nK1 Q2\n", "1: K2 as Q2 does not fit: Q2 serves K1 already"
                           " (line 2) (refusal 20)")

    def test_unknown_names(self) -> None:
        ran = self.check_list("S9 Q0\nK1 Q77\n")
        self.assertEqual(ran.status, 2)
        self.assertRegex(ran.err, r"\Alist.txt:1: old.txt has no part S9.*\n"
                         r"list.txt:2: new.txt has no part Q77.*\n\Z")

    def test_usage(self) -> None:
        self.refused("check")
        self.refused("check", "old.txt", "--list", "sub.txt")
        self.refused("check", "old.txt", "new.txt", "new.txt", "--list", "sub.txt")
        self.refused("check", "old.txt", "new.txt", "--substitutes", "sub.txt")


class Limit(CommandCase):
    def limit(self, old: str, new: str) -> str:
        ran = self.run_in_place("limit", old, new)
        self.assertEqual((ran.status, ran.err), (0, ""))
        return ran.out

    def test_numbers(self) -> None:
        self.assertEqual(self.limit("3", "2"), "at most 24 steps\n")
        self.assertEqual(self.limit("2", "3"), "at most 18 steps\n")
        self.assertEqual(self.limit("0", "5"), "at most 1 step\n")
        self.assertEqual(self.limit("08", "8"), "at most 1,952,457 steps\n")
        self.assertEqual(self.limit("64", "64"), "2^64 - 1 steps or more (says nothing about how"
                         " long a search takes)\n")

    def test_panels(self) -> None:
        self.assertEqual(self.limit("old.txt", "new.txt"), self.limit("7", "7"))
        self.assertEqual(self.limit("old.txt", "2"), self.limit("7", "2"))

    def test_enough_steps(self) -> None:
        steps = re.sub(r"\D", "", self.limit("old.txt", "new.txt"))
        self.match("--plain", "--steps", steps)

    def test_refused(self) -> None:
        for old, new in (("65", "1"), ("1", "65"), ("9" * 30, "1")):
            self.assertIn("(refusal 26)", self.refused("limit", old, new))
        self.assertTrue(self.refused("limit", "-x", "1"))
        self.assertIn("missing: ", self.refused("limit", "missing", "1"))


class Move(CommandCase):
    FIRST = bytes([1, 7, 1, 9, 2, 0, 1, 3, 0])
    SECOND = bytes([4, 2, 3, 7, 0, 3, 9, 0, 2, 0, 1, 3, 0])

    def test_there_and_back(self) -> None:
        self.write("first", self.FIRST)
        self.assertEqual(self.run_in_place("move", "first", "second"), Ran(0, "", ""))
        self.assertEqual(self.read("second"), self.SECOND)
        self.assertEqual(self.run_in_place("move", "--back", "second", "again").status, 0)
        self.assertEqual(self.read("again"), self.FIRST)

    def test_refusals_leave_no_file(self) -> None:
        self.write("wide", bytes([4, 2, 3, 44, 1, 0]))
        self.assertRegex(self.refused("move", "--back", "wide", "to"),
                         r"\Awide: byte 2: .+ \(refusal 28\)\n\Z")
        self.write("cut", self.FIRST[:-1])
        self.assertRegex(self.refused("move", "cut", "to"), r"\Acut: byte 8: .+ \(refusal 1\)\n\Z")
        self.assertIn("(refusal 2)", self.refused("move", "wide", "to"))
        self.write("long", self.FIRST + bytes(100_000))
        self.assertIn("byte 9: ", self.refused("move", "long", "to"))
        self.assertIn("missing: ", self.refused("move", "missing", "to"))
        self.assertFalse(Path("to").exists())

    def test_nothing_is_overwritten(self) -> None:
        self.write("first", self.FIRST)
        for target in ("old.txt", "first"):
            before = self.read(target)
            self.assertIn(f"{target}: exists already", self.refused("move", "first", target))
            self.assertEqual(self.read(target), before)
        self.assertTrue(self.refused("move", "first", "no/folder").startswith("no/folder: "))

    def test_a_write_that_fails_leaves_no_file(self) -> None:
        self.write("first", self.FIRST)
        stream = mock.MagicMock()
        stream.write.side_effect = OSError(28, "No space left")
        stream.__exit__.return_value = False

        def opened(file: str, mode: str, *_: object):
            if mode == "xb":
                self.write(file, b"half")
                return stream
            return io.open(file, mode)
        with mock.patch.object(command, "open", opened, create=True):
            self.assertEqual(self.refused("move", "first", "to"), "to: No space left\n")
        self.assertFalse(Path("to").exists())


class Help(CommandCase):
    def test_help(self) -> None:
        for words in ([], ["match"], ["check"], ["limit"], ["move"]):
            ran = self.run_in_place(*words, "--help")
            self.assertEqual((ran.status, ran.err), (0, ""))
            self.assertIn("exit status:", ran.out)
            self.assertTrue(all(len(line) <= 100 for line in ran.out.splitlines()))
        self.assertIn("part K1 contactor", self.run_in_place("match", "--help").out)

    def test_version(self) -> None:
        ran = self.run_in_place("--version")
        self.assertEqual((ran.status, ran.err), (0, ""))
        self.assertRegex(ran.out, r"\Agolfcedar \d+\.\d+\.\d+\n\Z")

    def test_no_command(self) -> None:
        self.refused()
        self.refused("mach", "old.txt", "new.txt")

    def test_a_missing_library(self) -> None:
        environment = dict(os.environ, PYTHONPATH=str(PACKAGE), GOLFCEDAR_LIBRARY="missing.so")
        done = subprocess.run([sys.executable, "-m", "golfcedar", "--version"], text=True,
                              stdout=subprocess.PIPE, stderr=subprocess.PIPE, env=environment,
                              timeout=20)
        self.assertEqual((done.returncode, done.stdout), (2, ""))
        self.assertTrue(done.stderr.startswith("golfcedar: "), done.stderr)


if __name__ == "__main__":
    unittest.main()
