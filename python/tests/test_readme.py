"""What README.md shows of the command and the module is what they do."""

from __future__ import annotations

import contextlib
import io
import os
import re
import shlex
import subprocess
import tempfile
import unittest
from pathlib import Path

from golfcedar.command import main

CLONE = Path(__file__).resolve().parents[2]
README = (CLONE / "README.md").read_text(encoding="utf-8")
SKIPPED = ".."


def block_after(text: str, language: str = "") -> str:
    """The first block of that language behind a text of README.md."""
    behind = README.split(text, 1)[1]
    found = re.search(rf"^```{language}\n(.*?)^```$", behind, re.MULTILINE | re.DOTALL)
    if found is None:
        raise AssertionError(f"no block behind {text!r}")
    return found[1]


class Readme(unittest.TestCase):
    def setUp(self) -> None:
        folder = tempfile.TemporaryDirectory()
        self.addCleanup(folder.cleanup)
        self.addCleanup(os.chdir, os.getcwd())
        os.chdir(folder.name)
        os.symlink(CLONE / "examples", "examples")

    def run_command(self, words: list[str]) -> tuple[int, list[str]]:
        out = io.StringIO()
        with contextlib.redirect_stdout(out):
            status = main(words)
        return status, out.getvalue().splitlines()

    def test_main_job(self) -> None:
        lines = README.splitlines()
        line = next(line for line in lines if line.startswith("    ./golfcedar match "))
        status, answer = self.run_command(shlex.split(line)[1:])
        self.assertEqual(status, 0)
        self.assertEqual(Path("picture.svg").read_bytes(), (CLONE / "docs/panels.svg").read_bytes())
        place = 0
        for shown in block_after(line).splitlines():
            if shown.strip() == SKIPPED:
                continue
            if re.fullmatch(r"\d+ steps, .* s", shown):
                shown = next(line for line in answer if re.fullmatch(r"\d+ steps, .* s", line))
            self.assertIn(shown, answer[place:])
            place = answer.index(shown, place) + 1

    def test_script_from_anywhere(self) -> None:
        os.symlink(CLONE / "golfcedar", "linked")
        told = subprocess.run(["./linked", "--version"], capture_output=True, text=True)
        self.assertEqual((told.returncode, told.stderr), (0, ""))
        self.assertRegex(told.stdout, r"^golfcedar \d+\.\d+\.\d+\n$")

    def test_script_takes_no_module_of_the_folder(self) -> None:
        Path("json.py").write_text("raise SystemExit(9)\n")
        os.mkdir("golfcedar")
        words = [CLONE / "golfcedar", "match", CLONE / "examples/panels/old.txt"]
        told = subprocess.run([*words, words[-1], "--json"], capture_output=True, text=True)
        self.assertEqual((told.returncode, told.stderr), (0, ""))
        self.assertIn('"size": 14', told.stdout)

    def test_panel_that_is_shown(self) -> None:
        text = README.split("# the old panel\n", 1)[1].split("\n\n", 1)[0]
        Path("panel.txt").write_text(text, encoding="utf-8")
        self.assertEqual(
            self.run_command(["check", "panel.txt"]), (0, ["panel.txt: 3 parts, 2 wires"])
        )

    def test_module(self) -> None:
        out = io.StringIO()
        with contextlib.redirect_stdout(out):
            exec(compile(block_after("use it from Python", "python"), "README.md", "exec"), {})
        self.assertEqual(
            out.getvalue().splitlines(),
            ["2 3 6", "True {'K1': 'K', 'S1': 'S'} ['K2'] []"],
        )


if __name__ == "__main__":
    unittest.main()
