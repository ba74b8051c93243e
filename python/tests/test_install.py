"""What `make install` puts under a prefix is whole, and works from there."""

from __future__ import annotations

import os
import shutil
import subprocess
import sys
import tempfile
import unittest
from pathlib import Path

CLONE = Path(__file__).resolve().parents[2]
PANELS = CLONE / "examples" / "panels"

CALLER = """
#include <golfcedar.h>
#include <stdio.h>

int main(void)
{
    uint8_t text[GOLFCEDAR_REASON_BYTES];
    uint64_t length;
    if (golfcedar_version() != GOLFCEDAR_VERSION)
        return 1;
    if (golfcedar_reason(8, text, sizeof text, &length) != 0)
        return 1;
    printf("%.*s\\n", (int)length, (const char *)text);
    return 0;
}
"""


def run(*command: object, **options: object) -> subprocess.CompletedProcess[str]:
    words = [str(word) for word in command]
    return subprocess.run(words, capture_output=True, text=True, **options)  # type: ignore


def without_clone() -> dict[str, str]:
    """An environment in which nothing leads to the clone."""
    names = ("PYTHONPATH", "GOLFCEDAR_LIBRARY", "MAKEFLAGS", "MAKELEVEL")
    return {name: value for name, value in os.environ.items() if name not in names}


@unittest.skipUnless(shutil.which("make"), "make is needed to install")
class Install(unittest.TestCase):
    @classmethod
    def setUpClass(cls) -> None:
        cls.folder = tempfile.TemporaryDirectory()
        cls.addClassCleanup(cls.folder.cleanup)
        cls.prefix = Path(cls.folder.name) / "prefix"
        made = cls.make("install", f"PREFIX={cls.prefix}")
        if made.returncode != 0:
            raise AssertionError(made.stderr)

    @classmethod
    def make(cls, *words: str, umask: int = -1) -> subprocess.CompletedProcess[str]:
        words = *words, f"PYTHON={sys.executable}"
        return run("make", *words, cwd=CLONE, env=without_clone(), umask=umask)

    def installed(self, prefix: Path) -> set[str]:
        return {
            str(path.relative_to(prefix))
            for path in prefix.rglob("*")
            if not path.is_dir() and "__pycache__" not in path.parts
        }

    def test_every_file(self) -> None:
        files = self.installed(self.prefix)
        modules = {name for name in files if "/golfcedar/" in name}
        source = {path.name for path in (CLONE / "python" / "golfcedar").glob("*.py")}
        self.assertEqual(
            {Path(name).name for name in modules}, source | {"py.typed", "_installed.py"}
        )
        versioned = [name for name in files if name.startswith("lib/libgolfcedar.so.1.")]
        self.assertEqual(len(versioned), 1)
        self.assertEqual(
            files - modules - set(versioned),
            {
                "bin/golfcedar",
                "include/golfcedar.h",
                "lib/libgolfcedar.a",
                "lib/libgolfcedar.so",
                "lib/libgolfcedar.so.1",
                "lib/pkgconfig/golfcedar.pc",
                "share/man/man1/golfcedar.1",
            },
        )

    def test_command(self) -> None:
        command = self.prefix / "bin" / "golfcedar"
        files = (PANELS / f"{name}.txt" for name in ("old", "new", "substitutes"))
        old, new, substitutes = files
        words = "match", old, new, "--substitutes", substitutes
        done = run(command, *words, env=without_clone(), cwd=self.folder.name)
        self.assertEqual((done.returncode, done.stderr), (0, ""))
        self.assertIn("proved: no list keeps more parts", done.stdout)

    def test_module_uses_the_installed_library(self) -> None:
        module = next(self.prefix.rglob("golfcedar/_library.py")).parents[1]
        told = run(
            sys.executable,
            "-c",
            "from golfcedar import _library; print(_library._shared_library()._name)",
            env={**without_clone(), "PYTHONPATH": str(module)},
            cwd=self.folder.name,
        )
        self.assertEqual(told.stdout.strip(), str(self.prefix / "lib" / "libgolfcedar.so.1"))

    @unittest.skipUnless(shutil.which("cc"), "cc is needed to link a program")
    def test_program_links(self) -> None:
        source = Path(self.folder.name) / "caller.c"
        source.write_text(CALLER)
        pc = (self.prefix / "lib" / "pkgconfig" / "golfcedar.pc").read_text()
        fields = dict(line.split(": ", 1) for line in pc.splitlines() if ": " in line)
        variables = dict(line.split("=", 1) for line in pc.splitlines() if "=" in line)
        flags = f"{fields['Cflags']} {fields['Libs']}"
        for name, value in variables.items():
            flags = flags.replace(f"${{{name}}}", value)
        program = source.with_suffix("")
        built = run("cc", source, *flags.split(), "-o", program)
        self.assertEqual(built.returncode, 0, built.stderr)
        environment = {**without_clone(), "LD_LIBRARY_PATH": str(self.prefix / "lib")}
        told = run(program, env=environment)
        self.assertEqual((told.returncode, told.stdout), (0, "an edge that is given already\n"))

    def test_paths_that_are_not_whole(self) -> None:
        for words in (["PREFIX=out"], ["PREFIX=/usr", "PYTHON=no-python"]):
            with tempfile.TemporaryDirectory() as stage:
                for target in ("install", "uninstall"):
                    made = run("make", target, *words, f"DESTDIR={stage}", cwd=CLONE,
                               env=without_clone())
                    self.assertNotEqual(made.returncode, 0)
                self.assertEqual(os.listdir(stage), [])

    def test_readable_for_all(self) -> None:
        with tempfile.TemporaryDirectory() as folder:
            made = self.make("install", f"DESTDIR={folder}", "PREFIX=/usr", umask=0o077)
            self.assertEqual(made.returncode, 0, made.stderr)
            for path in Path(folder).rglob("*"):
                if path.is_file():
                    self.assertEqual(path.stat().st_mode & 0o444, 0o444, path)

    def test_uninstall_leaves_nothing(self) -> None:
        with tempfile.TemporaryDirectory() as folder:
            stage = Path(folder)
            for target in ("install", "uninstall"):
                made = self.make(target, f"DESTDIR={stage}", "PREFIX=/usr/local")
                self.assertEqual(made.returncode, 0, made.stderr)
                files = self.installed(stage)
                self.assertTrue(all(name.startswith("usr/local/") for name in files))
                self.assertEqual(bool(files), target == "install")


if __name__ == "__main__":
    unittest.main()
