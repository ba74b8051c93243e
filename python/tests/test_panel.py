"""Panels, substitutes and lists as text: what is read, and each error with its line."""

from __future__ import annotations

import tempfile
import unittest
from pathlib import Path

from golfcedar import Graph, GolfcedarError
from golfcedar.panel import (Panel, PanelError, check_pair, near_kinds, read_list, read_panel,
                             read_substitutes, shown)


class PanelCase(unittest.TestCase):
    """A folder for files, and short ways to read them."""

    def setUp(self) -> None:
        folder = tempfile.TemporaryDirectory()
        self.addCleanup(folder.cleanup)
        self.folder = Path(folder.name)

    def file(self, content: str | bytes, name: str = "panel.txt") -> str:
        path = self.folder / name
        path.write_bytes(content.encode("utf-8") if isinstance(content, str) else content)
        return str(path)

    def panel(self, content: str | bytes, name: str = "panel.txt"):
        return read_panel(self.file(content, name))

    def errors(self, content: str | bytes, read=read_panel) -> list[tuple[int | None, str]]:
        """Line and text of each error."""
        file = self.file(content, "faulty.txt")
        with self.assertRaises(PanelError) as caught:
            read(file)
        for error in caught.exception.every():
            self.assertEqual(error.file, file)
            place = file if error.line is None else f"{file}:{error.line}"
            self.assertEqual(str(error), f"{place}: {error.what}")
        return [(error.line, error.what) for error in caught.exception.every()]

    def assert_error(self, content: str | bytes, line: int | None, *words: str,
                     read=read_panel) -> None:
        """Exactly one error, at this line, with these words."""
        errors = self.errors(content, read)
        self.assertEqual([found for found, _ in errors], [line], errors)
        for word in words:
            self.assertIn(word, errors[0][1])


class Reading(PanelCase):
    def test_a_panel(self) -> None:
        panel = self.panel("# a comment\n"
                           "wire K1 M1 power # the wire comes before its parts\n"
                           "\n"
                           "part K1\tcontactor\n"
                           '  part M1 "hoist motor"\n'
                           "wire K1 K1 hold\n")
        self.assertEqual(panel.graph, Graph([("K1", "contactor"), ("M1", "hoist motor")],
                                            [("K1", "M1", "power"), ("K1", "K1", "hold")]))
        self.assertEqual(panel.wire_kinds, {"power": 2, "hold": 6})
        self.assertEqual(panel.kind("M1"), "hoist motor")
        self.assertEqual(panel.wire("M1", "K1"), "power")
        self.assertIsNone(panel.wire("M1", "M1"))
        self.assertEqual(panel.notes, ())

    def test_windows_line_ends_and_byte_order_mark(self) -> None:
        panel = self.panel(b"\xef\xbb\xbfpart K1 relay\r\npart K2 relay\r\nwire K1 K2 a\r\n")
        self.assertEqual(panel.graph.names, ("K1", "K2"))
        self.assertEqual(panel.wire("K1", "K2"), "a")

    def test_no_line_end_at_the_end(self) -> None:
        self.assertEqual(self.panel("part K1 relay").graph.labels, ("relay",))

    def test_quotes_keep_blanks_and_comment_signs(self) -> None:
        panel = self.panel('part "K 1" "relay #2"# the comment\n')
        self.assertEqual((panel.graph.names, panel.graph.labels), (("K 1",), ("relay #2",)))

    def test_a_comment_right_after_a_word_is_noted(self) -> None:
        panel = self.panel("part F1 fuse#16A\n")
        self.assertEqual(panel.graph.labels, ("fuse",))
        self.assertEqual(len(panel.notes), 1)
        self.assertIn(":1: note: the # right after a word", panel.notes[0])

    def test_one_letter_spelled_in_two_ways_is_one(self) -> None:
        panel = self.panel("part Tür motor\nwire Tu\u0308r Tür a\n")
        self.assertEqual(panel.wire("Tür", "Tür"), "a")

    def test_kinds_are_told_apart_by_their_letters(self) -> None:
        panel = self.panel("part a relay\npart b Relay\npart c 7\npart d 07\n")
        self.assertEqual(panel.graph.labels, ("relay", "Relay", "7", "07"))

    def test_empty_panels_are_noted(self) -> None:
        for content in ("", "# nothing here\n", b"\xef\xbb\xbf", b"\4\2\0", b"\0"):
            panel = self.panel(content)
            self.assertEqual(len(panel.graph), 0)
            self.assertIn("note: a panel without parts", panel.notes[0])

    def test_the_largest_panel(self) -> None:
        lines = [f"part K{n} relay" for n in range(64)]
        lines += [f"wire K{a} K{b} w{(a * 64 + b) % 255}" for a in range(64) for b in range(a + 1)]
        panel = self.panel("\n".join(lines))
        self.assertEqual((len(panel.graph), len(panel.graph.edges)), (64, 2080))
        check_pair(panel, panel)

    def test_wire_kinds_of_both_panels_together(self) -> None:
        def with_kinds(*numbers: int) -> Panel:
            lines = [f"part K{n} relay" for n in range(64)]
            ends = [(a, b) for a in range(64) for b in range(a + 1)]
            lines += [f"wire K{a} K{b} w{n}" for (a, b), n in zip(ends, numbers)]
            return self.panel("\n".join(lines))
        old = with_kinds(*range(200))
        check_pair(old, with_kinds(*range(255)))
        with self.assertRaisesRegex(PanelError, "a 256th kind of wire"):
            check_pair(old, with_kinds(*range(256)[1:], 255))
        check_pair(old, with_kinds(*range(1, 255)))
        with self.assertRaisesRegex(PanelError, "a 256th kind of wire"):
            check_pair(old, with_kinds(*range(200, 256)))

    def test_kinds_that_are_nearly_equal(self) -> None:
        def notes(old: str, new: str, *substitutes: tuple[str, str]) -> list[str]:
            return near_kinds(self.panel(old), self.panel(new), substitutes)
        wires = "part K1 relay\npart K2 relay\nwire K1 K2 "
        for old, new in (("relay-24V", "Relay-24v"), ("relay", "relay,"),
                         ("contactor", "contacter"), ("relay-24V", "relay-24V-e")):
            self.assertEqual(len(notes(f"part K1 {old}", f"part K1 {new}")), 1, (old, new))
            self.assertEqual(notes(f"part K1 {old}", f"part K1 {new}", (old, new)), [])
        for old, new in (("power+control", "control+power"), ("power", "powr")):
            self.assertEqual(len(notes(wires + old, wires + new)), 1)
        for old, new in (("relay", "relay"), ("fuse-6A", "fuse-16A"), ("fuse", "relay")):
            self.assertEqual(notes(f"part K1 {old}", f"part K1 {new}"), [])
        both = "part K1 relay\npart K2 relais"
        self.assertEqual(notes(both, both), [])

    def test_shown(self) -> None:
        words = ["K1", "main switch", "a#1", "ä"]
        self.assertEqual([shown(word) for word in words], ["K1", '"main switch"', '"a#1"', "ä"])


class Errors(PanelCase):
    def test_unknown_first_word(self) -> None:
        self.assert_error("part K1 relay\nparts K2 relay\n", 2, "parts", "begins with part or wire")
        self.assert_error("Part K1 relay\n", 1, "Part")

    def test_too_few_words(self) -> None:
        self.assert_error("\npart K1\n", 2, "too few words", "part NAME KIND")
        self.assert_error("part K1 relay\nwire K1 K1\n", 2, "too few", "wire NAME NAME KIND")
        self.assert_error("part\n", 1, "too few words")

    def test_too_many_words(self) -> None:
        self.assert_error("part S1 main switch\n", 1, "too many words", "quotes")
        self.assert_error("part K1 a\nwire K1 K1 power control\n", 2, "too many", "quotes")

    def test_quotes(self) -> None:
        self.assert_error('part K1 "relay\n', 1, "not closed")
        self.assert_error('part K1 "\n', 1, "not closed")
        self.assert_error('part K"1" relay\n', 1, "quote inside a word")
        self.assert_error('part "K"1 relay\n', 1, "quote inside a word")
        self.assert_error('part K1 ""\n', 1, "empty word")
        self.assert_error('part K1 "  "\n', 1, "empty word")
        self.assert_error('part K1 " relay"\n', 1, "blank at the beginning")

    def test_characters_that_cannot_be_seen(self) -> None:
        self.assert_error("part K1\u00a0a relay\n", 1, "U+00A0")
        self.assert_error("part K1 re\x1blay\n", 1, "U+001B")
        self.assert_error('part K1 "re\tlay"\n', 1, "U+0009")
        for sign in "\u200b\u00ad\u2060\ufeff\u200e":
            self.assert_error(f"part K1 re{sign}lay\n", 1, f"U+{ord(sign):04X}")
        self.assert_error("part K1 relay\rpart K2 relay\n", 1)
        self.assert_error("part K1 relay\rpart K2 relay\r", 1, "line ends")

    def test_a_part_given_twice(self) -> None:
        self.assert_error("part K1 relay\n\npart K1 fuse\n", 3, "K1", "line 1")

    def test_a_wire_of_an_unknown_part(self) -> None:
        self.assert_error("wire K1 M12 a\npart K1 relay\npart M11 motor\n", 1,
                          "no line gives part M12", "did you mean M11?")
        self.assert_error("part K1 relay\nwire k1 K1 a\n", 2, "did you mean K1?")
        self.assert_error("wire Q9 Q9 a\npart K1 relay\n", 1, "no line gives part Q9")

    def test_both_parts_of_a_wire_unknown(self) -> None:
        self.assertEqual([line for line, _ in self.errors("wire Q8 Q9 a\n")], [1, 1])

    def test_a_second_wire(self) -> None:
        parts = "part K1 relay\npart K2 relay\n"
        self.assert_error(parts + "wire K1 K2 a\nwire K2 K1 b\n", 4, "second wire", "line 3",
                          "power+control")
        self.assert_error(parts + "wire K1 K1 a\nwire K1 K1 a\n", 4, "second wire", "line 3")

    def test_a_65th_part(self) -> None:
        lines = [f"part K{n} relay" for n in range(70)] + ["wire K0 K69 a"]
        self.assert_error("\n".join(lines), 65, "65th part", "at most 64")

    def test_a_256th_kind_of_wire(self) -> None:
        lines = [f"part K{n} relay" for n in range(64)]
        ends = [(a, b) for a in range(64) for b in range(a)][:300]
        lines += [f"wire K{a} K{b} w{n}" for n, (a, b) in enumerate(ends)]
        errors = self.errors("\n".join(lines))
        self.assertEqual(errors[0][0], 64 + 256)
        self.assertIn("256th kind of wire", errors[0][1])

    def test_not_utf8(self) -> None:
        self.assert_error(b"part K1 relay\npart T\xfcr motor\n", 2, "not UTF-8")
        self.assert_error("part K1 relay\n".encode("utf-16"), 1, "not UTF-8", "UTF-16")

    def test_a_file_that_cannot_be_read(self) -> None:
        missing = str(self.folder / "missing.txt")
        for file in (missing, str(self.folder), "a\0b"):
            with self.assertRaises(PanelError) as caught:
                read_panel(file)
            self.assertIsNone(caught.exception.line)
            self.assertTrue(str(caught.exception).startswith(f"{file}: "))
        self.assertIsInstance(caught.exception, GolfcedarError)

    def test_a_file_that_is_too_large(self) -> None:
        self.assert_error(b"#" * (1 << 20) + b"\n", None, "no panel")

    def test_all_errors_in_line_order(self) -> None:
        errors = self.errors("wire K1 K9 a\npart K1 relay\nprt K2 relay\npart K3\nwire K2 K3 b\n"
                             'part "K4 relay\n')
        # K2 and K3 are to be mended where they are given, not at their wire.
        self.assertEqual([line for line, _ in errors], [1, 3, 4, 6])

    def test_at_most_20_errors(self) -> None:
        errors = self.errors("x\n" * 20)
        self.assertEqual([line for line, _ in errors], list(range(1, 21)))
        errors = self.errors("x\n" * 23)
        self.assertEqual([line for line, _ in errors], [*range(1, 21), None])
        self.assertEqual(errors[-1][1], "and 3 more")


class Bytes(PanelCase):
    OLD = bytes([4, 2, 3, 7, 0, 3, 44, 1, 2, 0, 1, 9, 2, 1, 1, 5, 0])

    def test_edition_2(self) -> None:
        panel = self.panel(self.OLD)
        self.assertEqual(panel.graph, Graph([("0", "7"), ("1", "300")],
                                            [("0", "1", "9"), ("1", "1", "5")]))
        self.assertFalse(panel.is_text)

    def test_edition_1(self) -> None:
        self.assertEqual(self.panel(bytes([1, 7, 1, 9, 2, 0, 1, 3, 0])).graph,
                         Graph([("0", "7"), ("1", "9")], [("0", "1", "3")]))

    def test_a_refusal(self) -> None:
        self.assert_error(bytes([4, 2, 3, 7, 0, 2, 0, 1, 9, 0]), None, "byte 5: ", "(refusal 5)")
        self.assert_error(bytes([1, 7, 2, 0, 1, 9, 0]), None, "byte 2: ", "(refusal 5)")
        self.assert_error(bytes([8]), None, "byte 0: ", "(refusal 2)")


class Pair(PanelCase):
    def test_text_and_bytes(self) -> None:
        text = self.panel("part K1 7\n", "text.txt")
        graph = self.panel(Bytes.OLD, "graph")
        for old, new in ((text, graph), (graph, text)):
            with self.assertRaises(PanelError) as caught:
                check_pair(old, new)
            self.assertEqual(caught.exception.file, graph.file)
            self.assertIn("text.txt is a text panel", caught.exception.what)
            self.assertIn("words", caught.exception.what)
        check_pair(graph, graph)

    def test_a_256th_kind_of_wire_over_both(self) -> None:
        def panel(name: str, first: int, count: int):
            lines = [f"part K{n} relay" for n in range(32)]
            ends = [(a, b) for a in range(32) for b in range(a)][:count]
            lines += [f"wire K{a} K{b} w{first + n}" for n, (a, b) in enumerate(ends)]
            return self.panel("\n".join(lines), name)
        old = panel("old", 0, 200)
        check_pair(old, panel("new", 100, 155))
        with self.assertRaises(PanelError) as caught:
            check_pair(old, panel("new", 100, 160))
        self.assertEqual(caught.exception.line, 32 + 156)
        self.assertIn("256th kind of wire", caught.exception.what)


class TwoPanels(PanelCase):
    """What is read along with an old and a new panel."""

    def setUp(self) -> None:
        super().setUp()
        self.old = self.panel("part K1 relay\npart K2 fuse\n", "old.txt")
        self.new = self.panel("part Q1 relay-e\npart Q2 fuse\n", "new.txt")

    def substitutes(self, file: str):
        return read_substitutes(file, self.old, self.new)

    def list(self, file: str):
        return read_list(file, self.old, self.new)

    def test_substitutes(self) -> None:
        pairs = self.substitutes(self.file("# old new\nrelay relay-e\nfuse fuse\n"))
        self.assertEqual(pairs.lines, {("relay", "relay-e"): 2, ("fuse", "fuse"): 3})
        self.assertEqual(pairs.notes, ())

    def test_substitutes_that_no_part_has_are_noted(self) -> None:
        pairs = self.substitutes(self.file("relai relay-e\nfuse horn\n"))
        self.assertEqual(len(pairs.lines), 2)
        self.assertIn(":1: note: no part of the old panel has kind relai; did you mean relay?",
                      pairs.notes[0])
        self.assertIn(":2: note: no part of the new panel has kind horn", pairs.notes[1])

    def test_errors_of_pairs(self) -> None:
        for read in (self.substitutes, self.list):
            self.assert_error("K1\n", 1, "too few words", read=read)
            self.assert_error("a b c\n", 1, "too many words", "quotes", read=read)
            self.assert_error('K1 "Q1\n', 1, "not closed", read=read)
            self.assert_error(b"K1 Q\xff\n", 1, "not UTF-8", read=read)
            self.assert_error("K1 Q1\n\nK1 Q1\n", 3, "line 1 already", read=read)

    def test_more_than_256_substitutes(self) -> None:
        lines = [f"relay r{n}\n" for n in range(257)]
        self.assertEqual(len(self.substitutes(self.file("".join(lines[:256]))).lines), 256)
        self.assert_error("".join(lines), 257, "257th pair", read=self.substitutes)

    def test_a_list(self) -> None:
        self.assertEqual(self.list(self.file("K2 Q2\n")).lines, {("K2", "Q2"): 1})

    def test_errors_of_a_list(self) -> None:
        self.assert_error("k2 Q1\n", 1, "old.txt has no part k2; did you mean K2?", read=self.list)
        self.assert_error("\nK1 K1\n", 2, "new.txt has no part K1", read=self.list)
        self.assert_error("K1 Q1\nK1 Q2\n", 2, "part K1 stands on line 1 already", read=self.list)


if __name__ == "__main__":
    unittest.main()
