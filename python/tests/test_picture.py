"""Tests of the picture: the SVG is parsed again, and its elements are counted and measured."""

import random
import re
import unittest
from xml.etree import ElementTree

from golfcedar.picture import Side, picture

SVG = "{http://www.w3.org/2000/svg}"

OLD = Side(
    "Receiver 1994",
    [
        ("X1", "terminal"),
        ("F1", "fuse"),
        ("K1", "contactor"),
        ("K2", "relay"),
        ("M1", "motor"),
        ("T1", "transformer"),
    ],
    [
        (0, 1, "400V"),
        (1, 2, "400V"),
        (2, 4, "three-phase"),
        (3, 3, "hold"),
        (2, 2, "latch"),
        (3, 2, "control"),
        (5, 0, "PE"),
        (5, 3, "24V"),
    ],
)
NEW = Side(
    "Receiver 2024",
    [
        ("Q1", "contactor"),
        ("X9", "terminal"),
        ("F9", "breaker"),
        ("M9", "motor"),
        ("U9", "converter"),
    ],
    [(1, 2, "400V"), (2, 0, "400V"), (3, 0, "three-phase"), (0, 0, "latch"), (4, 0, "bus")],
)
PAIRS = [(0, 1), (1, 2), (2, 0), (4, 3)]


def parse(document: str) -> ElementTree.Element:
    return ElementTree.fromstring(document.encode("utf-8"))


def of_class(root: ElementTree.Element, *classes: str) -> list[ElementTree.Element]:
    return [
        element
        for element in root.iter()
        if set(classes) <= set(element.get("class", "").split())
    ]


def tooltip(element: ElementTree.Element) -> str:
    return element.findtext(f"{SVG}title")


def visible_texts(root: ElementTree.Element) -> list[str]:
    return ["".join(text.itertext()) for text in root.iter(f"{SVG}text")]


def box_of(part: ElementTree.Element) -> tuple[int, int, int, int]:
    rect = part.find(f"{SVG}rect")
    return tuple(int(rect.get(key)) for key in ("x", "y", "width", "height"))


def boxes_by_name(root: ElementTree.Element) -> dict[str, tuple[int, int, int, int]]:
    return {tooltip(part).split(" (")[0]: box_of(part) for part in of_class(root, "part")}


def points(element: ElementTree.Element) -> list[tuple[int, int]]:
    """The points that the line of a wire goes through, and those its corners bend towards."""
    found, x, y = [], 0, 0
    for command, numbers in re.findall(r"([MHVQ])([-\d ]+)", element.find(f"{SVG}path").get("d")):
        values = list(map(int, numbers.split()))
        if command == "H":
            values = [values[0], y]
        elif command == "V":
            values = [x, values[0]]
        for x, y in zip(values[::2], values[1::2]):
            found.append((x, y))
    return found


def meets(end: tuple[int, int], box: tuple[int, int, int, int]) -> bool:
    x, y, width, height = box
    return end[0] in (x, x + width) and y < end[1] < y + height


def upright_of(line: list[tuple[int, int]]) -> tuple[int, int, int]:
    """The upright piece of a wire: where it is, its top and its bottom."""
    edge = line[0][0]
    turn = max((x for x, _ in line), key=lambda x: abs(x - edge))
    heights = [y for x, y in line if x == turn]
    return turn, min(heights), max(heights)


def crossings(wires: list[ElementTree.Element]) -> int:
    """How often a level piece of a wire crosses an upright piece of another."""
    found = 0
    for line in map(points, wires):
        edge, (turn, *heights) = line[0][0], upright_of(line)
        for other_turn, top, bottom in map(upright_of, map(points, wires)):
            if min(edge, turn) < other_turn < max(edge, turn):
                found += sum(top < y < bottom for y in heights)
    return found


def random_side(seed: int, parts: int, wires: int) -> Side:
    chance = random.Random(seed)
    ends = set()
    while len(ends) < wires:
        ends.add(tuple(sorted((chance.randrange(parts), chance.randrange(parts)))))
    return Side(
        f"Panel {seed}",
        [(f"P{number}.", f"kind{chance.randrange(9)}") for number in range(parts)],
        [(a, b, f"w{chance.randrange(5)}") for a, b in sorted(ends)],
    )


def large() -> tuple[Side, Side, list[tuple[int, int]]]:
    """64 parts on both sides, of which eight are exchanged."""
    old = random_side(7, 64, 210)
    new = Side(
        "After",
        [(f"N{63 - number}.", kind) for number, (_, kind) in enumerate(reversed(old.parts))],
        [(63 - a, 63 - b, kind) for a, b, kind in old.wires],
    )
    return old, new, [(number, 63 - number) for number in range(56)]


class Counts(unittest.TestCase):
    def setUp(self) -> None:
        self.root = parse(picture(OLD, NEW, PAIRS, title="Crane 7"))

    def count(self, *classes: str) -> int:
        return len(of_class(self.root, *classes))

    def test_parts(self) -> None:
        self.assertEqual(self.count("part", "kept"), 8)
        self.assertEqual(self.count("part", "removed"), 2)
        self.assertEqual(self.count("part", "new"), 1)
        self.assertEqual(self.count("part"), 11)
        self.assertEqual(self.count("partner"), 4)

    def test_wires(self) -> None:
        self.assertEqual(self.count("wire", "kept"), 8)
        self.assertEqual(self.count("wire", "removed"), 4)
        self.assertEqual(self.count("wire", "new"), 1)
        self.assertEqual(self.count("wire"), 13)

    def test_legend(self) -> None:
        told = ["".join(entry.itertext()) for entry in of_class(self.root, "legend")]
        self.assertEqual(
            told,
            [
                "stays: 4 parts (1 substitute), 4 wires",
                "taken out: 2 parts, 4 wires",
                "new: 1 part, 1 wire",
            ],
        )

    def test_states_look_different_without_colour(self) -> None:
        kept, removed, new = (
            of_class(self.root, "wire", state)[0].find(f"{SVG}path")
            for state in ("kept", "removed", "new")
        )
        self.assertIsNotNone(removed.get("stroke-dasharray"))
        self.assertIsNone(kept.get("stroke-dasharray"))
        self.assertIsNone(new.get("stroke-dasharray"))
        self.assertGreater(float(new.get("stroke-width")), 1.5 * float(kept.get("stroke-width")))

    def test_wire_of_another_kind_does_not_stay(self) -> None:
        old = Side("", [("A", "k"), ("B", "k")], [(0, 1, "24V")])
        new = Side("", [("A", "k"), ("B", "k")], [(0, 1, "48V")])
        root = parse(picture(old, new, [(0, 0), (1, 1)]))
        self.assertEqual(len(of_class(root, "wire", "kept")), 0)
        self.assertEqual(len(of_class(root, "wire", "removed")), 1)
        self.assertEqual(len(of_class(root, "wire", "new")), 1)


class Texts(unittest.TestCase):
    def test_every_name_and_kind_is_visible(self) -> None:
        texts = visible_texts(parse(picture(OLD, NEW, PAIRS, title="Crane 7")))
        for side in (OLD, NEW):
            self.assertIn(side.title, texts)
            for name, kind in side.parts:
                self.assertIn(name, texts)
                self.assertIn(kind, texts)
        self.assertIn("Crane 7", texts)

    def test_a_wire_names_its_kind_and_other_part_at_both_ends(self) -> None:
        root = parse(picture(OLD, NEW, PAIRS))
        wires = {tooltip(wire): visible_texts(wire) for wire in of_class(root, "wire")}
        self.assertCountEqual(wires["PE: T1 – X1: taken out"], ["PE T1", "PE X1"])
        self.assertCountEqual(wires["bus: U9 – Q1: new"], ["bus U9", "bus Q1"])
        self.assertEqual(wires["hold: K2 – K2: taken out"], ["hold K2"])

    def test_tooltips_of_parts(self) -> None:
        told = [tooltip(part) for part in of_class(parse(picture(OLD, NEW, PAIRS)), "part")]
        self.assertIn("F1 (fuse): stays as F9 (breaker)", told)
        self.assertIn("F9 (breaker): stays, was F1 (fuse)", told)
        self.assertIn("T1 (transformer): taken out", told)
        self.assertIn("U9 (converter): new", told)

    def test_substitute_is_told_at_its_pair_only(self) -> None:
        root = parse(picture(OLD, NEW, PAIRS))
        marked = [line for line in of_class(root, "partner") if visible_texts(line)]
        self.assertEqual([visible_texts(line) for line in marked], [["substitute"]])

    def test_markup_is_escaped(self) -> None:
        word = "<b>&amp;\"'</text>"
        side = Side(word, [(word, word)], [(0, 0, word)])
        root = parse(picture(side, side, [], title=word))
        self.assertEqual(visible_texts(root).count(word), 7)

    def test_characters_that_xml_forbids_are_replaced(self) -> None:
        word = "a\x00\x07\x1b\x85\ud800\uffff\u202e\tb\nc"
        side = Side(word, [(word, word)], [(0, 0, word)])
        root = parse(picture(side, side, [(0, 0)], title=word))
        self.assertIn("a\ufffd\ufffd\ufffd \ufffd\ufffd\ufffd b c", visible_texts(root))

    def test_other_scripts(self) -> None:
        words = ["контактор", "接触器", "מתג", "re\u0301le\u0301", "⚡"]
        side = Side("Кран", [(word, word) for word in words], [(0, 1, "фаза")])
        texts = visible_texts(parse(picture(side, side, [(0, 0)])))
        for word in [*words, "Кран", "фаза 接触器"]:
            self.assertIn(word, texts)

    def test_long_texts_are_shortened_and_whole_in_the_tooltip(self) -> None:
        for letter in ("W", "i", "電", "e\u0301"):
            word = letter * 300
            side = Side(word, [(word, word), ("A", "k")], [(0, 1, word)])
            root = parse(picture(side, side, [(0, 0)], title=word))
            texts = visible_texts(root)
            self.assertNotIn(word, texts)
            for text in texts:
                self.assertLess(len(text), 300)
            for text in filter(lambda t: "…" in t, texts):
                self.assertNotIn("e…", text, "a letter lost its accent")
                self.assertNotIn("…\u0301", text, "an accent lost its letter")
            self.assertIn(word, tooltip(of_class(root, "part")[0]))
            self.assertIn(word, tooltip(of_class(root, "wire")[0]))
            self.assertEqual(tooltip(root), word)
            self.assertLess(int(root.get("width")), 2000)

    def test_names_that_differ_at_their_end_stay_apart(self) -> None:
        names = [f"the contactor of the hoist on the left side for {way}" for way in ("up", "down")]
        side = Side("", [(name, "contactor") for name in names], [(0, 1, "interlock")])
        texts = visible_texts(parse(picture(side, side, [])))
        shortened = {text for text in texts if text.startswith("the contactor") and "…" in text}
        self.assertEqual(len(shortened), 2, texts)

    def test_text_of_accents_only(self) -> None:
        word = "\u0301" * 300
        parse(picture(Side(word, [(word, word)], [(0, 0, word)]), Side("", [], []), []))

    def test_text_is_large_enough(self) -> None:
        for text in parse(picture(OLD, NEW, PAIRS)).iter(f"{SVG}text"):
            self.assertGreaterEqual(int(text.get("font-size")), 11)


class Document(unittest.TestCase):
    def test_size_is_stated(self) -> None:
        root = parse(picture(OLD, NEW, PAIRS))
        width, height = root.get("width"), root.get("height")
        self.assertEqual(root.tag, f"{SVG}svg")
        self.assertEqual(root.get("viewBox"), f"0 0 {width} {height}")
        self.assertEqual(root.get("font-family"), "sans-serif")

    def test_same_input_same_text(self) -> None:
        self.assertEqual(picture(OLD, NEW, PAIRS), picture(OLD, NEW, PAIRS))
        self.assertEqual(picture(OLD, NEW, PAIRS), picture(OLD, NEW, PAIRS[::-1]))
        self.assertEqual(picture(*large()), picture(*large()))

    def test_nothing_is_run_or_fetched(self) -> None:
        document = picture(*large())
        for word in ("<script", "href", "url(", "@import", "<!", "<?"):
            self.assertNotIn(word, document)

    def test_input_is_not_changed(self) -> None:
        parts, wires, pairs = list(OLD.parts), list(OLD.wires), list(reversed(PAIRS))
        picture(Side("", parts, wires), NEW, pairs)
        self.assertEqual((parts, wires), (OLD.parts, OLD.wires))
        self.assertEqual(pairs, PAIRS[::-1])


class Layout(unittest.TestCase):
    """Every picture here has to keep the rules of `check`."""

    def check(self, old: Side, new: Side, pairs: list[tuple[int, int]]) -> None:
        root = parse(picture(old, new, pairs, title="A title"))
        self.check_counts(root, old, new, pairs)
        self.check_inside(root)
        self.check_columns(root, old, new, pairs)
        self.check_wires(root)

    def check_counts(
        self, root: ElementTree.Element, old: Side, new: Side, pairs: list[tuple[int, int]]
    ) -> None:
        kept = len(pairs)
        self.assertEqual(len(of_class(root, "part", "kept")), 2 * kept)
        self.assertEqual(len(of_class(root, "part", "removed")), len(old.parts) - kept)
        self.assertEqual(len(of_class(root, "part", "new")), len(new.parts) - kept)
        self.assertEqual(len(of_class(root, "wire")), len(old.wires) + len(new.wires))

    def check_inside(self, root: ElementTree.Element) -> None:
        width, height = int(root.get("width")), int(root.get("height"))
        for part in of_class(root, "part"):
            x, y, w, h = box_of(part)
            self.assertTrue(2 <= x and x + w <= width - 2 and 2 <= y and y + h <= height - 2)
        for line in of_class(root, "wire") + of_class(root, "partner"):
            for x, y in points(line):
                self.assertTrue(2 <= x <= width - 2 and 2 <= y <= height - 2)
        for text in root.iter(f"{SVG}text"):
            self.assertTrue(0 < int(text.get("x")) < width and 0 < int(text.get("y")) < height)

    def check_columns(
        self, root: ElementTree.Element, old: Side, new: Side, pairs: list[tuple[int, int]]
    ) -> None:
        drawn = [box_of(part) for part in of_class(root, "part")]
        columns = drawn[: len(old.parts)], drawn[len(old.parts) :]
        for column in columns:
            self.assertLessEqual(len({(x, w) for x, _, w, _ in column}), 1)
            rows = sorted((y, y + h) for _, y, _, h in column)
            for (_, bottom), (top, _) in zip(rows, rows[1:]):
                self.assertLess(bottom, top)
        for here, there in zip(columns[0][: len(pairs)], columns[1]):
            self.assertEqual((here[1], here[3]), (there[1], there[3]))
            self.assertLess(here[0] + here[2], there[0])

    def check_wires(self, root: ElementTree.Element) -> None:
        """Wires meet boxes at both ends. Lines may cross, but no two run along each other."""
        boxes = [box_of(part) for part in of_class(root, "part")]
        level, upright = set(), {}
        for wire in of_class(root, "wire"):
            line = points(wire)
            edge = line[0][0]
            for end in (line[0], line[-1]):
                self.assertTrue(any(meets(end, box) for box in boxes))
                self.assertNotIn(end, level)
                level.add(end)
            away = [abs(x - edge) for x, _ in line[:5]]
            self.assertEqual(away, sorted(set(away)), "a label reaches into the lanes")
            turn, top, bottom = upright_of(line)
            upright.setdefault(turn, []).append((top, bottom))
        for spans in upright.values():
            spans.sort()
            for (_, bottom), (top, _) in zip(spans, spans[1:]):
                self.assertLess(bottom, top)

    def test_example(self) -> None:
        self.check(OLD, NEW, PAIRS)

    def test_large(self) -> None:
        self.check(*large())

    def test_degenerate_sizes(self) -> None:
        for parts in (0, 1):
            for other in (0, 1, 64):
                old, new = random_side(1, parts, parts), random_side(2, other, other)
                self.check(old, new, [])
                self.check(new, old, [])

    def test_no_pairs(self) -> None:
        self.check(OLD, NEW, [])

    def test_all_pairs(self) -> None:
        self.check(OLD, OLD, [(number, number) for number in range(len(OLD.parts))])

    def test_no_wires(self) -> None:
        self.check(OLD._replace(wires=[]), NEW._replace(wires=[]), PAIRS)

    def test_a_part_wired_with_all_others(self) -> None:
        star = Side("Star", [(f"P{n}", "k") for n in range(64)], [(0, n, "w") for n in range(64)])
        self.check(star, star, [(number, number) for number in range(0, 64, 2)])

    def test_a_row_is_as_high_as_its_higher_part(self) -> None:
        many = Side("Star", [(f"P{n}", "k") for n in range(9)], [(0, n, "w") for n in range(9)])
        none = many._replace(wires=[])
        self.check(many, none, [(0, 0)])
        self.check(none, many, [(0, 0)])

    def test_a_wire_ends_at_its_two_parts(self) -> None:
        root = parse(picture(OLD, NEW, PAIRS))
        boxes = boxes_by_name(root)
        for wire in of_class(root, "wire"):
            line = points(wire)
            names = re.fullmatch(r".*: (\w+) – (\w+): .*", tooltip(wire)).groups()
            met = [
                name for end in (line[0], line[-1]) for name in boxes if meets(end, boxes[name])
            ]
            self.assertCountEqual(met, names)
            # The labels stand in the same order, and name the part at the other end.
            shown = [text.findtext(f"{SVG}tspan") for text in wire.iter(f"{SVG}text")]
            self.assertEqual(shown, met[::-1] if met[0] != met[1] else met[:1])

    def test_a_chain_is_drawn_in_its_order(self) -> None:
        chain = [3, 0, 4, 1, 2]
        wires = [(a, b, "w") for a, b in zip(chain, chain[1:])]
        side = Side("Chain", [(f"P{number}", "k") for number in range(5)], wires)
        root = parse(picture(side, side, [(number, number) for number in range(5)]))
        boxes = boxes_by_name(root)
        down = sorted(range(5), key=lambda number: boxes[f"P{number}"][1])
        self.assertIn(down, (chain, chain[::-1]))

    def test_the_wires_of_one_part_do_not_cross(self) -> None:
        wires = [(4, number, "w") for number in range(9) if number != 4]
        star = Side("Star", [(f"P{number}", "k") for number in range(9)], wires)
        every = [(number, number) for number in range(9)]
        for new, pairs in ((Side("", [], []), []), (star, every)):
            root = parse(picture(star, new, pairs))
            boxes = boxes_by_name(root)
            rows = sorted(box[1] for box in boxes.values())
            self.assertEqual(boxes["P4"][1], rows[4], "the middle of the star is not in the middle")
            self.assertEqual(crossings(of_class(root, "wire")), 0)


if __name__ == "__main__":
    unittest.main()
