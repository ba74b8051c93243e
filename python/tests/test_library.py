"""The calls of the library: values, refusals and what they are about, and how it is found."""

import ctypes
import os
import pickle
import re
import subprocess
import sys
import tempfile
import types
import unittest
from pathlib import Path
from unittest import mock

import golfcedar
from golfcedar import LibraryMissing, MappingRefused, Refused, _library

PACKAGE_FOLDER = str(Path(golfcedar.__file__).parents[1])
HEADER = Path(__file__).resolve().parents[2] / "include" / "golfcedar.h"

OLD = bytes([4, 2, 3, 7, 0, 3, 9, 0, 3, 7, 0, 2, 0, 1, 1, 2, 1, 2, 1, 0])
NEW = bytes([4, 2, 3, 9, 0, 3, 7, 0, 2, 0, 1, 1, 0])
PROBLEM = OLD, NEW, b""

# Bytes that are no graph of edition 2: number, place, bytes.
NO_GRAPHS = [
    (27, 0, [1, 7, 0]),
    (27, 0, [4, 1, 0]),
    (1, 0, []),
    (1, 0, [4]),
    (1, 2, [4, 2]),
    (1, 2, [4, 2, 3, 7]),
    (1, 5, [4, 2, 3, 7, 0]),
    (2, 2, [4, 2, 1, 7, 0]),
    (3, 2, [4, 2, 3, 0, 0, 0]),
    (4, 194, [4, 2, *[3, 7, 0] * 65, 0]),
    (5, 5, [4, 2, 3, 7, 0, 2, 0, 1, 1, 0]),
    (7, 5, [4, 2, 3, 7, 0, 2, 0, 0, 0, 0]),
    (8, 9, [4, 2, 3, 7, 0, 2, 0, 0, 1, 2, 0, 0, 2, 0]),
    (9, 6, [4, 2, 3, 7, 0, 0, 0]),
]
NO_SUBSTITUTES = [(23, [7, 0, 9]), (23, [1] * 1028), (24, [7, 0, 0, 0])]


class RefusalTest(unittest.TestCase):
    def refused(self, number, value, about, call, *arguments):
        with self.assertRaises(Refused) as caught:
            call(*arguments)
        error = caught.exception
        self.assertEqual((error.number, error.value, error.about), (number, value, about))
        self.assertTrue(error.reason)
        self.assertEqual(error.reason, golfcedar.reason(number))
        self.assertIn(error.reason, str(error))
        self.assertIn(f"refusal {number}", str(error))
        return error


class Texts(RefusalTest):
    def test_version(self):
        version = golfcedar.version()
        self.assertEqual([type(part) for part in version], [int] * 3)
        self.assertGreater(version, (0, 0, 0))
        self.assertLess(max(version), 256)

    def test_reason(self):
        for number in [*range(1, 6), 7, 8, 9, *range(13, 29)]:
            text = golfcedar.reason(number)
            self.assertTrue(0 < len(text) <= _library.REASON_BYTES, number)
        for number in (0, 6, 29, 2**32 - 1):
            self.assertEqual(golfcedar.reason(number), "")
        for number in (-1, 2**32):
            with self.assertRaises(ValueError):
                golfcedar.reason(number)

    def test_text_of_a_refusal(self):
        self.assertEqual(
            str(Refused(5, 17, "new graph", "a text")), "new graph: a text (refusal 5, at byte 17)"
        )
        self.assertEqual(str(Refused(26, 0, "", "a text")), "a text (refusal 26)")
        for number in (1, 2, 3, 4, 5, 7, 8, 9, 17, 27, 28):
            self.assertIn("at byte 3", str(Refused(number, 3, "graph", "a text")))

    def test_text_of_a_refused_mapping(self):
        error = MappingRefused(22, 2, 0, "a text")
        self.assertEqual(str(error), "mapping: a text (refusal 22, at old vertices 0 and 2)")
        named = error.named(["K1", "K2", "K3"])
        self.assertEqual(str(named), "mapping: a text (refusal 22, at old vertices 'K1' and 'K3')")
        self.assertEqual((named.number, named.value, named.row, named.earlier), (22, 2, 2, 0))
        own = MappingRefused(22, 1, 1, "a text")
        self.assertEqual(str(own), "mapping: a text (refusal 22, at old vertex 1)")
        one = MappingRefused(21, 1, 0, "a text")
        self.assertEqual(str(one), "mapping: a text (refusal 21, at old vertex 1)")
        self.assertEqual(str(MappingRefused(18, 0, 0, "a text")), "mapping: a text (refusal 18)")

    def test_refusals_can_be_pickled(self):
        for error in (Refused(5, 17, "graph", "a text"), MappingRefused(22, 2, 1, "a text", "abc")):
            again = pickle.loads(pickle.dumps(error))
            self.assertEqual((type(again), str(again)), (type(error), str(error)))

    def test_all_errors_have_one_base(self):
        for name in golfcedar.__all__:
            thing = getattr(golfcedar, name)
            if isinstance(thing, type) and issubclass(thing, Exception):
                self.assertTrue(issubclass(thing, golfcedar.GolfcedarError), name)

    def test_every_public_name_says_what_it_is(self):
        for name in golfcedar.__all__:
            self.assertTrue(getattr(golfcedar, name).__doc__, name)


class Graphs(RefusalTest):
    def test_accepted(self):
        self.assertEqual(_library.check_graph(OLD), 3)
        self.assertEqual(_library.check_graph(bytes([4, 2, 0])), 0)

    def test_zero_bytes_end_nothing(self):
        self.assertEqual(_library.check_graph(bytes([4, 2, 3, 0, 1, 3, 0, 2, 0])), 2)

    def test_refused(self):
        for number, place, graph in NO_GRAPHS:
            self.refused(number, place, "graph", _library.check_graph, bytes(graph))

    def test_only_bytes(self):
        for thing in (None, bytearray(OLD), "text", [4, 2, 0]):
            with self.assertRaises(TypeError):
                _library.check_graph(thing)

    def test_editions(self):
        earlier = bytes([1, 7, 1, 9, 2, 1, 0, 5, 0])
        moved = bytes([4, 2, 3, 7, 0, 3, 9, 0, 2, 0, 1, 5, 0])
        self.assertEqual(_library.to_edition_2(earlier), moved)
        self.assertEqual(_library.to_edition_1(moved), bytes([1, 7, 1, 9, 2, 0, 1, 5, 0]))
        self.refused(2, 0, "graph", _library.to_edition_2, moved)
        self.refused(27, 0, "graph", _library.to_edition_1, earlier)
        wide = bytes([4, 2, 3, 7, 0, 3, 0, 1, 0])
        self.refused(28, 5, "graph", _library.to_edition_1, wide)

    def test_largest_graph_of_both_editions(self):
        edges = [[2, a, b, 255] for a in range(64) for b in range(a, 64)]
        graph = bytes([4, 2, *[3, 255, 0] * 64, *sum(edges, []), 0])
        self.assertEqual(len(graph), _library.GRAPH_BYTES)
        earlier = _library.to_edition_1(graph)
        self.assertEqual(len(earlier), _library.EDITION_1_BYTES)
        self.assertEqual(_library.to_edition_2(earlier), graph)

    def test_step_limit(self):
        self.assertEqual(golfcedar.step_limit(3, 2), 18)
        self.assertEqual(golfcedar.step_limit(2, 3), 24)
        self.assertEqual(golfcedar.step_limit(64, 64), _library.STEP_LIMIT_CAP)
        self.refused(26, 0, "", golfcedar.step_limit, 65, 1)
        self.refused(26, 0, "", golfcedar.step_limit, 2**64 - 1, 1)
        for orders in ((-1, 2), (2, 2**64)):
            with self.assertRaises(ValueError):
                golfcedar.step_limit(*orders)


class Problems(RefusalTest):
    """Each call on two graphs and substitutes tells what a refusal is about."""

    def calls(self):
        checkpoint = _library.start(*PROBLEM, False, 1, False)
        yield _library.check_problem, ()
        yield _library.check_mapping, (bytes([1, 0, 255]),)
        yield _library.start, (False, 1, False)
        yield _library.start, (False, 1, True)
        yield _library.resume, (False, checkpoint, 1)
        yield _library.descend, (False, 1, checkpoint, 1)
        yield _library.read_out, (False, checkpoint)

    def test_accepted(self):
        for call, rest in self.calls():
            call(*PROBLEM, *rest)
        self.assertIsNone(_library.check_problem(*PROBLEM))

    def test_graphs(self):
        for call, rest in self.calls():
            for number, place, graph in NO_GRAPHS:
                flawed = bytes(graph)
                self.refused(number, place, "old graph", call, flawed, NEW, b"", *rest)
                self.refused(number, place, "new graph", call, OLD, flawed, b"", *rest)
                self.refused(number, place, "old graph", call, flawed, flawed, b"\0", *rest)

    def test_substitutes(self):
        for call, rest in self.calls():
            for number, flawed in NO_SUBSTITUTES:
                self.refused(number, 0, "substitutes", call, OLD, NEW, bytes(flawed), *rest)

    def test_largest_list_of_substitutes(self):
        self.assertEqual(_library.SUBSTITUTES_BYTES, 1024)
        self.assertIsNone(_library.check_problem(OLD, NEW, bytes([7, 0, 8, 0] * 256)))

    def test_only_bytes(self):
        for call, rest in self.calls():
            with self.assertRaises(TypeError):
                call(OLD, NEW, None, *rest)


class Mappings(RefusalTest):
    def mapping_refused(self, number, row, earlier, old, new, rows):
        error = self.refused(
            number, row, "mapping", _library.check_mapping, old, new, b"", bytes(rows)
        )
        self.assertIsInstance(error, MappingRefused)
        self.assertEqual((error.row, error.earlier), (row, earlier))

    def test_accepted(self):
        self.assertEqual(_library.check_mapping(*PROBLEM, bytes([1, 0, 255])), 2)
        self.assertEqual(_library.check_mapping(*PROBLEM, bytes([255] * 3)), 0)
        self.assertEqual(_library.check_mapping(bytes([4, 2, 0]), NEW, b"", b""), 0)

    def test_substitutes_hold_one_way(self):
        old, new = bytes([4, 2, 3, 7, 0, 0]), bytes([4, 2, 3, 9, 0, 0])
        listed = bytes([7, 0, 9, 0])
        self.assertEqual(_library.check_mapping(old, new, listed, b"\0"), 1)
        with self.assertRaises(MappingRefused):
            _library.check_mapping(new, old, listed, b"\0")

    def test_refused(self):
        self.mapping_refused(18, 0, 0, OLD, NEW, [1, 0])
        self.mapping_refused(19, 1, 0, OLD, NEW, [1, 2, 255])
        self.mapping_refused(21, 1, 0, OLD, NEW, [255, 1, 255])
        self.mapping_refused(20, 2, 0, OLD, NEW, [1, 0, 1])
        looped = bytes([4, 2, 3, 9, 0, 2, 0, 0, 1, 0])
        self.mapping_refused(22, 1, 1, OLD, looped, [255, 0, 255])
        unlinked = bytes([4, 2, 3, 9, 0, 3, 7, 0, 0])
        self.mapping_refused(22, 2, 1, OLD, unlinked, [255, 0, 1])


class Searches(RefusalTest):
    def test_search(self):
        checkpoint = _library.start(*PROBLEM, False, 1, False)
        reading = _library.read_out(*PROBLEM, False, checkpoint)
        self.assertEqual(reading, _library.ReadOut(0, 0, 0, 4, None))
        checkpoint, ceiling = _library.resume(*PROBLEM, False, checkpoint, 4)
        expected = [16, 1, 17, 4, *[0] * 7, 18, 1, 19, 1, 19, 255, 20, 1, 20, 0, 20, 255, 0]
        self.assertEqual((checkpoint, ceiling), (bytes(expected), 3))
        checkpoint, ceiling = _library.resume(*PROBLEM, False, checkpoint, 2**64 - 5)
        reading = _library.read_out(*PROBLEM, False, checkpoint)
        self.assertEqual(reading, _library.ReadOut(3, 6, 2, 3, bytes([1, 0, 255])))

    def test_descent(self):
        checkpoint = _library.start(*PROBLEM, False, 1, True)
        checkpoint, ceiling, visits = _library.descend(*PROBLEM, False, 1, checkpoint, 0)
        self.assertEqual((ceiling, visits), (3, 0))
        checkpoint, ceiling, visits = _library.descend(*PROBLEM, False, 1, checkpoint, 100)
        self.assertEqual((ceiling, visits), (3, 6))
        self.assertEqual(_library.read_out(*PROBLEM, False, checkpoint).state, 3)

    def goings_on(self):
        yield lambda checkpoint, budget=0: _library.resume(*PROBLEM, False, checkpoint, budget)
        yield lambda checkpoint, budget=0: _library.descend(*PROBLEM, False, 1, checkpoint, budget)

    def test_checkpoint_not_in_the_form(self):
        calls = [*self.goings_on(), lambda cut: _library.read_out(*PROBLEM, False, cut)]
        checkpoint = _library.start(*PROBLEM, False, 1, False)
        for call in calls:
            self.refused(17, 0, "checkpoint", call, b"")
            self.refused(17, 2, "checkpoint", call, checkpoint[:2])

    def test_checkpoint_not_in_shape(self):
        calls = [*self.goings_on(), lambda held: _library.read_out(*PROBLEM, False, held)]
        wrong = bytes([16, 1, 17, 6, *[0] * 7, 18, 3, 20, 0, 20, 0, 20, 255, 0])
        for call in calls:
            self.refused(14, 0, "checkpoint", call, wrong)

    def test_mapping_that_is_not_connected(self):
        graph = bytes([4, 2, 3, 7, 0, 3, 9, 0, 0])
        checkpoint = _library.start(graph, graph, b"", False, 2, False)
        checkpoint, _ = _library.resume(graph, graph, b"", False, checkpoint, 100)
        self.assertEqual(_library.read_out(graph, graph, b"", False, checkpoint).size, 2)
        for call in (_library.read_out, lambda *call: _library.resume(*call, 0)):
            self.refused(14, 0, "checkpoint", call, graph, graph, b"", True, checkpoint)

    def test_steps_and_budget_too_large(self):
        begun, _ = _library.resume(*PROBLEM, False, _library.start(*PROBLEM, False, 1, False), 1)
        checkpoint = bytearray(begun)
        checkpoint[3:11] = (2**64 - 3).to_bytes(8, "little")
        for call in self.goings_on():
            call(bytes(checkpoint), 2)
            self.refused(16, 0, "", call, bytes(checkpoint), 3)

    def test_numbers_are_never_cut(self):
        checkpoint = _library.start(*PROBLEM, False, 255, False)
        for call in self.goings_on():
            for budget in (-1, 2**64):
                with self.assertRaises(ValueError):
                    call(checkpoint, budget)
        for minimum in (-1, 256):
            with self.assertRaises(ValueError):
                _library.start(*PROBLEM, False, minimum, False)
            with self.assertRaises(ValueError):
                _library.descend(*PROBLEM, False, minimum, checkpoint, 0)
        for call in (lambda: golfcedar.step_limit(2.5, 2), lambda: golfcedar.reason(1.5)):
            with self.assertRaises(TypeError):
                call()


class Header(unittest.TestCase):
    """The module and the header say the same."""

    KINDS = {
        "const uint8_t *": ctypes.c_char_p,
        "uint8_t *": ctypes.POINTER(ctypes.c_uint8),
        "uint64_t *": ctypes.POINTER(ctypes.c_uint64),
        "size_t": ctypes.c_size_t,
        "uint64_t": ctypes.c_uint64,
        "uint32_t": ctypes.c_uint32,
        "uint8_t": ctypes.c_uint8,
    }

    def test_sizes(self):
        sizes = re.findall(r"#define GOLFCEDAR_(\w+) (\d+|UINT64_MAX)", HEADER.read_text("utf-8"))
        declared = {name: 2**64 - 1 if size == "UINT64_MAX" else int(size) for name, size in sizes}
        declared["MAJOR"] = declared.pop("VERSION_MAJOR")
        for name in ("VERSION_MINOR", "VERSION_PATCH", "CLIQUE_VERTICES"):
            del declared[name]
        self.assertEqual({name: getattr(_library, name) for name in declared}, declared)
        self.assertEqual(golfcedar.version()[0], _library.MAJOR)

    def test_parameters(self):
        text = HEADER.read_text("utf-8")
        declared = dict(re.findall(r"^uint32_t golfcedar_(\w+)\(([^)]*)\);", text, re.MULTILINE))
        self.assertEqual(declared.keys() - _library._ARGUMENTS.keys(), {"clique"})
        for name, parameters in declared.items():
            if name != "clique":
                self.assertEqual(list(_library._ARGUMENTS[name]), self.kinds(parameters), name)

    def kinds(self, parameters):
        if parameters == "void":
            return []
        words = [" ".join(parameter.split()) for parameter in parameters.split(",")]
        return [self.KINDS[re.sub(r"\w+$", "", word).strip()] for word in words]


class Finding(unittest.TestCase):
    def setUp(self):
        _library._shared_library.cache_clear()
        self.addCleanup(_library._shared_library.cache_clear)

    def test_named_but_missing(self):
        with mock.patch.dict(os.environ, {"GOLFCEDAR_LIBRARY": "/no/such/library"}):
            with self.assertRaisesRegex(LibraryMissing, "make library(.|\n)*/no/such/library"):
                golfcedar.version()

    def test_library_without_the_functions(self):
        with mock.patch.object(_library, "_candidates", lambda: ["libc.so.6"]):
            with self.assertRaisesRegex(LibraryMissing, "golfcedar_version"):
                golfcedar.version()

    def test_order(self):
        clone = str(Path(PACKAGE_FOLDER).parent / "target" / "lib" / _library.SONAME)
        with mock.patch.dict(os.environ):
            os.environ.pop("GOLFCEDAR_LIBRARY", None)
            with mock.patch.dict(sys.modules, {"golfcedar._installed": None}):
                self.assertEqual(list(_library._candidates()), [clone, _library.SONAME])
            installed = types.SimpleNamespace(LIBRARY="/there")
            with mock.patch.dict(sys.modules, {"golfcedar._installed": installed}):
                self.assertEqual(list(_library._candidates()), ["/there", clone, _library.SONAME])
            os.environ["GOLFCEDAR_LIBRARY"] = "here"
            self.assertEqual(list(_library._candidates()), [os.path.abspath("here")])

    def test_next_one_is_tried(self):
        given = list(_library._candidates())
        with mock.patch.object(_library, "_candidates", lambda: ["/no/such/library", *given]):
            self.assertEqual(len(golfcedar.version()), 3)

    def test_one_that_is_there_and_cannot_be_loaded_is_not_passed_over(self):
        given = list(_library._candidates())
        with tempfile.NamedTemporaryFile() as damaged:
            found = [damaged.name, *given]
            with mock.patch.object(_library, "_candidates", lambda: found):
                with self.assertRaises(LibraryMissing):
                    golfcedar.version()

    def test_another_major_version(self):
        with mock.patch.object(_library, "MAJOR", 2):
            with self.assertRaisesRegex(LibraryMissing, "version 1, and version 2 is needed"):
                golfcedar.version()

    def test_import_loads_nothing(self):
        environment = {**os.environ, "GOLFCEDAR_LIBRARY": "/no/such", "PYTHONPATH": PACKAGE_FOLDER}
        subprocess.run([sys.executable, "-c", "import golfcedar"], env=environment, check=True)


if __name__ == "__main__":
    unittest.main()
