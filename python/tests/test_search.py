"""Searches: what they find, stopped and gone on with, saved and loaded, and what is refused."""

import doctest
import importlib
import json
import os
import random
import tempfile
import threading
import unittest
from pathlib import Path
from unittest import mock

import golfcedar
from golfcedar import (
    DamagedFile,
    GolfcedarError,
    Graph,
    GraphError,
    OtherQuestion,
    Problem,
    Progress,
    Refused,
    Search,
    _library,
)

module = importlib.import_module("golfcedar._search")
files = importlib.import_module("golfcedar._files")

OLD = Graph([(0, 7), (1, 9), (2, 7)], [(0, 1, 1), (1, 2, 1)])
NEW = Graph([(0, 9), (1, 7)], [(0, 1, 1)])
OTHER_INPUTS = "other graphs or substitutes"
KINDS = [dict(connected=c, descend=d) for c in (False, True) for d in (False, True)]


def row(labels):
    """Vertices in a row."""
    edges = [(i, i + 1, 1) for i in range(len(labels) - 1)]
    return Graph(list(enumerate(labels)), edges)


def unlinked(order):
    """Vertices that are all alike. The connected search of two such graphs leaves no node."""
    return Graph([(i, 1) for i in range(order)])


ROW_OLD, ROW_NEW = row([7, 9, 5, 7, 9, 8]), row([7, 9, 6, 7, 9, 8])


def whole(*arguments, **options):
    search = Search(*arguments, **options)
    search.advance(10**9)
    return search


def load_tests(loader, tests, pattern):
    tests.addTests(doctest.DocTestSuite(golfcedar))
    return tests


class Found(unittest.TestCase):
    def test_first_example(self):
        search = whole(OLD, NEW, minimum=1, descend=False)
        self.assertEqual((search.size, search.steps, search.ceiling), (2, 6, 3))
        self.assertTrue(search.done and search.final)
        self.assertEqual(search.result().mapping, {0: 1, 1: 0})

    def test_connected_example(self):
        search = whole(ROW_OLD, ROW_NEW, minimum=0, descend=False)
        self.assertEqual((search.steps, search.size, search.ceiling), (13, 5, 6))
        self.assertEqual(search.result().mapping, {0: 0, 1: 1, 3: 3, 4: 4, 5: 5})
        search = whole(ROW_OLD, ROW_NEW, minimum=0, connected=True, descend=False)
        self.assertEqual((search.steps, search.size, search.ceiling), (88, 3, 4))
        self.assertEqual(search.result().mapping, {3: 3, 4: 4, 5: 5})
        descent = whole(ROW_OLD, ROW_NEW, minimum=0, connected=True)
        self.assertEqual(descent.result().mapping, {3: 3, 4: 4, 5: 5})
        self.assertEqual(descent.ceiling, 4)

    def test_question(self):
        search = Search(OLD, NEW)
        self.assertEqual((search.minimum, search.connected, search.descend), (1, False, True))
        self.assertIsInstance(search.problem, Problem)
        search = golfcedar.search(
            OLD, NEW, minimum=2, connected=True, substitutes=[(7, 9)], descend=False
        )
        self.assertIsInstance(search, Search)
        self.assertEqual((search.minimum, search.connected, search.descend), (2, True, False))
        self.assertEqual(search.problem.substitutes, ((7, 9),))
        for name in ("problem", "minimum", "connected", "descend", "size", "done"):
            with self.assertRaises(AttributeError):
                setattr(search, name, None)

    def test_question_is_fixed(self):
        vertices, substitutes = {"a": "x"}, [("x", "y")]
        search = Search(Graph(vertices), Graph({"b": "y"}), substitutes=substitutes)
        vertices["a"] = "z"
        substitutes.clear()
        search.advance(100)
        self.assertEqual(search.result().mapping, {"a": "b"})

    def test_refused_options(self):
        for options, error in [
            (dict(minimum=256), ValueError),
            (dict(minimum=-1), ValueError),
            (dict(minimum=1.0), TypeError),
            (dict(minimum="1"), TypeError),
            (dict(connected=1), TypeError),
            (dict(connected="no"), TypeError),
            (dict(descend=None), TypeError),
            (dict(substitutes=["ab"]), GraphError),
            (dict(other=1), TypeError),
        ]:
            for descend in (False, True):
                with self.assertRaises(error):
                    golfcedar.search(OLD, NEW, **{"descend": descend, **options})

    def test_nothing_held(self):
        for kind in KINDS:
            search = whole(OLD, NEW, minimum=3, **kind)
            self.assertEqual((search.size, search.ceiling, search.done), (None, 3, True))
            self.assertTrue(search.final)
            result = search.result()
            self.assertEqual((result.size, result.mapping), (None, {}))

    def test_empty_graphs(self):
        for kind in KINDS:
            search = whole(Graph([]), Graph([]), minimum=0, **kind)
            self.assertEqual((search.size, search.ceiling, search.done), (0, 1, True))

    def test_final_before_it_is_done(self):
        same = row([1, 2, 3, 4])
        search = Search(same, same)
        seen = [(search.size, search.ceiling, search.done, search.final)]
        while not search.done:
            search.advance(1)
            seen.append((search.size, search.ceiling, search.done, search.final))
        self.assertFalse(seen[0][3])
        self.assertIn((4, 5, False, True), seen)
        for size, ceiling, done, final in seen:
            self.assertEqual(final, done or (size is not None and size + 1 == ceiling))

    def test_a_mapping_that_fails_the_check_is_no_result(self):
        search = whole(OLD, NEW)
        for state in [
            search._state._replace(size=1),
            search._state._replace(mapping=bytes([255, 0, 255])),
            search._state._replace(mapping=bytes([0, 1, 255])),
            search._state._replace(ceiling=2),
        ]:
            search._state = state
            with self.assertRaises(GolfcedarError):
                search.result()

    def test_threads(self):
        expected = whole(unlinked(7), unlinked(7), connected=True).steps
        searches = [Search(unlinked(7), unlinked(7), connected=True) for _ in range(4)]
        threads = [threading.Thread(target=search.advance, args=[10**9]) for search in searches]
        for thread in threads:
            thread.start()
        for thread in threads:
            thread.join()
        self.assertEqual([search.steps for search in searches], [expected] * 4)


class BruteForce(unittest.TestCase):
    """All common subgraphs of tiny graphs, in order."""

    def mappings(self, problem, rows=()):
        number = len(rows)
        if number == len(problem.old):
            yield rows
            return
        for new in range(len(problem.new)):
            if self.fits(problem, rows, number, new):
                yield from self.mappings(problem, (*rows, new))
        yield from self.mappings(problem, (*rows, None))

    def fits(self, problem, rows, number, new):
        old_graph, new_graph = problem.old, problem.new
        pair = old_graph.labels[number], new_graph.labels[new]
        return (
            new not in rows
            and (pair[0] == pair[1] or pair in problem.substitutes)
            and all(
                old_graph.edge_label(number, i) == new_graph.edge_label(new, j)
                for i, j in enumerate((*rows, new))
                if j is not None
            )
        )

    def connected(self, graph, rows):
        left = {i for i, j in enumerate(rows) if j is not None}
        front = [left.pop()] if left else []
        while front:
            i = front.pop()
            near = {j for j in left if graph.has_edge(i, j)}
            left -= near
            front += near
        return not left

    def best(self, mappings, minimum):
        """The first of the largest, which have the fewest left out."""
        large = [rows for rows in mappings if len(rows) - rows.count(None) >= minimum]
        return min(large, key=lambda rows: rows.count(None), default=None)

    def graph(self, draw):
        order = draw.randint(0, 4)
        labels = [(i, draw.choice([1, 1, 2, 3])) for i in range(order)]
        pairs = [(i, j) for i in range(order) for j in range(i, order)]
        share = draw.random()
        edges = [(*pair, draw.choice([1, 1, 2])) for pair in pairs if draw.random() < share]
        return Graph(labels, edges)

    def test_random_graphs(self):
        draw = random.Random(20)
        for _ in range(300):
            old, new = self.graph(draw), self.graph(draw)
            count = draw.choice([0, 0, 1, 2])
            listed = [(draw.randint(1, 3), draw.randint(1, 3)) for _ in range(count)]
            minimum = draw.choice([0, 1, 1, 2, 3])
            every = list(self.mappings(Problem(old, new, listed)))
            joined = [rows for rows in every if self.connected(old, rows)]
            for kind in KINDS:
                mappings = joined if kind["connected"] else every
                search = Search(old, new, minimum=minimum, substitutes=listed, **kind)
                self.compare(search, mappings)

    def compare(self, search, mappings):
        largest = max(len(rows) - rows.count(None) for rows in mappings)
        while not search.done:
            self.assertGreater(search.ceiling, largest)
            search.advance(7)
        best = self.best(mappings, search.minimum)
        result = search.result()
        if best is None:
            self.assertEqual((result.size, result.ceiling), (None, search.minimum))
        else:
            self.assertEqual((result.size, result.ceiling), (largest, largest + 1))
            expected = {i: j for i, j in enumerate(best) if j is not None}
            self.assertEqual(result.mapping, expected)


class Steps(unittest.TestCase):
    def test_advance(self):
        search = Search(OLD, NEW, descend=False)
        self.assertEqual(search.advance(0), Progress(None, 4, 0))
        self.assertEqual(search.advance(4), Progress(2, 3, 4))
        self.assertEqual((search.size, search.ceiling, search.steps), (2, 3, 4))
        self.assertFalse(search.done)
        self.assertEqual(search.advance(2**70), Progress(2, 3, 6))
        self.assertTrue(search.done)
        self.assertEqual(search.advance(5), Progress(2, 3, 6))
        for steps, error in [(-1, ValueError), (1.5, TypeError), ("1", TypeError)]:
            with self.assertRaises(error):
                search.advance(steps)

    def test_ceiling_of_a_descent_is_told_at_once_and_never_rises(self):
        search = Search(ROW_OLD, ROW_NEW, connected=True)
        self.assertEqual(search.advance(0), Progress(None, 6, 0))
        ceilings = [search.ceiling]
        while not search.done:
            self.assertEqual(search.advance(1).steps, len(ceilings))
            ceilings.append(search.ceiling)
        self.assertEqual(ceilings, sorted(ceilings, reverse=True))
        self.assertEqual(ceilings[-1], 4)

    def test_iteration(self):
        for kind in KINDS:
            search = Search(unlinked(7), unlinked(7), **kind)
            self.assertIs(iter(search), search)
            seen = list(search)
            self.assertTrue(seen and search.done)
            self.assertEqual(seen[-1], Progress(search.size, search.ceiling, search.steps))
            self.assertEqual(seen, sorted(seen, key=lambda progress: progress.steps))
            self.assertEqual(list(search), [])
            self.assertEqual(search.steps, whole(unlinked(7), unlinked(7), **kind).steps)

    def test_iteration_goes_on_where_it_was_left(self):
        search = Search(unlinked(7), unlinked(7), connected=True, descend=False)
        for progress in search:
            break
        self.assertEqual(progress.steps, 1000)
        self.assertFalse(search.done)
        for progress in search:
            self.assertGreater(progress.steps, 1000)
        self.assertTrue(search.done)

    def shares(self, seconds):
        """The steps of the first shares of a search that takes so many seconds for each."""
        search = Search(unlinked(8), unlinked(8), connected=True, descend=False)
        clock = iter(range(1000))
        with mock.patch.object(module.time, "monotonic", lambda: next(clock) * seconds):
            steps = [0] + [next(search).steps for _ in range(5)]
        return [after - before for before, after in zip(steps, steps[1:])]

    def test_shares_follow_the_speed(self):
        self.assertEqual(self.shares(0), [1000, 4000, 16000, 64000, 256000])
        self.assertEqual(self.shares(0.0001), [1000, 4000, 16000, 64000, 256000])
        self.assertEqual(self.shares(0.0625), [1000, 1600, 2560, 4096, 6553])
        self.assertEqual(self.shares(10), [1000] * 5)

    def test_interrupt_loses_nothing(self):
        search = Search(unlinked(7), unlinked(7), connected=True, descend=False)
        next(search)
        resume = _library.resume

        def interrupted(*call):
            resume(*call)
            raise KeyboardInterrupt

        with mock.patch.object(_library, "resume", interrupted):
            with self.assertRaises(KeyboardInterrupt):
                search.advance(10**9)
        self.assertEqual(search.steps, 1000)
        search.advance(10**9)
        expected = whole(unlinked(7), unlinked(7), connected=True, descend=False)
        self.assertEqual(search._state, expected._state)


class Files(unittest.TestCase):
    def setUp(self):
        folder = tempfile.TemporaryDirectory()
        self.addCleanup(folder.cleanup)
        self.folder = Path(folder.name)
        self.path = self.folder / "saved"
        # Hundreds of files are saved here. That it is called is tested below.
        patch = mock.patch.object(module.os, "fsync")
        self.fsync = patch.start()
        self.addCleanup(patch.stop)

    def names(self):
        return sorted(path.name for path in self.folder.iterdir())

    def crafted(self, **changes):
        """The saved file with other fields and the digest that they need."""
        content = json.loads(self.path.read_text("utf-8"))
        content.update(changes)
        content["digest"] = module._digest(content)
        self.path.write_text(json.dumps(content), "utf-8")

    def refused(self, error, text, *graphs, **options):
        with self.assertRaisesRegex(error, text) as caught:
            Search.load(self.path, *graphs, **options)
        self.assertIn(str(self.path), str(caught.exception))
        return str(caught.exception)


class SavedAndLoaded(Files):
    def test_after_every_step(self):
        for old, new in [(OLD, NEW), (ROW_OLD, ROW_NEW)]:
            for kind in KINDS:
                once = whole(old, new, **kind)
                for steps in range(once.steps + 1):
                    self.compare(once, steps)

    def compare(self, once, steps):
        kind = dict(connected=once.connected, descend=once.descend)
        search = Search(once.problem.old, once.problem.new, **kind)
        search.advance(steps)
        search.save(self.path)
        loaded = Search.load(self.path, once.problem.old, once.problem.new)
        self.assertEqual(loaded._state, search._state)
        self.assertEqual(loaded.steps, steps)
        loaded.advance(10**9)
        self.assertEqual(loaded._state, once._state)
        self.assertEqual(loaded.result().mapping, once.result().mapping)

    def test_file(self):
        search = whole(OLD, NEW, substitutes=[(7, 8)])
        search.save(self.path)
        content = json.loads(self.path.read_bytes().decode("utf-8"))
        self.assertEqual(content.pop("digest"), module._digest(content))
        self.assertEqual(bytes.fromhex(content.pop("checkpoint"))[:1], bytes([16]))
        expected = {
            "format": "golfcedar search 1",
            "old": OLD.to_bytes().hex(),
            "new": NEW.to_bytes().hex(),
            "substitutes": "07000800",
            "minimum": 1,
            "connected": False,
            "descend": True,
            "steps": 6,
        }
        self.assertEqual(content, expected)
        self.assertEqual(self.names(), ["saved"])
        self.assertTrue(self.fsync.called)

    def test_options_as_saved_or_named(self):
        options = dict(minimum=2, connected=True, descend=False)
        Search(OLD, NEW, substitutes=[(7, 8)], **options).save(self.path)
        for named in ({}, options):
            search = Search.load(self.path, OLD, NEW, substitutes=[(7, 8)], **named)
            self.assertEqual((search.minimum, search.connected, search.descend), (2, True, False))

    def test_minimum_that_is_a_truth(self):
        Search(OLD, NEW, minimum=True).save(self.path)
        self.assertEqual(Search.load(self.path, OLD, NEW, minimum=1).minimum, 1)

    def test_largest_graphs(self):
        same = row(range(1, 65))
        for kind in KINDS:
            search = Search(same, same, **kind)
            search.advance(70)
            search.save(self.path)
            loaded = Search.load(self.path, same, same)
            loaded.advance(10**9)
            self.assertEqual((loaded.size, loaded.ceiling, loaded.done), (64, 65, True))
            self.assertEqual(loaded.result().mapping, {i: i for i in range(64)})
            self.assertEqual(len(loaded.result().kept_edges), 63)

    def test_names_of_files(self):
        search = whole(OLD, NEW)
        for path in (str(self.path), self.path, os.fsencode(self.path)):
            search.save(path)
            self.assertTrue(Search.load(path, OLD, NEW).done)
        with self.assertRaises(TypeError):
            search.save(5)
        with self.assertRaises(TypeError):
            Search.load(5, OLD, NEW)

    def test_saved_over_an_earlier_one(self):
        search = Search(OLD, NEW)
        search.save(self.path)
        search.advance(100)
        search.save(self.path)
        self.assertTrue(Search.load(self.path, OLD, NEW).done)
        self.assertEqual(self.names(), ["saved"])

    def test_a_link_stays_a_link(self):
        link = self.folder / "link"
        link.symlink_to(self.path)
        Search(OLD, NEW).save(link)
        self.assertTrue(link.is_symlink() and self.path.is_file())

    def test_failed_save_leaves_the_earlier_one(self):
        search = Search(OLD, NEW)
        search.save(self.path)
        before = self.path.read_bytes()
        search.advance(100)
        for name in ("replace", "fsync"):
            for error in (OSError, KeyboardInterrupt):
                with mock.patch.object(files.os, name, side_effect=error):
                    with self.assertRaises(error):
                        search.save(self.path)
                self.assertEqual(self.names(), ["saved"])
                self.assertEqual(self.path.read_bytes(), before)
        with self.assertRaises(FileNotFoundError):
            search.save(self.folder / "none" / "saved")

    def test_missing_file(self):
        with self.assertRaises(FileNotFoundError):
            Search.load(self.path, OLD, NEW)


class OtherQuestions(Files):
    def test_corrected_edge_after_the_end(self):
        whole(OLD, NEW).save(self.path)
        corrected = Graph(list(zip(OLD.names, OLD.labels)), [(0, 1, 1), (1, 2, 2)])
        text = self.refused(OtherQuestion, OTHER_INPUTS, corrected, NEW)
        self.assertIn("start anew, or name another file", text)
        corrected = Graph(list(zip(NEW.names, NEW.labels)))
        self.refused(OtherQuestion, OTHER_INPUTS, OLD, corrected)

    def test_each_change_of_a_graph(self):
        Search(OLD, NEW).save(self.path)
        for graph in [
            Graph([(0, 7), (1, 9), (2, 8)], [(0, 1, 1), (1, 2, 1)]),
            Graph([(0, 7), (1, 9)], [(0, 1, 1)]),
            Graph([(0, 7), (1, 9), (2, 7)], [(0, 1, 1), (1, 2, 1), (2, 2, 1)]),
            Graph([(0, 7), (1, 9), (2, 7)], [(0, 1, 1), (0, 2, 1)]),
        ]:
            self.refused(OtherQuestion, OTHER_INPUTS, graph, NEW)
        self.refused(OtherQuestion, OTHER_INPUTS, NEW, OLD)

    def test_substitutes(self):
        listed = [(7, 8), (7, 9)]
        Search(OLD, NEW, substitutes=listed).save(self.path)
        for other in ([], [(7, 8)], [(7, 9), (7, 8)], [(7, 8), (9, 7)]):
            self.refused(OtherQuestion, OTHER_INPUTS, OLD, NEW, substitutes=other)
        Search.load(self.path, OLD, NEW, substitutes=listed)

    def test_each_option(self):
        for saved in KINDS:
            Search(OLD, NEW, minimum=2, **saved).save(self.path)
            for name, value in saved.items():
                text = f"saved for {name} {value}:"
                self.refused(OtherQuestion, text, OLD, NEW, **{name: not value})
            for minimum in (0, 1, 3, 300):
                self.refused(OtherQuestion, "saved for minimum 2:", OLD, NEW, minimum=minimum)

    def test_all_that_differs_is_named(self):
        Search(OLD, NEW).save(self.path)
        text = f"{OTHER_INPUTS}, minimum 1, connected False:"
        self.refused(OtherQuestion, text, OLD, OLD, minimum=2, connected=True)
        with self.assertRaises(OtherQuestion) as caught:
            Search.load(self.path, OLD, OLD, minimum=2, connected=True)
        told = {"new": NEW.to_bytes().hex(), "minimum": 1, "connected": False}
        self.assertEqual(caught.exception.saved, told)

    def test_steps_of_a_descent_are_those_of_all_its_searches(self):
        search = Search(ROW_OLD, ROW_NEW, connected=True)
        problem = search.problem.as_bytes()
        started = _library.start(*problem, True, 1, True)
        _, _, visits = _library.descend(*problem, True, 1, started, 10**6)
        search.advance(10**6)
        self.assertEqual((search.steps, visits), (152, 152))

    def test_plain_checkpoint_of_another_minimum(self):
        for minimum in (0, 2):
            Search(OLD, NEW, minimum=minimum, descend=False).save(self.path)
            content = json.loads(self.path.read_text())
            content["minimum"] = 1
            content["digest"] = module._digest(content)
            self.path.write_text(json.dumps(content))
            with self.assertRaises(DamagedFile):
                Search.load(self.path, OLD, NEW)

    def test_a_mapping_below_the_minimum_is_no_result(self):
        search = whole(OLD, NEW)
        search._state = search._state._replace(mapping=bytes([255] * 3), size=0)
        with self.assertRaises(GolfcedarError):
            search.result()

    def test_options_in_no_form(self):
        Search(OLD, NEW).save(self.path)
        for options in (dict(connected=1), dict(descend="yes"), dict(minimum=1.0)):
            with self.assertRaises(TypeError):
                Search.load(self.path, OLD, NEW, **options)


class Damaged(Files):
    def same_or_refused(self, data, saved):
        self.path.write_bytes(data)
        try:
            loaded = Search.load(self.path, OLD, NEW)
        except (DamagedFile, OtherQuestion):
            return False
        self.assertEqual(loaded._state, saved._state)
        self.assertEqual(loaded._question.as_saved(), saved._question.as_saved())
        return True

    def test_each_byte(self):
        saved = Search(OLD, NEW)
        saved.advance(3)
        saved.save(self.path)
        data = self.path.read_bytes()
        for place, byte in enumerate(data):
            for flip in (1, 2, 8, 32, 128, 255):
                damaged = data[:place] + bytes([byte ^ flip]) + data[place + 1 :]
                loaded = self.same_or_refused(damaged, saved)
                # Only space between the parts may be lost without harm.
                self.assertFalse(loaded and not bytes([byte, byte ^ flip]).isspace())

    def test_cut_off(self):
        saved = Search(OLD, NEW)
        saved.save(self.path)
        data = self.path.read_bytes()
        for length in range(len(data) - 1):
            self.assertFalse(self.same_or_refused(data[:length], saved), length)

    def test_edited(self):
        Search(OLD, NEW).save(self.path)
        text = self.path.read_text("utf-8")
        for before, after in [
            ('"minimum": 1', '"minimum": 2'),
            ('"minimum": 1', '"minimum": 1.0'),
            ('"connected": false', '"connected": true'),
            ('"connected": false', '"connected": 0'),
            ('"descend": true', '"descend": false'),
            ('"steps": 0', '"steps": 1'),
            ('"steps": 0', '"steps": 0, "more": 0'),
            (' "steps": 0,\n', ""),
            ("search 1", "search 2"),
        ]:
            self.assertIn(before, text)
            self.path.write_text(text.replace(before, after), "utf-8")
            self.refused(DamagedFile, "damaged, or not a saved search", OLD, NEW)

    def test_other_files(self):
        for data in [
            *(b"", b"\0", b"\xff", b"null", b"[]", b"{}", b'"text"', b"1", b"{} {}"),
            *(b"[" * 60000, b"9" * 60000, b" " * 70000, OLD.to_bytes()),
        ]:
            self.path.write_bytes(data)
            self.refused(DamagedFile, "damaged, or not a saved search", OLD, NEW)

    def test_fields_in_no_form(self):
        for changes in [
            dict(format="golfcedar search 2"),
            dict(old=None),
            dict(new="xyz"),
            dict(substitutes="0"),
            dict(checkpoint="AA"),
            dict(minimum=True),
            dict(minimum=1.0),
            dict(minimum=-1),
            dict(minimum=256),
            dict(connected=0),
            dict(descend=None),
            dict(steps="0"),
            dict(steps=-1),
        ]:
            Search(OLD, NEW).save(self.path)
            self.crafted(**changes)
            self.refused(DamagedFile, "damaged, or not a saved search", OLD, NEW)

    def test_checkpoint_that_the_library_refuses(self):
        for number, checkpoint in [
            (17, b""),
            (17, bytes([16])),
            (14, bytes([16, 1, 17, 6, *[0] * 7, 18, 3, 20, 0, 20, 0, 20, 255, 0])),
        ]:
            for kind in KINDS:
                Search(OLD, NEW, **kind).save(self.path)
                self.crafted(checkpoint=checkpoint.hex())
                self.refused(DamagedFile, f"refusal {number}", OLD, NEW)

    def test_held_mapping_that_is_not_connected(self):
        pair = Graph([(0, 7), (1, 9)])
        whole(pair, pair, descend=False).save(self.path)
        self.crafted(connected=True)
        self.refused(DamagedFile, "refusal 14", pair, pair)

    def test_checkpoint_of_another_minimum_or_other_steps(self):
        for descend in (False, True):
            for changes in (dict(minimum=3), dict(steps=5)):
                search = Search(OLD, NEW, minimum=1, descend=descend)
                search.advance(100)
                search.save(self.path)
                self.crafted(**changes)
                self.refused(DamagedFile, "not those of the checkpoint", OLD, NEW)


class LargestNumberOfSteps(Files):
    def near_the_end(self, left, descend):
        """A search of which the library can count so many steps more."""
        search = Search(OLD, NEW, descend=descend)
        search.advance(1)
        steps = 2**64 - 1 - left
        checkpoint = bytearray(search._state.checkpoint)
        checkpoint[3:11] = steps.to_bytes(8, "little")
        search.save(self.path)
        self.crafted(checkpoint=checkpoint.hex(), steps=steps)
        return Search.load(self.path, OLD, NEW)

    def test_budget_is_cut(self):
        for descend in (False, True):
            search = self.near_the_end(100, descend)
            self.assertEqual(search.advance(2**64 - 1).size, 2)
            self.assertTrue(search.done)

    def test_no_step_is_left(self):
        for descend in (False, True):
            search = self.near_the_end(2, descend)
            for goes_on in (lambda: search.advance(100), lambda: next(search)):
                with self.assertRaises(Refused) as caught:
                    goes_on()
                self.assertEqual((caught.exception.number, caught.exception.about), (16, ""))
                self.assertEqual(caught.exception.reason, golfcedar.reason(16))
            self.assertEqual(search.steps, 2**64 - 1)
            self.assertEqual(search.advance(0).steps, 2**64 - 1)


if __name__ == "__main__":
    unittest.main()
