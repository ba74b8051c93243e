"""Results: what is kept, removed and new, and what is against the rest."""

import unittest

import golfcedar
from golfcedar import Edge, Graph, GraphError, Obstacle, Result, Search

OLD = Graph(
    {"K1": "relay", "S1": "switch", "K2": "relay", "F1": "fuse"},
    [("S1", "K1", "wire"), ("S1", "K2", "wire"), ("K1", "K1", "hold"), ("K2", "F1", "bar")],
)
NEW = Graph(
    {"s": "switch", "k": "relay", "h": "horn", "f": "fuse"},
    [("k", "s", "wire"), ("k", "k", "hold"), ("h", "s", "wire"), ("f", "f", "bar")],
)


def finished(old, new, **options):
    search = Search(old, new, **options)
    search.advance(10**9)
    return search.result()


class Lists(unittest.TestCase):
    def test_kept_removed_and_new(self):
        result = finished(OLD, NEW)
        self.assertIsInstance(result, Result)
        self.assertEqual(result.mapping, {"K1": "k", "S1": "s"})
        self.assertEqual(result.kept_vertices, [("K1", "k"), ("S1", "s")])
        self.assertEqual(result.removed_vertices, ["K2", "F1"])
        self.assertEqual(result.new_vertices, ["h", "f"])
        kept = [
            (Edge("K1", "K1", "hold"), Edge("k", "k", "hold")),
            (Edge("K1", "S1", "wire"), Edge("k", "s", "wire")),
        ]
        self.assertEqual(result.kept_edges, kept)
        self.assertEqual(
            result.removed_edges, [Edge("S1", "K2", "wire"), Edge("K2", "F1", "bar")]
        )
        self.assertEqual(result.new_edges, [Edge("s", "h", "wire"), Edge("f", "f", "bar")])

    def test_new_vertices_that_stand_before_those_that_serve(self):
        result = finished(Graph({"a": 1, "b": 2}), Graph({"x": 3, "y": 2, "z": 1}))
        self.assertEqual(result.mapping, {"a": "z", "b": "y"})
        self.assertEqual(result.new_vertices, ["x"])

    def test_numbers(self):
        search = Search(OLD, NEW, minimum=2, connected=True)
        search.advance(10**9)
        result = search.result()
        self.assertIs(result.problem, search.problem)
        self.assertEqual((result.size, result.ceiling, result.steps), (2, 3, search.steps))
        self.assertEqual((result.done, result.final), (True, True))
        self.assertEqual((result.connected, result.minimum), (True, 2))

    def test_nothing_held(self):
        result = Search(OLD, NEW).result()
        self.assertEqual((result.size, result.done, result.final), (None, False, False))
        self.assertEqual((result.mapping, result.kept_vertices, result.kept_edges), ({}, [], []))
        self.assertEqual(result.removed_vertices, list(OLD.names))
        self.assertEqual(result.new_vertices, list(NEW.names))
        self.assertEqual((len(result.removed_edges), len(result.new_edges)), (4, 4))

    def test_edges_without_labels(self):
        graph = Graph({0: None, 1: None, 2: None}, [(0, 1, None), (1, 2, None)])
        result = finished(graph, graph)
        self.assertEqual(len(result.kept_edges), 2)
        self.assertEqual((result.removed_edges, result.new_edges), ([], []))

    def test_stays_as_it_was(self):
        search = Search(OLD, NEW)
        before = search.result()
        search.advance(10**9)
        self.assertIsNone(before.size)
        with self.assertRaises(AttributeError):
            before.size = 4
        result = search.result()
        result.mapping.clear()
        self.assertEqual(search.result().mapping, {"K1": "k", "S1": "s"})


class Obstacles(unittest.TestCase):
    def test_serves_another_already(self):
        result = finished(Graph({"a": 1, "b": 1}), Graph({"x": 1}))
        self.assertEqual(result.mapping, {"a": "x"})
        expected = [Obstacle("x", 20, "a", "x", golfcedar.reason(20))]
        self.assertEqual(result.obstacles("b"), expected)

    def test_labels_that_do_not_agree_are_not_listed(self):
        result = finished(Graph({"a": 1, "b": 2}), Graph({"x": 1, "y": 3}))
        self.assertEqual(result.obstacles("b"), [])

    def test_listed_labels_agree(self):
        result = finished(Graph({"a": 1, "b": 2}), Graph({"x": 1}), substitutes=[(2, 1)])
        self.assertEqual([obstacle.number for obstacle in result.obstacles("b")], [20])

    def test_edges_differ(self):
        old = Graph({"a": 1, "b": 2, "c": 3}, [("a", "c", 5), ("a", "b", 5)])
        new = Graph({"x": 1, "y": 2, "z": 3}, [("x", "y", 5)])
        result = finished(old, new)
        self.assertEqual(result.mapping, {"a": "x", "b": "y"})
        expected = [Obstacle("z", 22, "a", "x", golfcedar.reason(22))]
        self.assertEqual(result.obstacles("c"), expected)

    def test_the_vertex_may_be_the_earlier_row(self):
        old = Graph({"c": 3, "a": 1, "b": 2}, [("a", "c", 5), ("a", "b", 5), ("b", "c", 5)])
        new = Graph({"x": 1, "y": 2, "z": 3}, [("x", "y", 5)])
        result = finished(old, new)
        self.assertEqual(result.mapping, {"a": "x", "b": "y"})
        expected = [Obstacle("z", 22, "a", "x", golfcedar.reason(22))]
        self.assertEqual(result.obstacles("c"), expected)

    def test_edge_with_itself(self):
        result = finished(OLD, NEW)
        with_itself = Obstacle("f", 22, "F1", "f", golfcedar.reason(22))
        self.assertEqual(result.obstacles("F1"), [with_itself])

    def test_nothing_forbids_it(self):
        stopped = Search(OLD, NEW).result()
        self.assertEqual(stopped.obstacles("S1"), [Obstacle("s", 0, None, None, "")])
        apart = Graph({"a": 1, "b": 2})
        result = finished(apart, apart, connected=True)
        self.assertEqual(result.mapping, {"a": "a"})
        self.assertEqual(result.obstacles("b"), [Obstacle("b", 0, None, None, "")])

    def test_one_for_each_new_vertex(self):
        old = Graph({"a": 1, "b": 1}, [("a", "b", 1)])
        new = Graph({"x": 1, "y": 1, "z": 1}, [("z", "z", 1)])
        result = finished(old, new)
        self.assertEqual(result.mapping, {"a": "x"})
        seen = [(found.new, found.number, found.with_old) for found in result.obstacles("b")]
        self.assertEqual(seen, [("x", 20, "a"), ("y", 22, "a"), ("z", 22, "b")])

    def test_only_of_vertices_that_are_not_kept(self):
        result = finished(OLD, NEW)
        with self.assertRaisesRegex(ValueError, "'K1' is kept as 'k'"):
            result.obstacles("K1")
        with self.assertRaises(GraphError):
            result.obstacles("K9")


if __name__ == "__main__":
    unittest.main()
