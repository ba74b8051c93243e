"""Graphs, and problems of two of them."""

import copy
import enum
import unittest

from golfcedar import Graph, GraphError, MappingRefused, Problem, Refused

try:
    import networkx
except ImportError:
    networkx = None

OLD = Graph([(0, 7), (1, 9), (2, 7)], [(0, 1, 1), (1, 2, 1)])
NEW = Graph([(0, 9), (1, 7)], [(0, 1, 1)])
OLD_BYTES = bytes([4, 2, 3, 7, 0, 3, 9, 0, 3, 7, 0, 2, 0, 1, 1, 2, 1, 2, 1, 0])


class Kind(enum.IntEnum):
    RELAY = 7


class Graphs(unittest.TestCase):
    def test_parts(self):
        graph = Graph({"a": "x", "b": "y", "c": "x"}, [("c", "b", 5), ("b", "a", 6), ("a", "a", 7)])
        self.assertEqual(graph.names, ("a", "b", "c"))
        self.assertEqual(graph.labels, ("x", "y", "x"))
        self.assertEqual(graph.edges, ((0, 0, 7), (0, 1, 6), (1, 2, 5)))
        self.assertEqual(len(graph), 3)
        self.assertEqual([graph.number(name) for name in "abc"], [0, 1, 2])
        self.assertEqual(graph.edge_label(2, 1), 5)
        self.assertEqual(graph.edge_label(1, 2), 5)
        self.assertIsNone(graph.edge_label(0, 2))

    def test_edge_with_label_none(self):
        graph = Graph([("a", None), ("b", None)], [("a", "b", None)])
        self.assertIsNone(graph.edge_label(0, 1))
        self.assertTrue(graph.has_edge(1, 0))
        self.assertFalse(graph.has_edge(0, 0))

    def test_equality(self):
        again = Graph({"a": 1, "b": 2}, [("b", "a", 3)])
        self.assertEqual(again, Graph([["a", 1], ["b", 2]], [["a", "b", 3]]))
        self.assertEqual(hash(again), hash(Graph({"a": 1, "b": 2}, [("a", "b", 3)])))
        self.assertNotEqual(again, Graph({"b": 2, "a": 1}, [("b", "a", 3)]))
        self.assertNotEqual(again, Graph({"a": 1, "b": 2}))
        self.assertNotEqual(again, "text")
        self.assertEqual(eval(repr(again)), again)
        self.assertEqual(copy.deepcopy(again), again)

    def test_never_changes(self):
        graph = Graph({"a": 1})
        for name in ("names", "labels", "edges"):
            with self.assertRaises(AttributeError):
                setattr(graph, name, ())
            with self.assertRaises(AttributeError):
                delattr(graph, name)
        with self.assertRaises(AttributeError):
            graph.other = 1

    def test_refused(self):
        full = [(number, 1) for number in range(65)]
        for vertices, edges, text in [
            ([("a", 1), ("b", 1), ("a", 2)], [], "vertex 'a' is given twice"),
            ([(1, 1), (True, 1)], [], "vertex True is given twice"),
            ([("a", 1)], [("a", "b", 1)], "the edge of 'a' and 'b': there is no vertex 'b'"),
            ([("a", 1)], [("a", [], 1)], "there is no vertex"),
            ([("a", 1), ("b", 1)], [("a", "b", 1), ("b", "a", 2)], "'b' and 'a' is given twice"),
            ([("a", 1)], [("a", "a", 1), ("a", "a", 1)], "'a' and 'a' is given twice"),
            (full, [], "vertex 64 is the 65th"),
            (["ab"], [], "a vertex is given by 2 things, not by 'ab'"),
            ([("a",)], [], "a vertex is given by 2 things"),
            ([("a", 1)], ["aa1"], "an edge is given by 3 things, not by 'aa1'"),
            ([("a", 1)], [("a", "a")], "an edge is given by 3 things"),
            ([([], 1)], [], r"the name \[\] is not hashable"),
            ([("a", [])], [], r"vertex 'a': the label \[\] is not hashable"),
            ([("a", 1)], [("a", "a", {})], "'a' and 'a': the label {} is not hashable"),
            ([("a", float("nan"))], [], "nan is not equal to itself"),
        ]:
            with self.assertRaisesRegex(GraphError, text):
                Graph(vertices, edges)

    def test_largest(self):
        names = range(64)
        edges = [(i, j, 255) for i in names for j in range(i, 64)]
        graph = Graph([(name, 65535) for name in names], edges)
        self.assertEqual(len(graph.to_bytes()), 8515)
        self.assertEqual(Graph.from_bytes(graph.to_bytes()), graph)

    def test_unknown_name(self):
        for name in ("a", 3, []):
            with self.assertRaises(GraphError):
                OLD.number(name)


class Bytes(unittest.TestCase):
    def test_there_and_back(self):
        self.assertEqual(OLD.to_bytes(), OLD_BYTES)
        self.assertEqual(Graph.from_bytes(OLD_BYTES), OLD)
        self.assertEqual(Graph.from_bytes(bytearray(OLD_BYTES)), OLD)
        self.assertEqual(Graph([]).to_bytes(), bytes([4, 2, 0]))

    def test_any_order_of_commands(self):
        mixed = bytes([4, 2, 3, 7, 0, 3, 9, 0, 2, 1, 0, 1, 3, 7, 0, 2, 2, 1, 1, 0])
        self.assertEqual(Graph.from_bytes(mixed), OLD)

    def test_edition_1(self):
        earlier = bytes([1, 7, 1, 9, 1, 7, 2, 1, 0, 1, 2, 1, 2, 1, 0])
        self.assertEqual(Graph.from_bytes(earlier), OLD)
        self.assertEqual(len(Graph.from_bytes(b"\0")), 0)

    def test_refused_with_the_place_in_the_data(self):
        for data, number, place in [
            ([], 1, 0),
            ([4, 2, 3, 7, 0, 2, 0, 1, 1, 0], 5, 5),
            ([4, 3, 0], 27, 0),
            ([1, 7, 2, 0, 1, 1, 0], 5, 2),
            ([1, 7, 3, 0], 2, 2),
            ([1, 0, 0], 3, 0),
        ]:
            with self.assertRaises(Refused) as caught:
                Graph.from_bytes(bytes(data))
            error = caught.exception
            self.assertEqual((error.number, error.value, error.about), (number, place, "graph"))

    def test_only_bytes(self):
        for data in (5, "text", None):
            with self.assertRaises(TypeError):
                Graph.from_bytes(data)

    def test_labels_that_are_no_numbers_in_range(self):
        for label in (0, 65536, True, 1.0, "x", None, Kind.RELAY):
            with self.assertRaisesRegex(GraphError, "from 1 to 65535"):
                Graph([("a", label)]).to_bytes()
        for label in (0, 256, True, 1.0, "x", None):
            with self.assertRaisesRegex(GraphError, "from 1 to 255"):
                Graph([("a", 1)], [("a", "a", label)]).to_bytes()


class NetworkxLike:
    """As much of a networkx graph as is asked for."""

    def __init__(self, nodes, edges, directed=False, multi=False):
        self._nodes, self._edges, self._directed, self._multi = nodes, edges, directed, multi

    def nodes(self, data):
        return iter(self._nodes)

    def edges(self, data):
        return iter(self._edges)

    def is_directed(self):
        return self._directed

    def is_multigraph(self):
        return self._multi


class FromNetworkx(unittest.TestCase):
    def test_like_one(self):
        nodes = [("b", {"label": "x", "kind": "k"}), ("a", {"label": None, "kind": "l"})]
        edges = [("b", "a", {"label": 5, "w": 6}), ("b", "b", {"label": 7, "w": 8})]
        graph = NetworkxLike(nodes, edges)
        expected = Graph([("b", "x"), ("a", None)], [("a", "b", 5), ("b", "b", 7)])
        self.assertEqual(Graph.from_networkx(graph), expected)
        other = Graph([("b", "k"), ("a", "l")], [("a", "b", 6), ("b", "b", 8)])
        self.assertEqual(Graph.from_networkx(graph, label="kind", edge_label="w"), other)
        alike = Graph([("b", None), ("a", None)], [("a", "b", None), ("b", "b", None)])
        self.assertEqual(Graph.from_networkx(graph, label=None, edge_label=None), alike)

    def test_missing_attributes(self):
        with self.assertRaisesRegex(GraphError, "node 'a' has no attribute 'label'"):
            Graph.from_networkx(NetworkxLike([("a", {"kind": 1})], []))
        nodes = [("a", {"label": 1})]
        with self.assertRaisesRegex(GraphError, "edge of 'a' and 'a' has no attribute 'label'"):
            Graph.from_networkx(NetworkxLike(nodes, [("a", "a", {})]))

    def test_directed_and_multigraphs(self):
        with self.assertRaisesRegex(GraphError, "directed"):
            Graph.from_networkx(NetworkxLike([], [], directed=True))
        with self.assertRaisesRegex(GraphError, "multigraph"):
            Graph.from_networkx(NetworkxLike([], [], multi=True))

    @unittest.skipIf(networkx is None, "networkx is not installed")
    def test_real_one(self):
        graph = networkx.Graph()
        graph.add_node("b", label="x")
        graph.add_node("a", label="y")
        graph.add_edge("b", "a", label=5)
        graph.add_edge("b", "b", label=6)
        expected = Graph([("b", "x"), ("a", "y")], [("a", "b", 5), ("b", "b", 6)])
        self.assertEqual(Graph.from_networkx(graph), expected)
        for kind in (networkx.DiGraph, networkx.MultiGraph, networkx.MultiDiGraph):
            with self.assertRaises(GraphError):
                Graph.from_networkx(kind())
        with self.assertRaisesRegex(GraphError, "65th"):
            Graph.from_networkx(networkx.path_graph(65), label=None, edge_label=None)


class Problems(unittest.TestCase):
    def test_numbers_stand_for_themselves(self):
        problem = Problem(OLD, NEW, [(7, 300)])
        self.assertEqual(problem.old_bytes, OLD_BYTES)
        self.assertEqual(problem.new_bytes, NEW.to_bytes())
        self.assertEqual(problem.substitutes_bytes, bytes([7, 0, 44, 1]))
        self.assertEqual((problem.old, problem.new), (OLD, NEW))
        self.assertEqual(problem.substitutes, ((7, 300),))

    def test_numbered_by_first_occurrence(self):
        old = Graph({"a": "x", "b": 900}, [("a", "b", 3)])
        new = Graph({"c": "y", "d": "x"}, [("c", "d", 4), ("c", "c", 3)])
        problem = Problem(old, new, [("z", "x"), (900, "w")])
        self.assertEqual(problem.old_bytes, bytes([4, 2, 3, 1, 0, 3, 2, 0, 2, 0, 1, 3, 0]))
        self.assertEqual(
            problem.new_bytes, bytes([4, 2, 3, 3, 0, 3, 1, 0, 2, 0, 0, 3, 2, 0, 1, 4, 0])
        )
        self.assertEqual(problem.substitutes_bytes, bytes([4, 0, 1, 0, 2, 0, 5, 0]))

    def test_edge_labels_are_numbered_on_their_own(self):
        old = Graph({1: 5}, [(1, 1, "wire")])
        new = Graph({1: 5}, [(1, 1, 900)])
        problem = Problem(old, new)
        self.assertEqual(problem.old_bytes, bytes([4, 2, 3, 5, 0, 2, 0, 0, 1, 0]))
        self.assertEqual(problem.new_bytes, bytes([4, 2, 3, 5, 0, 2, 0, 0, 2, 0]))

    def test_numbers_out_of_range_are_numbered(self):
        for label in (0, -1, 65536, True, None):
            problem = Problem(Graph([("a", label)]), Graph([("a", 7)]))
            self.assertEqual(problem.old_bytes, bytes([4, 2, 3, 1, 0, 0]))
            self.assertEqual(problem.new_bytes, bytes([4, 2, 3, 2, 0, 0]))

    def test_equal_labels_of_different_types(self):
        for one, other in [(1, True), (1, 1.0), (7, Kind.RELAY), (0, False)]:
            with self.assertRaisesRegex(GraphError, "of different types"):
                Problem(Graph([("a", one)]), Graph([("a", other)]))
            with self.assertRaisesRegex(GraphError, "of different types"):
                Problem(Graph([("a", one)]), NEW, [("x", other)])
            with self.assertRaisesRegex(GraphError, "of different types"):
                edges = [("a", "a", one), ("a", "b", other)]
                Problem(Graph([("a", 5), ("b", 5)], edges), NEW)

    def test_too_many_edge_labels(self):
        names = range(23)
        pairs = [(i, j) for i in names for j in range(i, 23)]
        graph = Graph([(name, 1) for name in names], [(*p, n) for n, p in enumerate(pairs[:255])])
        self.assertEqual(len(Problem(graph, graph).old_bytes), 2 + 3 * 23 + 4 * 255 + 1)
        with self.assertRaisesRegex(GraphError, "256 different edge labels: at most 255"):
            Problem(graph, Graph([(0, 1)], [(0, 0, "more")]))

    def test_substitutes(self):
        self.assertEqual(len(Problem(OLD, NEW, [(7, 8)] * 256).substitutes_bytes), 1024)
        for substitutes, text in [
            ([(7, 8)] * 257, "257 substitutes: at most 256"),
            (["ab"], "a substitute is given by 2 things, not by 'ab'"),
            ([(7, [])], "not hashable"),
        ]:
            with self.assertRaisesRegex(GraphError, text):
                Problem(OLD, NEW, substitutes)

    def test_only_graphs(self):
        for old, new in [(OLD, None), (OLD_BYTES, NEW)]:
            with self.assertRaises(TypeError):
                Problem(old, new)

    def test_never_changes(self):
        problem = Problem(OLD, NEW)
        for name in ("old", "new", "substitutes", "old_bytes", "new_bytes", "substitutes_bytes"):
            with self.assertRaises(AttributeError):
                setattr(problem, name, None)

    def test_check(self):
        problem = Problem(OLD, NEW)
        self.assertEqual(problem.check({0: 1, 1: 0}), 2)
        self.assertEqual(problem.check({}), 0)
        with self.assertRaisesRegex(GraphError, "old graph: there is no vertex 5"):
            problem.check({5: 0})
        with self.assertRaisesRegex(GraphError, "new graph: there is no vertex 2"):
            problem.check({0: 2})

    def test_check_names_the_vertices(self):
        old = Graph({"a": "x", "b": "x"}, [("a", "b", 1)])
        new = Graph({"c": "x", "d": "x", "e": "y", "f": "x"}, [("f", "f", 1)])
        problem = Problem(old, new)
        for mapping, number, row, earlier, text in [
            ({"a": "c", "b": "c"}, 20, 1, 0, "'a' and 'b'"),
            ({"b": "e"}, 21, 1, 0, "old vertex 'b'"),
            ({"a": "c", "b": "d"}, 22, 1, 0, "'a' and 'b'"),
            ({"b": "f"}, 22, 1, 1, "old vertex 'b'"),
        ]:
            with self.assertRaisesRegex(MappingRefused, text) as caught:
                problem.check(mapping)
            error = caught.exception
            self.assertEqual((error.number, error.row, error.earlier), (number, row, earlier))
            self.assertEqual(error.about, "mapping")

    def test_edge_labels_beyond_a_byte_are_numbered(self):
        old = Graph({1: 5}, [(1, 1, 5)])
        new = Graph({1: 5}, [(1, 1, 300)])
        problem = Problem(old, new)
        self.assertEqual(problem.old_bytes, bytes([4, 2, 3, 5, 0, 2, 0, 0, 1, 0]))
        self.assertEqual(problem.new_bytes, bytes([4, 2, 3, 5, 0, 2, 0, 0, 2, 0]))

    def test_equal_labels_of_other_types_within_tuples(self):
        with self.assertRaisesRegex(GraphError, "different types"):
            Problem(Graph({0: (1, "x")}), Graph({0: (True, "x")}))


if __name__ == "__main__":
    unittest.main()
