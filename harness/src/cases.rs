//! Random inputs: graphs and their bytes, lists of substitutes, mappings, checkpoints, and damage
//! to each.

use std::ops::Range;

use crate::library::CLIQUE_VERTICES;
use crate::random::Random;
use crate::reference::{entries_from_bytes, entries_to_bytes, size, Checkpoint, Entry};
use crate::reference::{Edition, Graph, Node, Problem, Substitutes, MAX_VERTICES, UNMAPPED};

/// The end of a range that has every number of vertices in it.
pub const ANY_ORDER: usize = MAX_VERTICES + 1;

/// The vertex labels of random graphs. Each has the lower byte or the higher one in common with
/// another, and some are others with their bytes turned.
const LABELS: [u16; 10] = [1, 2, 7, 9, 255, 256, 263, 1_792, 65_280, 65_535];
/// Those of graphs that fit edition 1, and of some that do not.
const NARROW_LABELS: [u16; 7] = [1, 2, 7, 9, 64, 200, 255];
const MIXED_LABELS: [u16; 5] = [1, 7, 255, 256, 65_535];
/// Labels that none of their vertices has.
const UNUSED: [u16; 4] = [3, 8, 264, 65_534];
const EDGE_LABELS: [u8; 7] = [1, 2, 7, 9, 64, 200, 255];
const MAX_PAIRS: usize = 256;
const PAIR_BYTES: usize = 4;
/// A tree of so many nodes is walked whole in a moment.
const FEW_NODES: usize = 20_000;

/// What the graphs of one problem have in common.
pub struct Style {
    pub vertex_labels: Vec<u16>,
    pub edge_labels: Vec<u8>,
    /// Chance of an edge of two vertices, in percent.
    pub density: usize,
    /// Chance of an own edge, in percent. Most of them have the first of the edge labels: so most
    /// vertices agree by their own edges where the chance is high, as well as where it is low.
    pub own: usize,
}

impl Style {
    pub fn random(random: &mut Random) -> Style {
        Style::with_labels(random, &LABELS)
    }

    /// One to three of these.
    fn with_labels(random: &mut Random, labels: &[u16]) -> Style {
        let mut vertex_labels = labels.to_vec();
        random.shuffle(&mut vertex_labels);
        vertex_labels.truncate(random.pick(&[1, 1, 2, 2, 3]));
        let mut edge_labels = EDGE_LABELS.to_vec();
        random.shuffle(&mut edge_labels);
        if random.percent(5) {
            edge_labels = (1..=255).collect();
        } else {
            edge_labels.truncate(random.pick(&[1, 1, 2, 3]));
        }
        Style {
            vertex_labels,
            edge_labels,
            density: random.pick(&[0, 20, 30, 30, 50, 80, 100]),
            own: random.pick(&[0, 0, 0, 10, 30, 90, 100]),
        }
    }

    fn own_edge(&self, random: &mut Random) -> u8 {
        if random.percent(85) {
            self.edge_labels[0]
        } else {
            random.pick(&self.edge_labels)
        }
    }
}

pub fn graph(random: &mut Random, style: &Style, order: usize) -> Graph {
    let mut graph = Graph::default();
    for vertex in 0..order {
        graph.add_vertex(random.pick(&style.vertex_labels)).unwrap();
        for earlier in 0..vertex {
            if random.percent(style.density) {
                let label = random.pick(&style.edge_labels);
                graph.add_edge(earlier, vertex, label).unwrap();
            }
        }
    }
    if style.own == 0 {
        return graph;
    }
    graph.with_own_edges(|_, _| match random.percent(style.own) {
        true => style.own_edge(random),
        false => 0,
    })
}

/// Two graphs of the same style; at times the new one is a part of the old one, shuffled, and at
/// times it has newer labels, or other own edges.
pub fn problem(random: &mut Random, orders: Range<usize>) -> Problem {
    let style = Style::random(random);
    let order = random.within(orders.clone());
    let old = graph(random, &style, order);
    let mut new = if random.percent(30) {
        shuffled_part(random, &old)
    } else {
        let order = random.within(orders);
        graph(random, &style, order)
    };
    // without a list, graphs with other labels seldom have more than an empty mapping in common
    let mut empty = 50;
    if random.percent(40) {
        new = relabelled(random, &new);
        empty = 10;
    }
    let substitutes = substitutes(random, &old, &new, empty);
    let problem = Problem {
        old,
        new,
        substitutes,
    };
    with_other_own_edges(random, &style, problem)
}

/// At times one of the two graphs loses its own edges, or some of the new one are changed.
fn with_other_own_edges(random: &mut Random, style: &Style, problem: Problem) -> Problem {
    let Problem {
        mut old,
        mut new,
        substitutes,
    } = problem;
    match random.within(0..10) {
        _ if style.own == 0 => {}
        0 => old = old.with_own_edges(|_, _| 0),
        1 => new = new.with_own_edges(|_, _| 0),
        2..5 => {
            new = new.with_own_edges(|_, label| match random.within(0..10) {
                0 => 0,
                1 => style.own_edge(random),
                2 => random.pick(&style.edge_labels),
                _ => label,
            })
        }
        _ => {}
    }
    Problem {
        old,
        new,
        substitutes,
    }
}

/// The same problem, but for own edges of one of its graphs or both: some or all have another label,
/// or are no more.
pub fn other_own_edges(random: &mut Random, problem: &Problem) -> Problem {
    let Problem {
        mut old,
        mut new,
        substitutes,
    } = problem.clone();
    let which = random.within(0..3);
    let chance = random.pick(&[10, 30, 100]);
    let label = random.pick(&[0, 0, EDGE_LABELS[0], EDGE_LABELS[1]]);
    let mut other = |_, before| match random.percent(chance) {
        true => label,
        false => before,
    };
    if which != 0 {
        old = old.with_own_edges(&mut other);
    }
    if which != 1 {
        new = new.with_own_edges(&mut other);
    }
    Problem {
        old,
        new,
        substitutes,
    }
}

/// At most eight old vertices, and a tree so small that it is walked without a bound.
pub fn clique_problem(random: &mut Random) -> Problem {
    let mut problem = if random.percent(10) {
        wide_problem(random)
    } else {
        problem(random, 0..11)
    };
    problem.old = problem.old.first(CLIQUE_VERTICES);
    while has_many_nodes(&problem) {
        problem.new = problem.new.first(problem.new.order() - 1);
    }
    problem
}

/// The same with so many old vertices that clique branching is refused: but for those from the
/// ninth on it is a problem as above.
pub fn crowded_problem(random: &mut Random) -> Problem {
    let mut problem = loop {
        let problem = clique_problem(random);
        if problem.old.order() == CLIQUE_VERTICES {
            break problem;
        }
    };
    let order = random.pick(&[9, 9, 9, 10, 16, 17, 63, MAX_VERTICES]);
    for vertex in CLIQUE_VERTICES..order {
        let label = label_of(random, &problem.old);
        problem.old.add_vertex(label).unwrap();
        if random.percent(50) {
            let end = random.within(0..vertex + 1);
            let label = random.pick(&EDGE_LABELS);
            problem.old.add_edge(end, vertex, label).unwrap();
        }
    }
    problem
}

/// Many new vertices, of so many labels that few of them agree with an old one.
fn wide_problem(random: &mut Random) -> Problem {
    let vertex_labels = match random.within(0..4) {
        0 => (1..100).collect(),
        1 => (200..300).collect(),
        2 => (65_436..=65_535).collect(),
        // all with the same lower byte
        _ => (0..100).map(|high| 256 * high + 7).collect(),
    };
    let style = Style {
        vertex_labels,
        ..Style::random(random)
    };
    let order = random.within(11..ANY_ORDER);
    let new = graph(random, &style, order);
    let old = shuffled_part(random, &new).first(random.within(0..CLIQUE_VERTICES + 1));
    let substitutes = substitutes(random, &old, &new, 50);
    let problem = Problem {
        old,
        new,
        substitutes,
    };
    with_other_own_edges(random, &style, problem)
}

fn has_many_nodes(problem: &Problem) -> bool {
    let mut left = FEW_NODES;
    !count_down(&Node::root(problem), &mut left)
}

/// Takes one off for each node from this one on, and says whether there were enough.
fn count_down(node: &Node, left: &mut usize) -> bool {
    if *left == 0 {
        return false;
    }
    *left -= 1;
    let mut choices = node.choices().into_iter();
    choices.all(|choice| count_down(&node.child(choice), left))
}

/// Every label in the place of another one, or of itself.
fn relabelled(random: &mut Random, graph: &Graph) -> Graph {
    let mut newer = LABELS;
    random.shuffle(&mut newer);
    let mut relabelled = Graph::default();
    for vertex in 0..graph.order() {
        let number = LABELS.iter().position(|&l| l == graph.label(vertex));
        let label = newer[number.expect("one of the labels")];
        relabelled.add_vertex(label).unwrap();
    }
    for (a, b, label) in graph.edges() {
        relabelled.add_edge(a, b, label).unwrap();
    }
    relabelled
}

/// A sound list: at a chance in percent empty, else mostly short, or with other pairs around the
/// few that tell, up to as many as a list may have.
fn substitutes(random: &mut Random, old: &Graph, new: &Graph, empty: usize) -> Substitutes {
    let mut pairs = Vec::new();
    if random.percent(empty) {
        return Substitutes { pairs };
    }
    for _ in 0..random.within(1..6) {
        let more = some_pairs(random, old, new, &pairs);
        pairs.extend(more);
    }
    if random.percent(25) {
        let any_length = random.within(pairs.len()..MAX_PAIRS);
        let length = random.pick(&[any_length, MAX_PAIRS - 1, MAX_PAIRS, MAX_PAIRS]);
        let place = random.within(0..pairs.len() + 1);
        let place = random.pick(&[0, 0, place, pairs.len()]);
        let other = [random.pick(&UNUSED), random.pick(&LABELS)];
        let others = vec![other; length - pairs.len()];
        pairs.splice(place..place, others);
    }
    Substitutes { pairs }
}

/// A pair of labels that occur, turned or not; or two that would have to be chained; or one of
/// equal labels, or with a label that does not occur, or with one that has a byte in common with the
/// one that does; or one that is there already.
fn some_pairs(random: &mut Random, old: &Graph, new: &Graph, before: &[[u16; 2]]) -> Vec<[u16; 2]> {
    let (from, to) = (label_of(random, old), label_of(random, new));
    let unused = random.pick(&UNUSED);
    match random.within(0..15) {
        0 => vec![[to, from]],
        1 => vec![[from, unused], [unused, to]],
        2 => vec![[unused, to], [from, unused]],
        3 => vec![[from, from]],
        4 => vec![[to, to]],
        5 => vec![[from, unused]],
        6 => vec![[unused, to]],
        7 if !before.is_empty() => vec![random.pick(before)],
        8 => vec![[akin(random, from), to]],
        9 => vec![[from, akin(random, to)]],
        10 => vec![[from.swap_bytes(), to.swap_bytes()]],
        _ => vec![[from, to]],
    }
}

/// Mostly another label, with a byte in common.
fn akin(random: &mut Random, label: u16) -> u16 {
    let others = [
        label ^ 0x0100,
        label ^ 0x0001,
        label & 0x00FF,
        label & 0xFF00,
    ];
    random.pick(&others).max(1)
}

/// Of any vertex.
fn label_of(random: &mut Random, graph: &Graph) -> u16 {
    match graph.order() {
        0 => random.pick(&LABELS),
        order => graph.label(random.within(0..order)),
    }
}

/// Another sound list: a pair less or more, the pairs turned or in another order, none, or any.
pub fn other_substitutes(random: &mut Random, problem: &Problem) -> Substitutes {
    let Problem {
        old,
        new,
        substitutes: Substitutes { pairs },
    } = problem;
    let mut pairs = pairs.clone();
    match random.within(0..7) {
        0 => pairs.clear(),
        1 | 2 if !pairs.is_empty() => drop(pairs.remove(random.within(0..pairs.len()))),
        3 => pairs.iter_mut().for_each(|pair| pair.reverse()),
        4 => pairs.reverse(),
        5 => {
            let more = some_pairs(random, old, new, &pairs);
            pairs.extend(more);
            pairs.truncate(MAX_PAIRS);
        }
        _ => return substitutes(random, old, new, 0),
    }
    Substitutes { pairs }
}

/// Makes a sound list unsound: by its length, by a label 0, or by both.
pub fn spoil_substitutes(random: &mut Random, bytes: &mut Vec<u8>) {
    let which = random.within(0..10);
    if which < 6 {
        spoil_length(random, bytes);
    }
    if which >= 4 {
        put_zero(random, bytes);
    }
}

fn spoil_length(random: &mut Random, bytes: &mut Vec<u8>) {
    let byte = random.pick(&[0, 1, 7, 255]);
    let most = PAIR_BYTES * MAX_PAIRS;
    // part of a pair, whole labels too
    let part = random.within(1..PAIR_BYTES);
    match random.within(0..5) {
        0 => bytes.resize(most + part, byte),
        1 => bytes.resize(most + PAIR_BYTES, byte),
        2 => bytes.resize(
            most + random.pick(&[5, 8, 88, 1024, 1025, 8000, 64_512]),
            byte,
        ),
        3 if bytes.len() >= part => bytes.truncate(bytes.len() - part),
        _ => bytes.resize(bytes.len() + part, byte),
    }
}

/// In an old label's place or in a new one's, at either end or anywhere.
fn put_zero(random: &mut Random, bytes: &mut Vec<u8>) {
    if bytes.len() < PAIR_BYTES {
        bytes.extend([random.pick(&[1, 7, 255]); PAIR_BYTES]);
    }
    let labels = bytes.len() / 2;
    let anywhere = random.within(0..labels);
    let label = random.pick(&[0, 1, labels - 2, labels - 1, anywhere]);
    bytes[2 * label..2 * label + 2].fill(0);
}

fn shuffled_part(random: &mut Random, whole: &Graph) -> Graph {
    let mut vertices: Vec<usize> = (0..whole.order()).collect();
    random.shuffle(&mut vertices);
    vertices.truncate(random.within(whole.order() / 2..whole.order() + 1));
    let mut part = Graph::default();
    for (number, &vertex) in vertices.iter().enumerate() {
        part.add_vertex(whole.label(vertex)).unwrap();
        for (earlier, &other) in vertices[..=number].iter().enumerate() {
            match whole.edge(other, vertex) {
                0 => {}
                label => part.add_edge(earlier, number, label).unwrap(),
            }
        }
    }
    part
}

/// Graph bytes: all vertices, then these edges.
pub fn graph_of(labels: &[u8], edges: &[[u8; 3]]) -> Vec<u8> {
    let vertices = labels.iter().flat_map(|&label| [3, label, 0]);
    let edges = edges.iter().flat_map(|&[a, b, label]| [2, a, b, label]);
    let commands = vertices.chain(edges).chain([0]);
    [4, 2].into_iter().chain(commands).collect()
}

/// Bytes of a graph as any writer of edition 2 may give them.
pub fn graph_bytes(random: &mut Random, graph: &Graph) -> Vec<u8> {
    bytes_in(random, Edition::Two, graph)
}

/// Edges anywhere after their vertices, either number first; or as the edition's writer does.
pub fn bytes_in(random: &mut Random, edition: Edition, graph: &Graph) -> Vec<u8> {
    if random.percent(30) {
        return edition.save(graph);
    }
    let mut edges: Vec<_> = graph.edges().collect();
    random.shuffle(&mut edges);
    let mut bytes = edition.head().to_vec();
    for vertex in 0..graph.order() {
        bytes.extend(edition.vertex(graph.label(vertex)));
        let (now, later): (Vec<_>, Vec<_>) = edges
            .into_iter()
            .partition(|&(_, b, _)| b <= vertex && random.percent(60));
        bytes.extend(now.iter().flat_map(|&edge| edge_command(random, edge)));
        edges = later;
    }
    bytes.extend(edges.iter().flat_map(|&edge| edge_command(random, edge)));
    bytes.push(0);
    bytes
}

fn edge_command(random: &mut Random, (a, b, label): (usize, usize, u8)) -> [u8; 4] {
    if random.percent(50) {
        [2, a as u8, b as u8, label]
    } else {
        [2, b as u8, a as u8, label]
    }
}

/// Bytes to be judged as a graph, mostly of edition 2.
pub fn any_graph_bytes(random: &mut Random) -> Vec<u8> {
    if random.percent(90) {
        any_bytes(random, Edition::Two, &LABELS)
    } else {
        any_bytes(random, Edition::One, &NARROW_LABELS)
    }
}

/// Bytes to be moved, mostly of the edition that is not moved to.
pub fn any_bytes_to_move(random: &mut Random, to: Edition) -> Vec<u8> {
    let from_two = random.percent(match to {
        Edition::One => 90,
        Edition::Two => 10,
    });
    if from_two {
        let labels: &[u16] = match random.within(0..5) {
            0 => &LABELS,
            1 => &MIXED_LABELS,
            _ => &NARROW_LABELS,
        };
        any_bytes(random, Edition::Two, labels)
    } else {
        any_bytes(random, Edition::One, &NARROW_LABELS)
    }
}

/// A graph that both editions can hold.
pub fn narrow_graph(random: &mut Random) -> Graph {
    let style = Style::with_labels(random, &NARROW_LABELS);
    let most = random.pick(&[4, 9, 9, 9, 20, ANY_ORDER]);
    let order = random.within(0..most);
    graph(random, &style, order)
}

/// Sound, damaged, random or extreme.
fn any_bytes(random: &mut Random, edition: Edition, labels: &[u16]) -> Vec<u8> {
    let style = Style::with_labels(random, labels);
    match random.within(0..20) {
        0..3 => random_bytes(random, edition),
        3..6 => extreme_bytes(random, edition, style),
        6..12 => small_bytes(random, edition, &style),
        _ => {
            let mut bytes = small_bytes(random, edition, &style);
            damage(random, &mut bytes);
            bytes
        }
    }
}

fn small_bytes(random: &mut Random, edition: Edition, style: &Style) -> Vec<u8> {
    let order = random.within(0..9);
    let graph = graph(random, style, order);
    bytes_in(random, edition, &graph)
}

/// None or 64 vertices, or a command for a 65th; no edges or all, own edges too; sometimes damaged.
fn extreme_bytes(random: &mut Random, edition: Edition, mut style: Style) -> Vec<u8> {
    style.density = random.pick(&[0, 0, 0, 10, 100]);
    style.own = random.pick(&[0, 10, 100, 100]);
    let order = random.pick(&[0, 63, 64, 64]);
    let graph = graph(random, &style, order);
    let mut bytes = edition.save(&graph);
    if random.percent(40) {
        let labels: &[u16] = match edition {
            Edition::One => &[0, 1, 255],
            Edition::Two => &[0, 1, 255, 256, 256, 65_535],
        };
        let command = edition.vertex(random.pick(labels));
        let number = random.within(0..order + 1);
        let number = random.pick(&[number, order]);
        let place = edition.head().len() + command.len() * number;
        bytes.splice(place..place, command);
    }
    if random.percent(30) {
        damage(random, &mut bytes);
    }
    bytes
}

/// Mostly bytes that mean something, and mostly begun as the edition begins.
fn random_bytes(random: &mut Random, edition: Edition) -> Vec<u8> {
    let mut bytes = Vec::new();
    if random.percent(80) {
        bytes.extend(edition.head());
    }
    let length = random.within(0..14);
    bytes.extend((0..length).map(|_| telling_byte(random)));
    bytes
}

fn telling_byte(random: &mut Random) -> u8 {
    if random.percent(80) {
        random.pick(&[
            0, 0, 0, 1, 1, 1, 2, 2, 3, 3, 4, 16, 17, 18, 19, 20, 63, 64, 255,
        ])
    } else {
        random.byte()
    }
}

/// A byte changed, inserted or deleted, a tail cut off or added, or a stretch repeated.
pub fn damage(random: &mut Random, bytes: &mut Vec<u8>) {
    let place = random.within(0..bytes.len() + 1);
    let byte = telling_byte(random);
    match random.within(0..8) {
        0..3 if place < bytes.len() => bytes[place] = byte,
        3 if place < bytes.len() => drop(bytes.remove(place)),
        4 => bytes.truncate(place),
        5 => bytes.resize(bytes.len() + random.pick(&[1, 2, 300]), byte),
        6 => {
            let end = bytes.len().min(place + random.within(1..5));
            let stretch = bytes[place..end].to_vec();
            bytes.splice(place..place, stretch);
        }
        _ => bytes.insert(place, byte),
    }
}

/// A node of the search tree at `depth`, reached by random choices.
pub fn random_path(random: &mut Random, problem: &Problem, depth: usize) -> Vec<Entry> {
    let left_out = random.pick(&[0, 10, 50]);
    let mut node = Node::root(problem);
    let mut path = Vec::new();
    for _ in 0..depth {
        let choice = if random.percent(left_out) {
            None
        } else {
            random.pick(&node.choices())
        };
        path.push(choice);
        node = node.child(choice);
    }
    path
}

/// Bytes to be judged as a mapping: a common subgraph, damaged or not, or random, or of any length.
pub fn any_mapping(random: &mut Random, problem: &Problem) -> Vec<u8> {
    let order = problem.old.order();
    let mut mapping = entries_to_bytes(&random_path(random, problem, order));
    match random.within(0..10) {
        0..3 => {}
        3..7 => change_entries(random, problem, &mut mapping),
        7 => mapping.fill_with(|| any_entry(random, problem)),
        8 => mapping.resize(random.within(0..order + 3), 0),
        _ => mapping.resize(random.pick(&[0, 63, 64, 65, 255, 300]), UNMAPPED),
    }
    mapping
}

fn change_entries(random: &mut Random, problem: &Problem, mapping: &mut [u8]) {
    for _ in 0..random.within(1..4) {
        if !mapping.is_empty() {
            mapping[random.within(0..mapping.len())] = any_entry(random, problem);
        }
    }
}

fn any_entry(random: &mut Random, problem: &Problem) -> u8 {
    let order = problem.new.order();
    match random.within(0..10) {
        0 => UNMAPPED,
        1 => order as u8,
        2 => random.byte(),
        _ => random.within(0..order.max(1)) as u8,
    }
}

/// A checkpoint in shape that, but for luck, no walk makes.
pub fn crafted_checkpoint(random: &mut Random, problem: &Problem) -> Checkpoint {
    let order = problem.old.order();
    let finished = order == 0 || random.percent(15);
    let depth = match random.within(0..5) {
        _ if finished => 0,
        0 => order,
        _ => random.within(1..order + 1),
    };
    let held = random
        .percent(50)
        .then(|| random_path(random, problem, order));
    let minimum = match &held {
        Some(mapping) => random.within(0..size(mapping) + 1) as u8,
        None => random.pick(&[0, 1, 2, 3, 5, 64, 255]),
    };
    Checkpoint {
        minimum,
        steps: random.pick(&[1, 2, 1000, 1 << 32, u64::MAX - 40, u64::MAX - 1, u64::MAX]),
        path: random_path(random, problem, depth),
        finished,
        incumbent: held,
    }
}

/// Breaks, or seems to break, one clause of the shape or of the form.
pub fn misshape(random: &mut Random, problem: &Problem, checkpoint: &mut Checkpoint) {
    let order = problem.old.order();
    let entry = entries_from_bytes(&[any_entry(random, problem)])[0];
    match random.within(0..12) {
        0..3 => change_entry(random, &mut checkpoint.path, entry),
        3 => checkpoint.finished = !checkpoint.finished,
        4 => checkpoint.steps = 0,
        5 => checkpoint.path.clear(),
        6 => checkpoint.path.resize(order + 1, entry),
        7 => checkpoint.minimum = checkpoint.minimum.wrapping_add(random.pick(&[1, 2, 255])),
        8 => checkpoint.incumbent = Some(vec![entry; order]),
        9 => checkpoint.incumbent = None,
        10 => {
            let incumbent = checkpoint.incumbent.take();
            *checkpoint = Checkpoint::fresh(checkpoint.minimum);
            checkpoint.incumbent = incumbent;
        }
        _ => {
            if let Some(mapping) = &mut checkpoint.incumbent {
                change_entry(random, mapping, entry);
            }
        }
    }
}

fn change_entry(random: &mut Random, entries: &mut [Entry], entry: Entry) {
    if !entries.is_empty() {
        entries[random.within(0..entries.len())] = entry;
    }
}
