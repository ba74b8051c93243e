//! Graph bytes of both editions: read and judged, written, and moved from one to the other (01,
//! "Charts"; 02, U6).

use super::{Graph, Reason, Refusal};

#[derive(Clone, Copy, Debug, PartialEq, Eq)]
pub enum Edition {
    /// 01's: a vertex is 1 and a label of one byte.
    One,
    /// 02's: 4 and 2 come first, and a vertex is 3 and a label of two bytes, the lower first.
    Two,
}

/// The greatest label of edition 1.
const GREATEST_BYTE: u16 = 255;

enum Command {
    Vertex(u16),
    Edge(usize, usize, u8),
    End,
}

impl Edition {
    /// What comes before the commands.
    pub fn head(self) -> &'static [u8] {
        match self {
            Edition::One => &[],
            Edition::Two => &[4, 2],
        }
    }

    /// The command for a vertex. In edition 1 its label must fit a byte.
    pub fn vertex(self, label: u16) -> Vec<u8> {
        let [low, high] = label.to_le_bytes();
        match self {
            Edition::One if high == 0 => vec![1, low],
            Edition::One => panic!("{label} does not fit a byte"),
            Edition::Two => vec![3, low, high],
        }
    }

    /// Where the commands begin.
    fn begin(self, bytes: &[u8]) -> Result<usize, Reason> {
        match (self, bytes) {
            (Edition::One, _) => Ok(0),
            (Edition::Two, [4, 2, ..]) => Ok(2),
            (Edition::Two, [] | [4]) => Err(Reason::CutOff),
            (Edition::Two, _) => Err(Reason::OtherBeginning),
        }
    }

    /// The command that these bytes begin with, and how many it takes.
    fn command(self, bytes: &[u8]) -> Result<(Command, usize), Reason> {
        match (self, bytes) {
            (_, [0, ..]) => Ok((Command::End, 1)),
            (Edition::One, &[1, label, ..]) => Ok((Command::Vertex(label.into()), 2)),
            (Edition::Two, &[3, low, high, ..]) => {
                Ok((Command::Vertex(u16::from_le_bytes([low, high])), 3))
            }
            (_, &[2, a, b, label, ..]) => Ok((Command::Edge(a.into(), b.into(), label), 4)),
            (_, [] | [2, ..]) | (Edition::One, [1, ..]) | (Edition::Two, [3, ..]) => {
                Err(Reason::CutOff)
            }
            _ => Err(Reason::UnknownCommand),
        }
    }

    /// The graph of these bytes, none of whose labels may be above `greatest`.
    pub fn parse(self, bytes: &[u8], greatest: u16) -> Result<Graph, Refusal> {
        let mut graph = Graph::default();
        let mut place = self.begin(bytes)?;
        loop {
            let at_command = |reason| Refusal::at(reason, place);
            let (command, width) = self.command(&bytes[place..]).map_err(at_command)?;
            let judged = match command {
                Command::Vertex(label) => (graph.add_vertex(label)).and_then(|()| {
                    let fits = label <= greatest;
                    fits.then_some(()).ok_or(Reason::LabelAboveByte)
                }),
                Command::Edge(a, b, label) => graph.add_edge(a, b, label),
                Command::End if place + width == bytes.len() => return Ok(graph),
                Command::End => {
                    return Err(Refusal::at(Reason::BytesAfterEnd, place + width));
                }
            };
            judged.map_err(at_command)?;
            place += width;
        }
    }

    /// All vertices, then the edges with a <= b by rising a, then rising b, then the end.
    pub fn save(self, graph: &Graph) -> Vec<u8> {
        let vertices = (0..graph.order()).flat_map(|vertex| self.vertex(graph.label(vertex)));
        let edges = graph
            .edges()
            .flat_map(|(a, b, label)| [2, a as u8, b as u8, label]);
        let head = self.head().iter().copied();
        head.chain(vertices).chain(edges).chain([0]).collect()
    }

    /// "A move reads with the one edition's reader and writes as the other's writer does": bytes of
    /// the other edition as bytes of this one.
    pub fn moved_here(self, bytes: &[u8]) -> Result<Vec<u8>, Refusal> {
        let graph = match self {
            Edition::One => Edition::Two.parse(bytes, GREATEST_BYTE)?,
            Edition::Two => Edition::One.parse(bytes, GREATEST_BYTE)?,
        };
        Ok(self.save(&graph))
    }
}
