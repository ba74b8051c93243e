//! Checkpoints, their shape, and their bytes (01, "Bookmark and calls").

use super::{check, entries_from_bytes, entries_to_bytes, size};
use super::{Entry, Node, Problem, Reason, Refusal, Sought};

#[derive(Clone, Debug, PartialEq, Eq)]
pub struct Checkpoint {
    pub minimum: u8,
    pub steps: u64,
    /// Of the next node; empty when finished.
    pub path: Vec<Entry>,
    pub finished: bool,
    pub incumbent: Option<Vec<Entry>>,
}

impl Checkpoint {
    pub fn fresh(minimum: u8) -> Checkpoint {
        Checkpoint {
            minimum,
            steps: 0,
            path: Vec::new(),
            finished: false,
            incumbent: None,
        }
    }

    /// The upper bound that a node must reach.
    pub fn cutoff(&self) -> usize {
        match &self.incumbent {
            Some(mapping) => size(mapping) + 1,
            None => self.minimum.into(),
        }
    }

    /// 0 unfinished, 1 unfinished with an incumbent, 2 finished, 3 finished with one.
    pub fn state(&self) -> u8 {
        2 * u8::from(self.finished) + u8::from(self.incumbent.is_some())
    }

    pub fn in_shape(&self, problem: &Problem, sought: Sought) -> bool {
        let depth = self.path.len();
        let at_start = !self.finished && depth == 0;
        depth <= problem.old.order()
            && reached(&Node::root(problem), &self.path)
            && self.incumbent_in_shape(problem, sought)
            && !(self.finished && depth > 0)
            && (self.steps == 0) == at_start
            && !(at_start && self.incumbent.is_some())
    }

    fn incumbent_in_shape(&self, problem: &Problem, sought: Sought) -> bool {
        let reaches = |size: usize| size >= self.minimum.into();
        match &self.incumbent {
            Some(mapping) => {
                check(problem, mapping).is_ok_and(reaches) && sought.admits(&problem.old, mapping)
            }
            None => true,
        }
    }

    pub fn save(&self) -> Vec<u8> {
        let mut bytes = vec![16, self.minimum, 17];
        bytes.extend(self.steps.to_le_bytes());
        bytes.extend([18, self.state()]);
        bytes.extend(tagged(19, &self.path));
        if let Some(mapping) = &self.incumbent {
            bytes.extend(tagged(20, mapping));
        }
        bytes.push(0);
        bytes
    }

    /// Bytes in the form, whose checkpoint is in shape for this search.
    pub fn load(problem: &Problem, sought: Sought, bytes: &[u8]) -> Result<Checkpoint, Refusal> {
        let checkpoint = Checkpoint::parse(problem.old.order(), bytes)
            .map_err(|place| Refusal::at(Reason::NotInForm, place))?;
        if checkpoint.in_shape(problem, sought) {
            Ok(checkpoint)
        } else {
            Err(Reason::NotInShape.into())
        }
    }

    /// The error is the place of the first byte that cannot stand there.
    fn parse(order: usize, bytes: &[u8]) -> Result<Checkpoint, usize> {
        let mut reader = Reader { bytes, place: 0 };
        reader.tag(16)?;
        let minimum = reader.any()?;
        reader.tag(17)?;
        let steps = reader.number()?;
        reader.tag(18)?;
        let state = reader.expect(|byte| byte <= 3)?;
        let path = reader.at_most(order, 19)?;
        let incumbent = match state {
            1 | 3 => Some(reader.exactly(order, 20)?),
            _ => None,
        };
        reader.tag(0)?;
        reader.end()?;
        Ok(Checkpoint {
            minimum,
            steps,
            path: entries_from_bytes(&path),
            finished: state >= 2,
            incumbent: incumbent.map(|mapping| entries_from_bytes(&mapping)),
        })
    }
}

/// Each entry of the path is a candidate of its row, or left out.
fn reached(node: &Node, path: &[Entry]) -> bool {
    match path.split_first() {
        Some((choice, rest)) => {
            node.choices().contains(choice) && reached(&node.child(*choice), rest)
        }
        None => true,
    }
}

fn tagged(tag: u8, entries: &[Entry]) -> impl Iterator<Item = u8> {
    let bytes = entries_to_bytes(entries).into_iter();
    bytes.flat_map(move |byte| [tag, byte])
}

/// Its errors are the place of the byte that cannot stand there, the length if one is missing.
struct Reader<'a> {
    bytes: &'a [u8],
    place: usize,
}

impl Reader<'_> {
    fn expect(&mut self, may_stand: impl Fn(u8) -> bool) -> Result<u8, usize> {
        match self.bytes.get(self.place) {
            Some(&byte) if may_stand(byte) => {
                self.place += 1;
                Ok(byte)
            }
            _ => Err(self.place),
        }
    }

    fn any(&mut self) -> Result<u8, usize> {
        self.expect(|_| true)
    }

    fn tag(&mut self, tag: u8) -> Result<u8, usize> {
        self.expect(|byte| byte == tag)
    }

    fn number(&mut self) -> Result<u64, usize> {
        let mut low_first = [0; 8];
        for byte in &mut low_first {
            *byte = self.any()?;
        }
        Ok(u64::from_le_bytes(low_first))
    }

    fn at_most(&mut self, count: usize, tag: u8) -> Result<Vec<u8>, usize> {
        let mut entries = Vec::new();
        while entries.len() < count && self.tag(tag).is_ok() {
            entries.push(self.any()?);
        }
        Ok(entries)
    }

    fn exactly(&mut self, count: usize, tag: u8) -> Result<Vec<u8>, usize> {
        let mut entry = || self.tag(tag).and_then(|_| self.any());
        (0..count).map(|_| entry()).collect()
    }

    fn end(&self) -> Result<(), usize> {
        if self.place == self.bytes.len() {
            Ok(())
        } else {
            Err(self.place)
        }
    }
}
