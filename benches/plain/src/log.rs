//! The log of all steps, each stored. Nothing that runs reads what its entries say, but for the acks.
//! The plain form stores a step as it is said. The form whose versions share what they say
//! (`--cfg shared`) stores sixteen bytes a step: the key by its number, and the dots as a run.
use crate::book::Place;
#[cfg(shared)]
use crate::contexts::Run;
use crate::contexts::{Context, Dot};
#[cfg(not(shared))]
use crate::rows::Value;
use crate::rows::{Key, Row, Version};
use std::borrow::Cow;

#[cfg(not(shared))]
#[allow(dead_code)]
pub enum Step {
    Issue {
        node: u8,
        key: Key,
        context: Context,
        value: Option<Value>,
    },
    Hold {
        place: Place,
        key: Key,
        row: Row,
    },
    Release {
        place: Place,
        key: Key,
        dot: Dot,
    },
    Fetch {
        place: Place,
        key: Key,
    },
    Ack {
        key: Key,
        dot: Dot,
        w: u8,
    },
}

#[cfg(not(shared))]
#[derive(Default)]
pub struct Log {
    steps: Vec<Step>,
}

#[cfg(not(shared))]
impl Log {
    pub fn len(&self) -> usize {
        self.steps.len()
    }

    /// The number of a key, which this form has no use for.
    pub fn number_of(&mut self, _key: &Key) -> u32 {
        0
    }

    pub fn issue(&mut self, _number: u32, key: &Key, version: &Version) {
        self.steps.push(Step::Issue {
            node: version.dot.node,
            key: key.clone(),
            context: version.past.clone(),
            value: version.value.clone(),
        });
    }

    pub fn hold(&mut self, _number: u32, place: Place, key: &Key, row: Cow<Row>) {
        let (key, row) = (key.clone(), row.into_owned());
        self.steps.push(Step::Hold { place, key, row });
    }

    pub fn release(&mut self, _number: u32, place: Place, key: &Key, dot: Dot) {
        let key = key.clone();
        self.steps.push(Step::Release { place, key, dot });
    }

    pub fn fetch(&mut self, _number: u32, place: Place, key: &Key) {
        let key = key.clone();
        self.steps.push(Step::Fetch { place, key });
    }

    pub fn ack(&mut self, _number: u32, key: &Key, dot: Dot, w: u8) {
        let key = key.clone();
        self.steps.push(Step::Ack { key, dot, w });
    }

    pub fn acks(&self) -> impl Iterator<Item = (&Key, Dot, u8)> {
        self.steps.iter().filter_map(|step| match step {
            Step::Ack { key, dot, w } => Some((key, *dot, *w)),
            _ => None,
        })
    }
}

/// What a step is. The version of an issue is the one of its key and its dot, and a row held is the
/// versions of its dots: both stand in the book's index.
#[cfg(shared)]
#[derive(Clone, Copy, PartialEq, Eq)]
enum Kind {
    Issue,
    /// The dots are one run, or none where its first is 0.
    Hold,
    /// The dots are those of the list of this number, in `first`.
    HoldWide,
    Release,
    Fetch,
    Ack,
}

#[cfg(shared)]
#[allow(dead_code)]
struct Entry {
    key: u32,
    first: u32,
    last: u32,
    node: u8,
    kind: Kind,
    /// Holder and home; of an ack its w in place of the holder.
    holder: u8,
    home: u8,
}

#[cfg(shared)]
#[derive(Default)]
pub struct Log {
    entries: Vec<Entry>,
    /// The dots of rows that are more than one run.
    wide: Vec<Context>,
    /// The keys by their numbers.
    keys: Vec<Key>,
}

#[cfg(shared)]
impl Log {
    pub fn len(&self) -> usize {
        self.entries.len()
    }

    /// The number of a key that has none yet.
    pub fn number_of(&mut self, key: &Key) -> u32 {
        self.keys.push(key.clone());
        self.keys.len() as u32 - 1
    }

    fn add(&mut self, kind: Kind, key: u32, place: Place, run: Run) {
        self.entries.push(Entry {
            key,
            first: run.first,
            last: run.last,
            node: run.node,
            kind,
            holder: place.holder,
            home: place.home,
        });
    }

    pub fn issue(&mut self, number: u32, _key: &Key, version: &Version) {
        let (holder, home) = (version.dot.node, 0);
        let place = Place { holder, home };
        self.add(Kind::Issue, number, place, alone(version.dot));
    }

    pub fn hold(&mut self, number: u32, place: Place, _key: &Key, row: Cow<Row>) {
        if let [version] = row.versions() {
            return self.add(Kind::Hold, number, place, alone(version.dot));
        }
        let dots = row.dots();
        match dots.runs() {
            [] => self.add(Kind::Hold, number, place, NO_RUN),
            [run] => self.add(Kind::Hold, number, place, *run),
            _ => {
                let first = self.wide.len() as u32;
                self.wide.push(dots);
                self.add(Kind::HoldWide, number, place, Run { first, ..NO_RUN });
            }
        }
    }

    pub fn release(&mut self, number: u32, place: Place, _key: &Key, dot: Dot) {
        self.add(Kind::Release, number, place, alone(dot));
    }

    pub fn fetch(&mut self, number: u32, place: Place, _key: &Key) {
        self.add(Kind::Fetch, number, place, NO_RUN);
    }

    pub fn ack(&mut self, number: u32, _key: &Key, dot: Dot, w: u8) {
        let (holder, home) = (w, 0);
        self.add(Kind::Ack, number, Place { holder, home }, alone(dot));
    }

    pub fn acks(&self) -> impl Iterator<Item = (&Key, Dot, u8)> {
        let acks = self.entries.iter().filter(|it| it.kind == Kind::Ack);
        acks.map(|it| {
            let (node, counter) = (it.node, it.first);
            (
                &self.keys[it.key as usize],
                Dot { node, counter },
                it.holder,
            )
        })
    }
}

#[cfg(shared)]
const NO_RUN: Run = Run {
    node: 0,
    first: 0,
    last: 0,
};

#[cfg(shared)]
fn alone(dot: Dot) -> Run {
    Run {
        node: dot.node,
        first: dot.counter,
        last: dot.counter,
    }
}
