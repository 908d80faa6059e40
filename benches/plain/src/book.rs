//! The custody book: the log of all steps, and what it says of each key, kept as indexes.
use crate::contexts::{Context, Dot, MAX_COUNTER};
use crate::faults::Fault;
use crate::log::Log;
use crate::rows::{Key, Parts, Row, Value, Version};
use std::borrow::Cow;
use std::collections::HashMap;

pub const MAX_VERSIONS: usize = 100_000;
pub const MAX_STEPS: usize = 1_000_000;

/// Who holds, and for which home.
#[derive(Clone, Copy, PartialEq, Eq, PartialOrd, Ord)]
pub struct Place {
    pub holder: u8,
    pub home: u8,
}

#[derive(Clone, Copy)]
pub struct Options {
    pub n: u8,
    pub r: u8,
    pub w: u8,
    pub counter_limit: u32,
    pub versions_limit: usize,
    pub steps_limit: usize,
}

impl Options {
    pub fn check(&self, nodes: usize) -> Result<(), Fault> {
        let are_limits = (1..=MAX_COUNTER).contains(&self.counter_limit)
            && (1..=MAX_VERSIONS).contains(&self.versions_limit)
            && (1..=MAX_STEPS).contains(&self.steps_limit);
        let is_quorum = (1..=self.n).contains(&self.w)
            && (1..=self.n).contains(&self.r)
            && usize::from(self.n) <= nodes;
        match (are_limits, is_quorum) {
            (false, _) => Err(Fault::TooMany),
            (true, false) => Err(Fault::BadQuorum),
            (true, true) => Ok(()),
        }
    }
}

/// What is known of a key.
#[derive(Default)]
struct Part {
    /// The key's number in the log.
    number: u32,
    /// The versions of each node, in the order of their counters, of which none is left out.
    made: Vec<Vec<Version>>,
    held: Vec<(Place, Row)>,
}

impl Part {
    fn made_by(&self, node: u8) -> &[Version] {
        self.made.get(usize::from(node)).map_or(&[], Vec::as_slice)
    }

    fn add(&mut self, version: Version) {
        let node = usize::from(version.dot.node);
        if self.made.len() <= node {
            self.made.resize_with(node + 1, Vec::new);
        }
        self.made[node].push(version);
    }

    fn hold(&mut self, place: Place, row: &Row) {
        match self.held.iter_mut().find(|it| it.0 == place) {
            Some((_, held)) => held.merge(row),
            None => self.held.push((place, row.clone())),
        }
    }

    /// Whether a version was made, and is held by its homes alone.
    fn is_settled(&self) -> bool {
        let is_hint = |(place, row): &(Place, Row)| place.holder != place.home && !row.is_empty();
        self.made.iter().any(|made| !made.is_empty()) && !self.held.iter().any(is_hint)
    }
}

pub struct Book {
    options: Options,
    log: Log,
    versions: usize,
    keys: HashMap<Key, Part>,
}

/// What the book has at its end.
pub struct Audit<'a> {
    /// By holder, home and key.
    pub held: Vec<(Place, &'a Key, &'a Row)>,
    /// By key, dot and w, each with all places that cover it, by home and holder.
    pub acked: Vec<(&'a Key, Dot, u8, Vec<Place>)>,
    /// The keys of which a version was made, and no hint stands.
    pub settled: Vec<&'a Key>,
    pub steps: usize,
}

impl Book {
    pub fn new(options: Options) -> Book {
        Book {
            options,
            log: Log::default(),
            versions: 0,
            keys: HashMap::new(),
        }
    }

    pub fn options(&self) -> Options {
        self.options
    }

    fn need(&self, steps: usize) -> Result<(), Fault> {
        if self.options.steps_limit - self.log.len() < steps {
            return Err(Fault::StepsFull);
        }
        Ok(())
    }

    /// The least dot of the context that is of no version.
    fn unknown(part: Option<&Part>, context: &Context) -> Option<Dot> {
        context.runs().iter().find_map(|run| {
            let last = part.map_or(0, |part| part.made_by(run.node).len()) as u32;
            let counter = run.first.max(last + 1);
            (counter <= run.last).then_some(Dot {
                node: run.node,
                counter,
            })
        })
    }

    /// The versions that the context names, with all that they follow. A version that is there
    /// already is skipped, with the run that it lies in.
    fn past_of(part: Option<&Part>, context: &Context) -> Context {
        let mut past = Context::default();
        let Some(part) = part else { return past };
        for run in context.runs() {
            let mut next = run.last;
            while next >= run.first {
                let dot = Dot {
                    node: run.node,
                    counter: next,
                };
                if let Some(there) = past.run_of(dot) {
                    next = there.first - 1;
                    continue;
                }
                past.union(&part.made_by(run.node)[next as usize - 1].past);
                past.insert(dot);
                next -= 1;
            }
        }
        past
    }

    /// The version that the node would make now.
    pub fn plan(
        &self,
        node: u8,
        key: &Key,
        context: &Context,
        value: Option<Value>,
    ) -> Result<Version, Fault> {
        let part = self.keys.get(key);
        if let Some(dot) = Book::unknown(part, context) {
            return Err(Fault::ContextUnknown(dot));
        }
        if self.versions >= self.options.versions_limit {
            return Err(Fault::VersionsFull);
        }
        self.need(2)?;
        let counter = part.map_or(0, |part| part.made_by(node).len()) as u32 + 1;
        let past = Book::past_of(part, context);
        Ok(Version::from(Parts {
            dot: Dot { node, counter },
            past,
            value,
        }))
    }

    fn part(&mut self, key: &Key) -> &mut Part {
        // Two look-ups where the key is new, so that it is copied only then.
        if !self.keys.contains_key(key) {
            let number = self.log.number_of(key);
            let part = Part {
                number,
                ..Part::default()
            };
            self.keys.insert(key.clone(), part);
        }
        self.keys.get_mut(key).expect("it was made")
    }

    /// The number of the key in the log; the plain form has none.
    fn number(&mut self, key: &Key) -> u32 {
        if cfg!(shared) {
            self.part(key).number
        } else {
            0
        }
    }

    /// The issue of a planned version, and the hold of it alone.
    pub fn issue(&mut self, home: u8, key: &Key, version: &Version) {
        let node = version.dot.node;
        let place = Place { holder: node, home };
        let row = Row::of(version.clone());
        let part = self.part(key);
        part.add(version.clone());
        part.hold(place, &row);
        let number = part.number;
        self.log.issue(number, key, version);
        self.log.hold(number, place, key, Cow::Owned(row));
        self.versions += 1;
    }

    /// What is held at the place becomes its merge with the row.
    pub fn hold(&mut self, place: Place, key: &Key, row: &Row) -> Result<(), Fault> {
        let part = self.keys.get(key);
        let is_issued = |version: &Version| {
            let made = part.map_or(&[][..], |part| part.made_by(version.dot.node));
            made.get(version.dot.counter as usize - 1) == Some(version)
        };
        if let Some(version) = row.versions().iter().find(|version| !is_issued(version)) {
            return Err(Fault::NotIssued(version.dot));
        }
        self.need(1)?;
        let part = self.part(key);
        part.hold(place, row);
        let number = part.number;
        self.log.hold(number, place, key, Cow::Borrowed(row));
        Ok(())
    }

    /// The dots are no longer held at the place, all or none.
    pub fn release(&mut self, place: Place, key: &Key, dots: &[Dot]) -> Result<(), Fault> {
        self.need(dots.len())?;
        let part = self.part(key);
        if let Some((_, row)) = part.held.iter_mut().find(|it| it.0 == place) {
            dots.iter().for_each(|dot| row.remove(*dot));
        }
        let number = part.number;
        for dot in dots {
            self.log.release(number, place, key, *dot);
        }
        Ok(())
    }

    /// The number of the step at which the place was looked at.
    pub fn fetch(&mut self, place: Place, key: &Key) -> Result<usize, Fault> {
        self.need(1)?;
        let number = self.number(key);
        self.log.fetch(number, place, key);
        Ok(self.log.len())
    }

    /// The number of the step at which the put was acknowledged.
    pub fn ack(&mut self, key: &Key, dot: Dot, w: u8) -> Result<usize, Fault> {
        self.need(1)?;
        let number = self.number(key);
        self.log.ack(number, key, dot, w);
        Ok(self.log.len())
    }

    fn covering(&self, key: &Key, dot: Dot) -> Vec<Place> {
        let held = self.keys.get(key).map_or(&[][..], |part| &part.held);
        let mut places: Vec<Place> = held
            .iter()
            .filter(|(_, row)| row.covers(dot))
            .map(|it| it.0)
            .collect();
        places.sort_unstable_by_key(|place| (place.home, place.holder));
        places
    }

    pub fn audit(&self) -> Audit<'_> {
        let mut held = Vec::new();
        for (key, part) in &self.keys {
            let has_some = part.held.iter().filter(|(_, row)| !row.is_empty());
            held.extend(has_some.map(|(place, row)| (*place, key, row)));
        }
        held.sort_unstable_by_key(|(place, key, _)| (*place, *key));
        let mut acks: Vec<(&Key, Dot, u8)> = self.log.acks().collect();
        acks.sort_unstable();
        acks.dedup();
        let places = |(key, dot, w)| (key, dot, w, self.covering(key, dot));
        let are_settled = self.keys.iter().filter(|(_, part)| part.is_settled());
        let mut settled: Vec<&Key> = are_settled.map(|(key, _)| key).collect();
        settled.sort_unstable();
        let acked = acks.into_iter().map(places).collect();
        Audit {
            held,
            acked,
            settled,
            steps: self.log.len(),
        }
    }
}
