//! Keys, values, versions, and rows of versions of which none follows another.
use crate::contexts::{Context, Dot};
use crate::faults::Fault;
use std::borrow::Cow;
#[cfg(shared)]
use std::sync::Arc;

pub const MAX_KEY_BYTES: usize = 64;
pub const MAX_VALUE_BYTES: usize = 4_096;

#[cfg(not(shared))]
pub type Bytes = Box<[u8]>;
#[cfg(shared)]
pub type Bytes = Arc<[u8]>;

/// 1 to 64 bytes.
pub type Key = Bytes;
/// Up to 4,096 bytes.
pub type Value = Bytes;

pub fn key(text: &str) -> Result<Key, Fault> {
    match text.len() {
        1..=MAX_KEY_BYTES => Ok(text.as_bytes().into()),
        _ => Err(Fault::KeySize),
    }
}

pub fn value(bytes: &[u8]) -> Result<Value, Fault> {
    match bytes.len() {
        0..=MAX_VALUE_BYTES => Ok(bytes.into()),
        _ => Err(Fault::ValueSize),
    }
}

/// What a version says: its dot, the dots that it follows, and what it stores; a deletion stores
/// nothing.
#[derive(Clone, PartialEq, Eq)]
pub struct Parts {
    pub dot: Dot,
    pub past: Context,
    pub value: Option<Value>,
}

/// With `--cfg shared` copies of a version share what it says.
#[cfg(not(shared))]
pub type Version = Parts;
#[cfg(shared)]
pub type Version = Arc<Parts>;

/// The versions that are kept of a key, in the order of their dots.
#[derive(Clone, Default, PartialEq, Eq)]
pub struct Row {
    versions: Vec<Version>,
}

impl Row {
    pub fn of(version: Version) -> Row {
        Row {
            versions: vec![version],
        }
    }

    pub fn versions(&self) -> &[Version] {
        &self.versions
    }

    pub fn is_empty(&self) -> bool {
        self.versions.is_empty()
    }

    /// Whether a version is the dot's, or follows it.
    pub fn covers(&self, dot: Dot) -> bool {
        self.has(dot) || self.versions.iter().any(|it| it.past.contains(dot))
    }

    /// Whether the dot is that of one of the versions.
    pub fn has(&self, dot: Dot) -> bool {
        self.versions
            .binary_search_by_key(&dot, |it| it.dot)
            .is_ok()
    }

    pub fn remove(&mut self, dot: Dot) {
        if let Ok(place) = self.versions.binary_search_by_key(&dot, |it| it.dot) {
            self.versions.remove(place);
        }
    }

    /// Keeps of both rows' versions those that no version of them follows, in one pass over both.
    pub fn merge(&mut self, other: &Row) {
        let past = past_of(self.versions.iter().chain(&other.versions));
        let is_followed = |it: &&Version| past.contains(it.dot);
        let gone: Vec<Dot> = self
            .versions
            .iter()
            .filter(is_followed)
            .map(|it| it.dot)
            .collect();
        let mut own = self.versions.iter().map(|it| it.dot).peekable();
        let is_new = |it: &&Version| {
            while own.next_if(|dot| *dot < it.dot).is_some() {}
            own.peek() != Some(&it.dot) && !past.contains(it.dot)
        };
        let new: Vec<Version> = other.versions.iter().filter(is_new).cloned().collect();
        if !gone.is_empty() {
            self.versions
                .retain(|it| gone.binary_search(&it.dot).is_err());
        }
        if new.is_empty() {
            return;
        }
        let is_behind = self.versions.last().map(|it| it.dot) < new.first().map(|it| it.dot);
        self.versions.extend(new);
        if !is_behind {
            // Two lists that rise: the sort finds them and merges them.
            self.versions.sort_by_key(|it| it.dot);
        }
    }

    /// The dots of the versions, and all that they follow.
    pub fn context(&self) -> Context {
        let mut context = past_of(self.versions.iter()).into_owned();
        self.versions.iter().for_each(|it| context.insert(it.dot));
        context
    }

    /// The dots of the versions.
    pub fn dots(&self) -> Context {
        let mut dots = Context::default();
        self.versions.iter().for_each(|it| dots.insert(it.dot));
        dots
    }
}

/// All that the versions follow, together; it is copied only where no version's past has it all.
fn past_of<'a>(versions: impl Iterator<Item = &'a Version>) -> Cow<'a, Context> {
    let mut past: Cow<Context> = Cow::Owned(Context::default());
    for version in versions {
        if version.past.is_empty() || past.includes(&version.past) {
            continue;
        }
        if version.past.includes(&past) {
            past = Cow::Borrowed(&version.past);
        } else {
            past.to_mut().union(&version.past);
        }
    }
    past
}
