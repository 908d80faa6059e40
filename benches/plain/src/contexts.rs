//! Dots, and sets of them: the contexts that versions follow.
use crate::faults::Fault;
use std::fmt;

pub const MAX_NODES: usize = 32;
pub const MAX_COUNTER: u32 = 1_000_000;
const MAX_CONTEXT_DOTS: u64 = 100_000;

/// The name of one version of a key: the node that made it, and its counter there, from 1.
#[derive(Clone, Copy, Debug, PartialEq, Eq, PartialOrd, Ord)]
pub struct Dot {
    pub node: u8,
    pub counter: u32,
}

/// Dots of one node whose counters follow one another.
#[derive(Clone, Copy, PartialEq, Eq)]
pub struct Run {
    pub node: u8,
    pub first: u32,
    pub last: u32,
}

impl Run {
    fn covers(&self, other: &Run) -> bool {
        self.node == other.node && self.first <= other.first && other.last <= self.last
    }

    /// Whether the other comes later, with a counter missing between the two.
    fn is_below(&self, other: &Run) -> bool {
        self.node < other.node || self.node == other.node && self.last + 1 < other.first
    }

    fn starts_by(&self, other: &Run) -> bool {
        (self.node, self.first) <= (other.node, other.first)
    }
}

/// A set of dots of one key, as its maximal runs, by node and then by counter.
#[derive(Clone, Default, PartialEq, Eq)]
pub struct Context {
    runs: Vec<Run>,
}

impl Context {
    pub fn runs(&self) -> &[Run] {
        &self.runs
    }

    pub fn is_empty(&self) -> bool {
        self.runs.is_empty()
    }

    /// The run that the dot lies in.
    pub fn run_of(&self, dot: Dot) -> Option<&Run> {
        let alone = Run {
            node: dot.node,
            first: dot.counter,
            last: dot.counter,
        };
        let place = self
            .runs
            .partition_point(|run| (run.node, run.last) < (dot.node, dot.counter));
        self.runs.get(place).filter(|run| run.covers(&alone))
    }

    pub fn contains(&self, dot: Dot) -> bool {
        self.run_of(dot).is_some()
    }

    pub fn insert(&mut self, dot: Dot) {
        let alone = Run {
            node: dot.node,
            first: dot.counter,
            last: dot.counter,
        };
        let place = self.runs.partition_point(|run| run.is_below(&alone));
        let Some(run) = self.runs.get_mut(place) else {
            self.runs.push(alone);
            return;
        };
        if alone.is_below(run) {
            self.runs.insert(place, alone);
            return;
        }
        run.first = run.first.min(alone.first);
        run.last = run.last.max(alone.last);
        let longer = *run;
        if let Some(next) = self.runs.get(place + 1)
            && !longer.is_below(next)
        {
            self.runs[place].last = next.last;
            self.runs.remove(place + 1);
        }
    }

    /// Whether each dot of the other set is in this one, in one pass over both.
    pub fn includes(&self, other: &Context) -> bool {
        let mut mine = self.runs.iter().peekable();
        other.runs.iter().all(|run| {
            while mine.next_if(|own| own.is_below(run)).is_some() {}
            mine.peek().is_some_and(|own| own.covers(run))
        })
    }

    /// Adds each dot of the other set, in one pass over both.
    pub fn union(&mut self, other: &Context) {
        if self.includes(other) {
            return;
        }
        let mut runs: Vec<Run> = Vec::with_capacity(self.runs.len() + other.runs.len());
        let (mut a, mut b) = (self.runs.iter().peekable(), other.runs.iter().peekable());
        loop {
            let next = match (a.peek(), b.peek()) {
                (Some(one), Some(two)) if one.starts_by(two) => a.next(),
                (_, Some(_)) => b.next(),
                (_, None) => a.next(),
            };
            let Some(next) = next else { break };
            match runs.last_mut() {
                Some(last) if !last.is_below(next) => last.last = last.last.max(next.last),
                _ => runs.push(*next),
            }
        }
        self.runs = runs;
    }

    /// The set that the text spells, where the text is its one spelling.
    pub fn read(text: &str) -> Result<Context, Fault> {
        if text == "-" {
            return Ok(Context::default());
        }
        let mut runs: Vec<Run> = Vec::new();
        for part in text.split(' ') {
            let (node, list) = part
                .strip_prefix('n')
                .and_then(|it| it.split_once(':'))
                .ok_or(Fault::ContextSyntax)?;
            let node = number(node, MAX_NODES as u32 - 1)? as u8;
            if runs.last().is_some_and(|last| node <= last.node) {
                return Err(Fault::ContextSyntax);
            }
            for text in list.split(',') {
                let run = read_run(node, text)?;
                if runs.last().is_some_and(|last| !last.is_below(&run)) {
                    return Err(Fault::ContextSyntax);
                }
                runs.push(run);
            }
        }
        let dots: u64 = runs
            .iter()
            .map(|run| u64::from(run.last - run.first) + 1)
            .sum();
        if dots > MAX_CONTEXT_DOTS {
            return Err(Fault::ContextSyntax);
        }
        Ok(Context { runs })
    }
}

/// The run that the text spells: a counter from 1, or the first and the last of more than one.
fn read_run(node: u8, text: &str) -> Result<Run, Fault> {
    let (first, last) = match text.split_once('-') {
        Some((first, last)) => (number(first, MAX_COUNTER)?, number(last, MAX_COUNTER)?),
        None => (number(text, MAX_COUNTER)?, number(text, MAX_COUNTER)?),
    };
    let is_short = first == last && !text.contains('-');
    if first == 0 || !(first < last || is_short) {
        return Err(Fault::ContextSyntax);
    }
    Ok(Run { node, first, last })
}

/// The number in decimal without a leading zero, up to the greatest.
fn number(text: &str, greatest: u32) -> Result<u32, Fault> {
    let is_plain = text.bytes().all(|byte| byte.is_ascii_digit())
        && (text.len() == 1 || !text.starts_with('0'));
    match text.parse() {
        Ok(number) if is_plain && number <= greatest => Ok(number),
        _ => Err(Fault::ContextSyntax),
    }
}

impl fmt::Display for Dot {
    fn fmt(&self, f: &mut fmt::Formatter) -> fmt::Result {
        write!(f, "n{}:{}", self.node, self.counter)
    }
}

impl fmt::Display for Context {
    fn fmt(&self, f: &mut fmt::Formatter) -> fmt::Result {
        let mut node = None;
        for run in &self.runs {
            match node {
                Some(last) if last == run.node => f.write_str(",")?,
                None => write!(f, "n{}:", run.node)?,
                Some(_) => write!(f, " n{}:", run.node)?,
            }
            node = Some(run.node);
            if run.first == run.last {
                write!(f, "{}", run.first)?;
            } else {
                write!(f, "{}-{}", run.first, run.last)?;
            }
        }
        match node {
            Some(_) => Ok(()),
            None => f.write_str("-"),
        }
    }
}
