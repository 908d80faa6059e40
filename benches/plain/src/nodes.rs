//! A node: the rows that it keeps, whether it is up, and what it does with asks.
use crate::book::{Book, Place};
use crate::contexts::{Context, Dot};
use crate::faults::Fault;
use crate::rows::{Key, Row, Value};
use std::collections::{BTreeMap, HashMap, VecDeque};

/// What a node does with asks.
#[derive(Clone, Copy, PartialEq, Eq)]
pub enum Mode {
    Plain,
    Mute,
    Late,
    Repeat,
    Delay,
}

impl Mode {
    /// The mode that a script calls by this word.
    pub fn of(word: &str) -> Option<Mode> {
        Some(match word {
            "none" => Mode::Plain,
            "mute" => Mode::Mute,
            "late" => Mode::Late,
            "repeat" => Mode::Repeat,
            "delay" => Mode::Delay,
            _ => return None,
        })
    }
}

/// What is asked of a node.
#[derive(Clone, Copy)]
pub enum Ask<'a> {
    Store {
        home: u8,
        key: &'a Key,
        row: &'a Row,
    },
    Fetch {
        home: u8,
        key: &'a Key,
    },
}

impl Ask<'_> {
    pub fn home(&self) -> u8 {
        match self {
            Ask::Store { home, .. } | Ask::Fetch { home, .. } => *home,
        }
    }

    /// Whether this is what was asked for.
    pub fn is_served_by(&self, answer: &Answer) -> bool {
        match self {
            Ask::Store { .. } => matches!(answer, Answer::Stored),
            Ask::Fetch { .. } => matches!(answer, Answer::Row(_)),
        }
    }
}

/// Stored: each version of the row that was sent is covered for the home.
pub enum Answer {
    Stored,
    Row(Seen),
    Down,
    NoAnswer,
    Refused(Fault),
}

/// What a place held at the step of this number.
pub struct Seen {
    pub at: usize,
    pub place: Place,
    pub row: Row,
}

/// A node's own row of a key, and the greatest counter that it used.
#[derive(Default)]
struct Own {
    row: Row,
    used: u32,
}

pub struct Node {
    pub number: u8,
    pub is_up: bool,
    pub mode: Mode,
    own: HashMap<Key, Own>,
    /// By home, the rows that are kept for it.
    hints: BTreeMap<u8, BTreeMap<Key, Row>>,
    waiting: VecDeque<(u8, Key, Row)>,
}

impl Node {
    pub fn new(number: u8) -> Node {
        let (own, hints) = (HashMap::new(), BTreeMap::new());
        Node {
            number,
            is_up: true,
            mode: Mode::Plain,
            own,
            hints,
            waiting: VecDeque::new(),
        }
    }

    fn place(&self, home: u8) -> Place {
        Place {
            holder: self.number,
            home,
        }
    }

    fn need_up(&self) -> Result<(), Fault> {
        if self.is_up { Ok(()) } else { Err(Fault::Down) }
    }

    fn row(&self, home: u8, key: &Key) -> Option<&Row> {
        if home == self.number {
            self.own.get(key).map(|own| &own.row)
        } else {
            self.hints.get(&home)?.get(key)
        }
    }

    fn own_mut(&mut self, key: &Key) -> &mut Own {
        if !self.own.contains_key(key) {
            self.own.insert(key.clone(), Own::default());
        }
        self.own.get_mut(key).expect("it was made")
    }

    /// The row that is kept of the key for the home, made where there is none.
    fn row_mut(&mut self, home: u8, key: &Key) -> &mut Row {
        if home == self.number {
            return &mut self.own_mut(key).row;
        }
        let hints = self.hints.entry(home).or_default();
        if !hints.contains_key(key) {
            hints.insert(key.clone(), Row::default());
        }
        hints.get_mut(key).expect("it was made")
    }

    /// Makes a version and holds it for the home. Gives its dot, and the whole row that is kept.
    pub fn begin(
        &mut self,
        book: &mut Book,
        home: u8,
        key: &Key,
        context: &Context,
        value: Option<Value>,
    ) -> Result<(Dot, Row), Fault> {
        self.need_up()?;
        let used = self.own.get(key).map_or(0, |own| own.used);
        if used >= book.options().counter_limit {
            return Err(Fault::CounterFull);
        }
        let version = book.plan(self.number, key, context, value)?;
        book.issue(home, key, &version);
        let dot = version.dot;
        self.own_mut(key).used = dot.counter;
        let row = self.row_mut(home, key);
        row.merge(&Row::of(version));
        Ok((dot, row.clone()))
    }

    fn hold(&mut self, book: &mut Book, home: u8, key: &Key, row: &Row) -> Result<(), Fault> {
        book.hold(self.place(home), key, row)?;
        let kept = self.row_mut(home, key);
        if kept != row {
            kept.merge(row);
        }
        Ok(())
    }

    /// The row that is kept of the key for the home, as a step of the log.
    pub fn fetch(&self, book: &mut Book, home: u8, key: &Key) -> Result<Seen, Fault> {
        self.need_up()?;
        let place = self.place(home);
        let at = book.fetch(place, key)?;
        Ok(Seen {
            at,
            place,
            row: self.row(home, key).cloned().unwrap_or_default(),
        })
    }

    fn run(&mut self, book: &mut Book, ask: Ask) -> Answer {
        match ask {
            Ask::Store { home, key, row } => match self.hold(book, home, key, row) {
                Ok(()) => Answer::Stored,
                Err(fault) => Answer::Refused(fault),
            },
            Ask::Fetch { home, key } => match self.fetch(book, home, key) {
                Ok(seen) => Answer::Row(seen),
                Err(fault) => Answer::Refused(fault),
            },
        }
    }

    /// The answer to an ask, and a second one where the node is late.
    pub fn answer(&mut self, book: &mut Book, ask: Ask) -> (Answer, Option<Answer>) {
        if !self.is_up {
            return (Answer::Down, None);
        }
        match self.mode {
            Mode::Plain => (self.run(book, ask), None),
            Mode::Mute => {
                self.run(book, ask);
                (Answer::NoAnswer, None)
            }
            Mode::Late => (Answer::NoAnswer, Some(self.run(book, ask))),
            Mode::Repeat => {
                self.run(book, ask);
                self.run(book, ask);
                (self.run(book, ask), None)
            }
            Mode::Delay => {
                if let Ask::Store { home, key, row } = ask {
                    self.waiting.push_back((home, key.clone(), row.clone()));
                }
                (Answer::NoAnswer, None)
            }
        }
    }

    /// Stores the rows that wait, the oldest first, and tells how many. What is refused waits on.
    pub fn deliver(&mut self, book: &mut Book) -> Result<usize, Fault> {
        self.need_up()?;
        let mut count = 0;
        while let Some((home, key, row)) = self.waiting.pop_front() {
            if let Err(fault) = self.hold(book, home, &key, &row) {
                self.waiting.push_front((home, key, row));
                return Err(fault);
            }
            count += 1;
        }
        Ok(count)
    }

    /// Copies of the hints, by home and then by key.
    pub fn offer(&self) -> Result<Vec<(u8, Key, Row)>, Fault> {
        self.need_up()?;
        let of_home = |(home, rows): (&u8, &BTreeMap<Key, Row>)| -> Vec<(u8, Key, Row)> {
            rows.iter()
                .map(|(key, row)| (*home, key.clone(), row.clone()))
                .collect()
        };
        Ok(self.hints.iter().flat_map(of_home).collect())
    }

    /// Gives up the versions of the row that stand in the hint for the home, all or none.
    pub fn settle(
        &mut self,
        book: &mut Book,
        home: u8,
        key: &Key,
        row: &Row,
    ) -> Result<usize, Fault> {
        self.need_up()?;
        let place = self.place(home);
        let Some(rows) = self.hints.get_mut(&home) else {
            return Ok(0);
        };
        let Some(hint) = rows.get_mut(key) else {
            return Ok(0);
        };
        let dots = row
            .versions()
            .iter()
            .map(|it| it.dot)
            .filter(|dot| hint.has(*dot));
        let dots: Vec<Dot> = dots.collect();
        book.release(place, key, &dots)?;
        dots.iter().for_each(|dot| hint.remove(*dot));
        if hint.is_empty() {
            rows.remove(key);
        }
        Ok(dots.len())
    }

    /// What is kept of the key: the dots of its own row, and of its hints by home.
    pub fn show(&self, key: &Key) -> (Context, Vec<(u8, Context)>) {
        let own = self
            .row(self.number, key)
            .map(Row::dots)
            .unwrap_or_default();
        let hint =
            |(home, rows): (&u8, &BTreeMap<Key, Row>)| rows.get(key).map(|row| (*home, row.dots()));
        (own, self.hints.iter().filter_map(hint).collect())
    }
}
