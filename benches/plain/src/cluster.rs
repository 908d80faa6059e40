//! Nodes and a book under locks, what carries asks to them, and sessions.
use crate::book::{Book, Options, Place};
use crate::faults::Fault;
use crate::nodes::{Answer, Ask, Mode, Node};
use crate::ring::{Preference, Ring};
use crate::rows::{Key, Row};
use std::collections::VecDeque;
use std::sync::mpsc::{Receiver, Sender, channel};
use std::sync::{Mutex, MutexGuard};

/// A node's lock is taken before the book's.
pub struct Cluster {
    ring: Ring,
    nodes: Vec<Mutex<Node>>,
    book: Mutex<Book>,
    pub options: Options,
}

/// What a session was told: the number of the last step, and how many acks and gets.
#[derive(Default)]
pub struct Session {
    pub since: usize,
    pub acks: u64,
    pub gets: u64,
}

impl Cluster {
    pub fn new(ring: Ring, options: Options) -> Result<Cluster, Fault> {
        options.check(ring.nodes())?;
        let nodes = (0..ring.nodes())
            .map(|it| Mutex::new(Node::new(it as u8)))
            .collect();
        Ok(Cluster {
            ring,
            nodes,
            book: Mutex::new(Book::new(options)),
            options,
        })
    }

    pub fn nodes(&self) -> usize {
        self.nodes.len()
    }

    pub fn preference(&self, key: &Key) -> Preference {
        self.ring.preference(key, self.options.n)
    }

    pub fn node(&self, number: u8) -> MutexGuard<'_, Node> {
        self.nodes[usize::from(number)]
            .lock()
            .expect("no thread panics")
    }

    pub fn book(&self) -> MutexGuard<'_, Book> {
        self.book.lock().expect("no thread panics")
    }

    pub fn set_up(&self, node: u8, is_up: bool) {
        self.node(node).is_up = is_up;
    }

    pub fn set_mode(&self, node: u8, mode: Mode) {
        self.node(node).mode = mode;
    }

    pub fn deliver(&self, node: u8) -> Result<usize, Fault> {
        let mut node = self.node(node);
        node.deliver(&mut self.book())
    }

    fn answer(&self, to: u8, ask: Ask) -> (Answer, Option<Answer>) {
        let mut node = self.node(to);
        node.answer(&mut self.book(), ask)
    }

    /// Answers what comes to the node's mailbox, until nobody can send to it.
    pub fn serve(&self, node: u8, inbox: Receiver<Posted>) {
        for Posted { call, parcel, back } in inbox {
            let place = Place {
                holder: node,
                home: parcel.home,
            };
            let (answer, later) = self.answer(node, parcel.ask());
            // Where the client is gone nobody waits for the answer.
            let _ = back.send(Answered {
                call,
                place,
                answer,
                is_last: later.is_none(),
            });
            if let Some(answer) = later {
                let _ = back.send(Answered {
                    call,
                    place,
                    answer,
                    is_last: true,
                });
            }
        }
    }
}

/// What carries asks to nodes, and their answers back.
pub trait Transport {
    fn cluster(&self) -> &Cluster;

    /// A call begins: what was asked before is of no interest any more.
    fn renew(&mut self);

    fn ask(&mut self, to: u8, ask: Ask);

    /// The next answer, with the place that was asked; none where none is left to come.
    fn next(&mut self) -> Option<(Place, Answer)>;
}

/// On the caller's own thread: second answers come behind all first ones.
pub struct Direct<'a> {
    cluster: &'a Cluster,
    first: VecDeque<(Place, Answer)>,
    second: VecDeque<(Place, Answer)>,
}

impl<'a> Direct<'a> {
    pub fn new(cluster: &'a Cluster) -> Direct<'a> {
        Direct {
            cluster,
            first: VecDeque::new(),
            second: VecDeque::new(),
        }
    }
}

impl Transport for Direct<'_> {
    fn cluster(&self) -> &Cluster {
        self.cluster
    }

    fn renew(&mut self) {
        self.first.clear();
        self.second.clear();
    }

    fn ask(&mut self, to: u8, ask: Ask) {
        let place = Place {
            holder: to,
            home: ask.home(),
        };
        let (answer, later) = self.cluster.answer(to, ask);
        self.first.push_back((place, answer));
        self.second.extend(later.map(|answer| (place, answer)));
    }

    fn next(&mut self) -> Option<(Place, Answer)> {
        self.first.pop_front().or_else(|| self.second.pop_front())
    }
}

/// A copy of what is asked: to hold the row, or what is kept of the key.
pub struct Parcel {
    home: u8,
    key: Key,
    row: Option<Row>,
}

impl Parcel {
    fn of(ask: Ask) -> Parcel {
        match ask {
            Ask::Store { home, key, row } => Parcel {
                home,
                key: key.clone(),
                row: Some(row.clone()),
            },
            Ask::Fetch { home, key } => Parcel {
                home,
                key: key.clone(),
                row: None,
            },
        }
    }

    fn ask(&self) -> Ask<'_> {
        match &self.row {
            Some(row) => Ask::Store {
                home: self.home,
                key: &self.key,
                row,
            },
            None => Ask::Fetch {
                home: self.home,
                key: &self.key,
            },
        }
    }
}

/// An ask on its way, with the number of its call.
pub struct Posted {
    call: u64,
    parcel: Parcel,
    back: Sender<Answered>,
}

/// An answer on its way back, and whether it is the last to its ask.
pub struct Answered {
    call: u64,
    place: Place,
    answer: Answer,
    is_last: bool,
}

/// Over the nodes' workers: a mailbox for each node, and one for the answers.
pub struct Mailboxes<'a> {
    cluster: &'a Cluster,
    post: Vec<Sender<Posted>>,
    back: Sender<Answered>,
    answers: Receiver<Answered>,
    call: u64,
    open: usize,
}

impl<'a> Mailboxes<'a> {
    pub fn new(cluster: &'a Cluster, post: Vec<Sender<Posted>>) -> Mailboxes<'a> {
        let (back, answers) = channel();
        Mailboxes {
            cluster,
            post,
            back,
            answers,
            call: 0,
            open: 0,
        }
    }
}

impl Transport for Mailboxes<'_> {
    fn cluster(&self) -> &Cluster {
        self.cluster
    }

    fn renew(&mut self) {
        self.call += 1;
        self.open = 0;
    }

    fn ask(&mut self, to: u8, ask: Ask) {
        let (call, parcel, back) = (self.call, Parcel::of(ask), self.back.clone());
        let posted = Posted { call, parcel, back };
        self.post[usize::from(to)]
            .send(posted)
            .expect("a worker ends after its clients");
        self.open += 1;
    }

    fn next(&mut self) -> Option<(Place, Answer)> {
        while self.open > 0 {
            let answered = self.answers.recv().expect("an end that sends is in self");
            // An answer to an earlier call came late.
            if answered.call == self.call {
                self.open -= usize::from(answered.is_last);
                return Some((answered.place, answered.answer));
            }
        }
        None
    }
}
