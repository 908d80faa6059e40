//! Runs a script on a cluster, with a line for each command, and then the audit.
use crate::book::{MAX_STEPS, MAX_VERSIONS, Options};
use crate::cluster::{Cluster, Direct, Session};
use crate::commands::{self, Command};
use crate::contexts::MAX_COUNTER;
use crate::faults::Fault;
use crate::lines::write_audit;
use crate::ring::Ring;
use crate::script::{Layout, Script};
use std::io::{self, Write};

pub enum Stopped {
    Fault(Fault),
    Output(io::Error),
}

impl From<Fault> for Stopped {
    fn from(fault: Fault) -> Stopped {
        Stopped::Fault(fault)
    }
}

impl From<io::Error> for Stopped {
    fn from(error: io::Error) -> Stopped {
        Stopped::Output(error)
    }
}

/// The sessions of a script, each opened at its first command.
#[derive(Default)]
pub struct Sessions(Vec<(u8, Session)>);

impl Sessions {
    pub fn get(&mut self, number: u8) -> &mut Session {
        let place = self
            .0
            .iter()
            .position(|it| it.0 == number)
            .unwrap_or_else(|| {
                self.0.push((number, Session::default()));
                self.0.len() - 1
            });
        &mut self.0[place].1
    }

    /// How many gets were answered.
    pub fn gets(&self) -> u64 {
        self.0.iter().map(|(_, it)| it.gets).sum()
    }
}

fn options(script: &Script) -> Options {
    let limit = |limit: Option<u64>, greatest: usize| {
        limit.map_or(greatest, |it| usize::try_from(it).unwrap_or(usize::MAX))
    };
    Options {
        n: script.n,
        r: script.r,
        w: script.w,
        counter_limit: limit(script.counter, MAX_COUNTER as usize).min(u32::MAX as usize) as u32,
        versions_limit: limit(script.versions, MAX_VERSIONS),
        steps_limit: limit(script.steps, MAX_STEPS),
    }
}

/// The cluster of a script, before its commands.
pub fn open(script: &Script) -> Result<Cluster, Fault> {
    let ring = match &script.layout {
        Layout::Tokens(lists) => Ring::new(lists)?,
        Layout::Derived { nodes, per_node } => {
            Ring::derived(usize::from(*nodes), usize::from(*per_node))?
        }
    };
    Cluster::new(ring, options(script))
}

pub fn run(script: &Script, out: &mut impl Write) -> Result<(), Stopped> {
    let cluster = open(script)?;
    let mut player = Player::new(&cluster, script);
    for command in &script.run {
        player.perform(command, out)?;
    }
    Ok(player.audit(out)?)
}

/// Does commands one by one, each with its line.
pub struct Player<'a> {
    cluster: &'a Cluster,
    direct: Direct<'a>,
    sessions: Sessions,
    w: u8,
    is_settled_wanted: bool,
    done: usize,
}

impl<'a> Player<'a> {
    pub fn new(cluster: &'a Cluster, script: &Script) -> Self {
        Player {
            cluster,
            direct: Direct::new(cluster),
            sessions: Sessions::default(),
            w: script.w,
            is_settled_wanted: script.settled,
            done: 0,
        }
    }

    /// The number of the next command.
    pub fn next(&self) -> usize {
        self.done + 1
    }

    pub fn perform(&mut self, command: &Command, out: &mut impl Write) -> io::Result<()> {
        self.done += 1;
        write!(out, "{} ", self.done)?;
        let (direct, sessions) = (&mut self.direct, &mut self.sessions);
        commands::perform(self.cluster, direct, sessions, self.w, command, out)
    }

    /// Says that the next command can't be read.
    pub fn refuse(&mut self, fault: Fault, out: &mut impl Write) -> io::Result<()> {
        self.done += 1;
        writeln!(out, "{} {fault}", self.done)
    }

    pub fn audit(&self, out: &mut impl Write) -> io::Result<()> {
        let gets = self.sessions.gets();
        let book = self.cluster.book();
        write_audit(out, &book.audit(), self.w, gets, self.is_settled_wanted)
    }
}
