//! Why a call was refused.
use crate::contexts::Dot;
use std::fmt;

#[derive(Clone, Copy, Debug, PartialEq, Eq)]
pub enum Fault {
    ContextSyntax,
    KeySize,
    ValueSize,
    TokenClash(u128),
    NodeWithoutToken(usize),
    TooMany,
    CounterFull,
    ContextUnknown(Dot),
    VersionsFull,
    NotIssued(Dot),
    StepsFull,
    Down,
    NoNode,
    NotEnough,
    BadQuorum,
    ScriptSyntax(usize),
    UnknownCommand(usize),
}

impl Fault {
    pub fn number(&self) -> u8 {
        match self {
            Fault::ContextSyntax => 1,
            Fault::KeySize => 2,
            Fault::ValueSize => 3,
            Fault::TokenClash(_) => 4,
            Fault::NodeWithoutToken(_) => 5,
            Fault::TooMany => 6,
            Fault::CounterFull => 7,
            Fault::ContextUnknown(_) => 8,
            Fault::VersionsFull => 9,
            Fault::NotIssued(_) => 10,
            Fault::StepsFull => 12,
            Fault::Down => 13,
            Fault::NoNode => 14,
            Fault::NotEnough => 15,
            Fault::BadQuorum => 16,
            Fault::ScriptSyntax(_) => 17,
            Fault::UnknownCommand(_) => 18,
        }
    }
}

impl fmt::Display for Fault {
    fn fmt(&self, f: &mut fmt::Formatter) -> fmt::Result {
        write!(f, "E{} ", self.number())?;
        match self {
            Fault::ContextSyntax => f.write_str("ContextSyntax"),
            Fault::KeySize => f.write_str("KeySize"),
            Fault::ValueSize => f.write_str("ValueSize"),
            Fault::TokenClash(position) => write!(f, "TokenClash {position:032x}"),
            Fault::NodeWithoutToken(node) => write!(f, "NodeWithoutToken {node}"),
            Fault::TooMany => f.write_str("TooMany"),
            Fault::CounterFull => f.write_str("CounterFull"),
            Fault::ContextUnknown(dot) => write!(f, "ContextUnknown {dot}"),
            Fault::VersionsFull => f.write_str("VersionsFull"),
            Fault::NotIssued(dot) => write!(f, "NotIssued {dot}"),
            Fault::StepsFull => f.write_str("StepsFull"),
            Fault::Down => f.write_str("Down"),
            Fault::NoNode => f.write_str("NoNode"),
            Fault::NotEnough => f.write_str("NotEnough"),
            Fault::BadQuorum => f.write_str("BadQuorum"),
            Fault::ScriptSyntax(command) => write!(f, "ScriptSyntax {command}"),
            Fault::UnknownCommand(command) => write!(f, "UnknownCommand {command}"),
        }
    }
}
