//! Scripts (docs/FORMATS.md), read whole before anything runs.
use crate::commands::{self, Command};
use crate::faults::Fault;
use crate::json::{self, Json};
use std::borrow::Cow;

const MAX_COMMANDS: usize = 100_000;

pub enum Layout {
    Tokens(Vec<Vec<u128>>),
    Derived { nodes: u8, per_node: u8 },
}

pub struct Script<'a> {
    pub n: u8,
    pub r: u8,
    pub w: u8,
    pub layout: Layout,
    pub counter: Option<u64>,
    pub versions: Option<u64>,
    pub steps: Option<u64>,
    pub settled: bool,
    pub run: Vec<Command<'a>>,
}

/// The members of an object, and the fault of a wrong one.
pub struct Members<'j, 'a> {
    value: &'j Json<'a>,
    pub fault: Fault,
}

impl<'j, 'a> Members<'j, 'a> {
    /// The members of a value that has these alone.
    pub fn of(value: &'j Json<'a>, fault: Fault, names: &[&str]) -> Result<Self, Fault> {
        match value {
            Json::Object(list) if list.iter().all(|(name, _)| names.contains(&&**name)) => {
                Ok(Members { value, fault })
            }
            _ => Err(fault),
        }
    }

    pub fn optional<T>(
        &self,
        name: &str,
        of: impl Fn(&'j Json<'a>) -> Option<T>,
    ) -> Result<Option<T>, Fault> {
        match self.value.get(name) {
            Some(value) => of(value).map(Some).ok_or(self.fault),
            None => Ok(None),
        }
    }

    pub fn get<T>(&self, name: &str, of: impl Fn(&'j Json<'a>) -> Option<T>) -> Result<T, Fault> {
        self.optional(name, of)?.ok_or(self.fault)
    }
}

pub fn small(value: &Json) -> Option<u8> {
    value
        .as_whole()
        .and_then(|number| u8::try_from(number).ok())
}

pub fn text<'a>(value: &Json<'a>) -> Option<Cow<'a, str>> {
    value.as_text().cloned()
}

pub fn hex(text: &str) -> Option<Vec<u8>> {
    let digits: Option<Vec<u8>> = text
        .chars()
        .map(|digit| digit.to_digit(16).map(|it| it as u8))
        .collect();
    let (pairs, rest) = digits.as_ref()?.as_chunks::<2>();
    rest.is_empty()
        .then(|| pairs.iter().map(|[high, low]| high << 4 | low).collect())
}

/// The position that a token's text names, filled with zero bytes at its end.
fn token(value: &Json) -> Option<u128> {
    let bytes = hex(value.as_text()?)?;
    let mut whole = [0; 16];
    whole
        .get_mut(..bytes.len())
        .filter(|it| !it.is_empty())?
        .copy_from_slice(&bytes);
    Some(u128::from_be_bytes(whole))
}

fn tokens(value: &Json) -> Option<Vec<Vec<u128>>> {
    let list = |value: &Json| value.as_list()?.iter().map(token).collect();
    value.as_list()?.iter().map(list).collect()
}

const NAMES: [&str; 9] = [
    "n", "r", "w", "tokens", "derived", "limits", "keys", "settled", "run",
];

/// The script that the bytes spell, or its first fault.
pub fn read(bytes: &[u8]) -> Result<Script<'_>, Fault> {
    let wrong = Fault::ScriptSyntax(0);
    let value = std::str::from_utf8(bytes)
        .ok()
        .and_then(json::read)
        .ok_or(wrong)?;
    let members = Members::of(&value, wrong, &NAMES)?;
    let (n, r, w) = (
        members.get("n", small)?,
        members.get("r", small)?,
        members.get("w", small)?,
    );
    let layout = match (
        members.optional("tokens", tokens)?,
        members.value.get("derived"),
    ) {
        (Some(lists), None) => Layout::Tokens(lists),
        (None, Some(derived)) => {
            let members = Members::of(derived, wrong, &["nodes", "per_node"])?;
            let (nodes, per_node) = (
                members.get("nodes", small)?,
                members.get("per_node", small)?,
            );
            Layout::Derived { nodes, per_node }
        }
        _ => return Err(wrong),
    };
    let none = Json::Object(Vec::new());
    let limits = members.value.get("limits").unwrap_or(&none);
    let limits = Members::of(limits, wrong, &["counter", "versions", "steps"])?;
    let counter = limits.optional("counter", Json::as_whole)?;
    let versions = limits.optional("versions", Json::as_whole)?;
    let steps = limits.optional("steps", Json::as_whole)?;
    members.optional("keys", Json::as_list)?;
    let settled = members.optional("settled", Json::as_bool)?.unwrap_or(false);
    let list = members.optional("run", Json::as_list)?.unwrap_or(&[]);
    if list.len() > MAX_COMMANDS {
        return Err(wrong);
    }
    let nodes = nodes(&layout);
    let commands = list
        .iter()
        .enumerate()
        .map(|(at, value)| commands::read(value, at + 1, nodes));
    let run = commands.collect::<Result<Vec<_>, Fault>>()?;
    Ok(Script {
        n,
        r,
        w,
        layout,
        counter,
        versions,
        steps,
        settled,
        run,
    })
}

impl Script<'_> {
    /// How many nodes the ring has.
    pub fn nodes(&self) -> u64 {
        nodes(&self.layout)
    }
}

fn nodes(layout: &Layout) -> u64 {
    match layout {
        Layout::Tokens(lists) => lists.len() as u64,
        Layout::Derived { nodes, .. } => u64::from(*nodes),
    }
}

/// The command that a line of a service's input spells.
pub fn read_command(line: &[u8], number: usize, nodes: u64) -> Result<Command<'_>, Fault> {
    let value = std::str::from_utf8(line).ok().and_then(json::read);
    commands::read(&value.ok_or(Fault::ScriptSyntax(number))?, number, nodes)
}
