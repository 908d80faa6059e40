//! Commands: how each is read from its JSON value, and what comes of it on a cluster.
use crate::calls::{self, PutFault};
use crate::cluster::{Cluster, Direct, Session};
use crate::contexts::Context;
use crate::faults::Fault;
use crate::json::Json;
use crate::lines::{Answers, Places, Values};
use crate::nodes::Mode;
use crate::rows;
use crate::runner::Sessions;
use crate::script::{Members, hex, small, text};
use std::borrow::Cow;
use std::io::{self, Write};

const MAX_SESSIONS: u64 = 32;

pub struct WriteCommand<'a> {
    pub key: Cow<'a, str>,
    /// A deletion has none.
    pub value: Option<Cow<'a, [u8]>>,
    pub context: Option<Cow<'a, str>>,
    pub session: u8,
    pub w: Option<u8>,
}

pub enum Command<'a> {
    Write(WriteCommand<'a>),
    Get { key: Cow<'a, str>, session: u8 },
    SetUp { node: u8, is_up: bool },
    SetMode { node: u8, mode: Mode },
    Deliver { node: u8 },
    Handoff { node: u8 },
    Show { node: u8, key: Cow<'a, str> },
}

/// The command that the value says, on a ring of so many nodes.
pub fn read<'a>(value: &Json<'a>, number: usize, nodes: u64) -> Result<Command<'a>, Fault> {
    let fault = Fault::ScriptSyntax(number);
    let word = value.get("do").and_then(Json::as_text).ok_or(fault)?;
    let names: &[&str] = match &**word {
        "put" => &["do", "key", "value", "valuehex", "context", "session", "w"],
        "delete" => &["do", "key", "context", "session", "w"],
        "get" => &["do", "key", "session"],
        "fault" => &["do", "node", "mode"],
        "show" => &["do", "node", "key"],
        "down" | "up" | "deliver" | "handoff" => &["do", "node"],
        _ => return Err(Fault::UnknownCommand(number)),
    };
    let members = Members::of(value, fault, names)?;
    let of_ring = |value: &Json| value.as_whole().filter(|it| *it < nodes).map(|it| it as u8);
    let node = || members.get("node", of_ring);
    let of_script = |value: &Json| {
        value
            .as_whole()
            .filter(|it| *it < MAX_SESSIONS)
            .map(|it| it as u8)
    };
    let session = || Ok(members.optional("session", of_script)?.unwrap_or(0));
    Ok(match &**word {
        "put" => Command::Write(write(&members, Some(value_of(&members)?), session()?)?),
        "delete" => Command::Write(write(&members, None, session()?)?),
        "get" => Command::Get {
            session: session()?,
            key: members.get("key", text)?,
        },
        "fault" => Command::SetMode {
            node: node()?,
            mode: members.get("mode", |value| Mode::of(value.as_text()?))?,
        },
        "show" => Command::Show {
            node: node()?,
            key: members.get("key", text)?,
        },
        "deliver" => Command::Deliver { node: node()? },
        "handoff" => Command::Handoff { node: node()? },
        word => Command::SetUp {
            node: node()?,
            is_up: word == "up",
        },
    })
}

fn write<'a>(
    members: &Members<'_, 'a>,
    value: Option<Cow<'a, [u8]>>,
    session: u8,
) -> Result<WriteCommand<'a>, Fault> {
    let key = members.get("key", text)?;
    let (context, w) = (
        members.optional("context", text)?,
        members.optional("w", small)?,
    );
    Ok(WriteCommand {
        key,
        value,
        context,
        session,
        w,
    })
}

/// What a put stores, a text or hexadecimal digits.
fn value_of<'a>(members: &Members<'_, 'a>) -> Result<Cow<'a, [u8]>, Fault> {
    let of_hex = |value: &Json| hex(value.as_text()?);
    match (
        members.optional("value", text)?,
        members.optional("valuehex", of_hex)?,
    ) {
        (Some(Cow::Borrowed(text)), None) => Ok(Cow::Borrowed(text.as_bytes())),
        (Some(Cow::Owned(text)), None) => Ok(Cow::Owned(text.into_bytes())),
        (None, Some(bytes)) => Ok(Cow::Owned(bytes)),
        _ => Err(members.fault),
    }
}

/// Does the command, and writes what came of it.
pub fn perform(
    cluster: &Cluster,
    direct: &mut Direct,
    sessions: &mut Sessions,
    w: u8,
    command: &Command,
    out: &mut impl Write,
) -> io::Result<()> {
    match command {
        Command::Write(write) => perform_write(direct, sessions, w, write, out),
        Command::Get { key, session } => perform_get(direct, sessions.get(*session), key, out),
        Command::SetUp { node, is_up } => {
            cluster.set_up(*node, *is_up);
            writeln!(out, "{} ok", if *is_up { "up" } else { "down" })
        }
        Command::SetMode { node, mode } => {
            cluster.set_mode(*node, *mode);
            writeln!(out, "fault ok")
        }
        Command::Deliver { node } => match cluster.deliver(*node) {
            Ok(count) => writeln!(out, "deliver ok {count}"),
            Err(fault) => writeln!(out, "deliver {fault}"),
        },
        Command::Handoff { node } => match calls::hand_over(direct, *node) {
            Ok(pass) => writeln!(
                out,
                "handoff ok offers {} stored {} released {}",
                pass.offers, pass.stored, pass.released
            ),
            Err(fault) => writeln!(out, "handoff {fault}"),
        },
        Command::Show { node, key } => match rows::key(key) {
            Ok(key) => {
                let (own, hints) = cluster.node(*node).show(&key);
                write!(out, "show {node} own {own}")?;
                for (home, dots) in hints {
                    write!(out, " for {home} {dots}")?;
                }
                writeln!(out)
            }
            Err(fault) => writeln!(out, "show {fault}"),
        },
    }
}

fn perform_write(
    direct: &mut Direct,
    sessions: &mut Sessions,
    w: u8,
    write: &WriteCommand,
    out: &mut impl Write,
) -> io::Result<()> {
    let word = if write.value.is_some() {
        "put"
    } else {
        "delete"
    };
    let given = || -> Result<_, Fault> {
        let key = rows::key(&write.key)?;
        let value = write
            .value
            .as_ref()
            .map(|bytes| rows::value(bytes))
            .transpose()?;
        let context = write
            .context
            .as_ref()
            .map(|text| Context::read(text))
            .transpose()?;
        Ok((key, value, context.unwrap_or_default()))
    };
    let (key, value, context) = match given() {
        Ok(given) => given,
        Err(fault) => return writeln!(out, "{word} {fault}"),
    };
    let session = sessions.get(write.session);
    match calls::put(direct, session, write.w.unwrap_or(w), &key, &context, value) {
        Ok((dot, answers)) => writeln!(out, "{word} ok {dot} answers{}", Answers(&answers)),
        Err(PutFault {
            fault, dot: None, ..
        }) => writeln!(out, "{word} {fault}"),
        Err(PutFault {
            fault: Fault::NotEnough,
            dot: Some(dot),
            answers,
        }) => {
            let fault = Fault::NotEnough;
            writeln!(out, "{word} {fault} {dot} answers{}", Answers(&answers))
        }
        Err(PutFault {
            fault,
            dot: Some(dot),
            ..
        }) => writeln!(out, "{word} {fault} after {dot}"),
    }
}

fn perform_get(
    direct: &mut Direct,
    session: &mut Session,
    key: &str,
    out: &mut impl Write,
) -> io::Result<()> {
    let key = match rows::key(key) {
        Ok(key) => key,
        Err(fault) => return writeln!(out, "get {fault}"),
    };
    match calls::get(direct, session, &key) {
        Ok(done) => {
            calls::mend(direct, &key, &done);
            let (from, values) = (Places(&done.from), Values(&done.row));
            writeln!(
                out,
                "get ok context {} from{from} values{values}",
                done.context
            )
        }
        Err(refused) if refused.fault == Fault::NotEnough => {
            writeln!(
                out,
                "get {} answers{}",
                refused.fault,
                Answers(&refused.answers)
            )
        }
        Err(refused) => writeln!(out, "get {}", refused.fault),
    }
}
