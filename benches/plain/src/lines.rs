//! The lines that a run prints.
use crate::book::{Audit, Place};
use crate::calls::{AnswerRead, Kind};
use crate::rows::{Row, Version};
use std::fmt::{self, Display, Formatter};
use std::io::{self, Write};

/// Prints in hexadecimal digits.
pub struct Hex<'a>(pub &'a [u8]);

impl Display for Hex<'_> {
    fn fmt(&self, f: &mut Formatter) -> fmt::Result {
        const DIGITS: &[u8; 16] = b"0123456789abcdef";
        let mut text = [0; 128];
        for bytes in self.0.chunks(text.len() / 2) {
            for (pair, byte) in text.as_chunks_mut::<2>().0.iter_mut().zip(bytes) {
                *pair = [byte >> 4, byte & 15].map(|digit| DIGITS[usize::from(digit)]);
            }
            f.write_str(str::from_utf8(&text[..2 * bytes.len()]).map_err(|_| fmt::Error)?)?;
        }
        Ok(())
    }
}

impl Display for Place {
    fn fmt(&self, f: &mut Formatter) -> fmt::Result {
        write!(f, "{}/{}", self.holder, self.home)
    }
}

impl Display for Kind {
    fn fmt(&self, f: &mut Formatter) -> fmt::Result {
        match self {
            Kind::Stored => f.write_str("stored"),
            Kind::Row => f.write_str("rows"),
            Kind::Down => f.write_str("down"),
            Kind::NoAnswer => f.write_str("noanswer"),
            Kind::Refused(fault) => write!(f, "E{}", fault.number()),
        }
    }
}

/// Answers, each behind a blank.
pub struct Answers<'a>(pub &'a [AnswerRead]);

impl Display for Answers<'_> {
    fn fmt(&self, f: &mut Formatter) -> fmt::Result {
        self.0
            .iter()
            .try_for_each(|(place, kind)| write!(f, " {place}={kind}"))
    }
}

/// Places, each behind a blank.
pub struct Places<'a>(pub &'a [Place]);

impl Display for Places<'_> {
    fn fmt(&self, f: &mut Formatter) -> fmt::Result {
        self.0.iter().try_for_each(|place| write!(f, " {place}"))
    }
}

/// The values of the versions, each behind a blank with its dot; deletions are left out.
pub struct Values<'a>(pub &'a Row);

impl Display for Values<'_> {
    fn fmt(&self, f: &mut Formatter) -> fmt::Result {
        let present = |it: &Version| it.value.is_some();
        if !self.0.versions().iter().any(present) {
            return f.write_str(" none");
        }
        for version in self.0.versions() {
            if let Some(value) = &version.value {
                write!(f, " {}={}", version.dot, Hex(value))?;
            }
        }
        Ok(())
    }
}

/// Writes the audit of a run whose puts name w homes where they name no number of their own.
pub fn write_audit(
    out: &mut impl Write,
    audit: &Audit,
    w: u8,
    gets: u64,
    is_settled_wanted: bool,
) -> io::Result<()> {
    let mut count = 0;
    for (place, key, row) in &audit.held {
        count += row.versions().len();
        writeln!(out, "held {place} {} {}", Hex(key), row.dots())?;
    }
    for (key, dot, own_w, places) in &audit.acked {
        write!(out, "acked {} {dot}", Hex(key))?;
        if *own_w != w {
            write!(out, " w {own_w}")?;
        }
        writeln!(out, " covered{}", Places(places))?;
    }
    if is_settled_wanted {
        for key in &audit.settled {
            writeln!(out, "settled {}", Hex(key))?;
        }
    }
    let (acked, steps) = (audit.acked.len(), audit.steps);
    writeln!(
        out,
        "end held {count} acked {acked} gets {gets} steps {steps}"
    )
}
