//! A service: the commands of a script, and then those of the lines of an input, each answered at once.
use crate::faults::Fault;
use crate::runner::{Player, Stopped, open};
use crate::script::{Script, read_command};
use std::io::{BufRead, Write};

const MAX_LINE: usize = 1 << 20;

/// It does not take `renew`.
pub fn serve(
    script: &Script,
    input: &mut impl BufRead,
    out: &mut impl Write,
) -> Result<(), Stopped> {
    let cluster = open(script)?;
    let mut player = Player::new(&cluster, script);
    for command in &script.run {
        player.perform(command, out)?;
        out.flush()?;
    }
    let mut line = Vec::new();
    while input.read_until(b'\n', &mut line)? > 0 {
        line.pop_if(|last| *last == b'\n');
        let number = player.next();
        let read = match &line[..] {
            it if it.len() > MAX_LINE => Some(Err(Fault::ScriptSyntax(number))),
            it if it.iter().all(|byte| b" \t\r".contains(byte)) => None,
            it => Some(read_command(it, number, script.nodes())),
        };
        if let Some(read) = read {
            match read {
                Ok(command) => player.perform(&command, out)?,
                Err(fault) => player.refuse(fault, out)?,
            }
            out.flush()?;
        }
        line.clear();
    }
    Ok(player.audit(out)?)
}
