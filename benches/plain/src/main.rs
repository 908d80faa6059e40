//! The job of `dynamo` in plain Rust: the yardstick of benches/all.
mod book;
mod calls;
mod cluster;
mod commands;
mod contexts;
mod faults;
mod json;
mod lines;
mod log;
mod md5;
mod nodes;
mod ring;
mod rows;
mod runner;
mod script;
mod service;
mod storm;

use runner::Stopped;
use std::io::{self, BufWriter, Write};
use std::process::ExitCode;
use std::{env, fs};

fn run(path: &str) -> Result<(), Stopped> {
    let bytes = if path == "-" {
        io::read_to_string(io::stdin())?.into_bytes()
    } else {
        fs::read(path)?
    };
    let script = script::read(&bytes)?;
    let mut out = BufWriter::new(io::stdout().lock());
    runner::run(&script, &mut out)?;
    out.flush()?;
    Ok(())
}

fn serve(path: &str) -> Result<(), Stopped> {
    let bytes = fs::read(path)?;
    let script = script::read(&bytes)?;
    let mut out = BufWriter::new(io::stdout().lock());
    service::serve(&script, &mut io::stdin().lock(), &mut out)?;
    out.flush()?;
    Ok(())
}

fn storm(plan: &storm::Plan) -> Result<(), Stopped> {
    let counts = storm::storm(plan)?;
    let storm::Counts {
        acked,
        gets,
        refused,
    } = counts;
    writeln!(
        io::stdout(),
        "end acked {acked} gets {gets} refused {refused}"
    )?;
    Ok(())
}

/// The storm of these words.
fn plan(seed: &str, threads: &str, puts: &str, faults: bool) -> Option<storm::Plan> {
    let within = |text: &str, most| text.parse().ok().filter(|it| (1..=most).contains(it));
    let (threads, puts) = (within(threads, 32)?, within(puts, 1_000)?);
    Some(storm::Plan {
        seed: seed.parse().ok()?,
        threads,
        puts,
        faults,
    })
}

fn main() -> ExitCode {
    let words: Vec<String> = env::args().skip(1).collect();
    let words: Vec<&str> = words.iter().map(String::as_str).collect();
    let done = match words[..] {
        ["run", path] => run(path),
        ["serve", path] => serve(path),
        ["storm", seed, threads, puts, ref rest @ ..] if matches!(rest, [] | ["--faults"]) => {
            match plan(seed, threads, puts, !rest.is_empty()) {
                Some(plan) => storm(&plan),
                None => return usage(),
            }
        }
        _ => return usage(),
    };
    match done {
        Ok(()) => ExitCode::SUCCESS,
        Err(Stopped::Fault(fault)) => {
            eprintln!("dynamo: {fault}");
            ExitCode::from(2)
        }
        Err(Stopped::Output(error)) => {
            eprintln!("dynamo: {error}");
            ExitCode::from(1)
        }
    }
}

fn usage() -> ExitCode {
    eprintln!(
        "usage: plain run FILE | plain serve FILE | plain storm SEED THREADS PUTS [--faults]"
    );
    ExitCode::from(2)
}
