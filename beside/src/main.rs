//! The real Rust scheduler and the port side by side.
//!
//! - `side` is what the two have in common; `rust` and `port` are the two.
//! - `records`, `plan`, `job`, `session` and `answer` are document 01's jobs and sessions.
//! - `talk` asks both sides the same, `apart` each by itself on a wide job; `callers`, `explore` and `whims` choose the calls.
//! - `cases`, `trees` and `exhaustive`, `generate` and `wide`, `spoil`, `damage`, `limits` and `draw` make the jobs.
//! - `demand`, `rows` and `fault` judge; `shrink` and `smaller` look for the smallest session at fault, which `words` shows.
//! - `compare`, `stored`, `changed` and `speed` are the commands.

mod answer;
mod apart;
mod callers;
mod cases;
mod changed;
mod compare;
mod damage;
mod demand;
mod draw;
mod exhaustive;
mod explore;
mod fault;
mod generate;
mod job;
mod limits;
mod options;
mod output;
mod plan;
mod port;
mod progress;
mod random;
mod records;
mod rows;
mod rust;
mod session;
mod shrink;
mod side;
mod smaller;
mod speed;
mod spoil;
mod stored;
mod talk;
mod tally;
#[cfg(test)]
mod testing;
mod trees;
mod whims;
mod wide;
mod words;

use std::io::Read;
use std::process::ExitCode;

use compare::compare;
use options::Command;
use port::PortSide;
use rust::RustSide;
use session::Session;

const DIFFERING: u8 = 1;
const UNUSABLE: u8 = 2;

fn main() -> ExitCode {
    let done = options::parse(std::env::args().skip(1)).and_then(run);
    done.unwrap_or_else(|error| {
        eprintln!("beside: {error}\nTry `beside --help`.");
        ExitCode::from(UNUSABLE)
    })
}

fn run(command: Command) -> Result<ExitCode, String> {
    match command {
        Command::Compare { options, save } => run_compare(&options, save),
        Command::Replay { file } => replay(file),
        Command::Record { file, seed, sessions } => record(&file, seed, sessions),
        Command::Changed(options) => {
            let outcome = changed::run(&options);
            output::line(outcome.summary.trim_end());
            Ok(if outcome.sound { ExitCode::SUCCESS } else { ExitCode::from(DIFFERING) })
        }
        Command::Speed => {
            speed::run();
            Ok(ExitCode::SUCCESS)
        }
        Command::Check => {
            speed::check()?;
            Ok(ExitCode::SUCCESS)
        }
        Command::Play { job } => {
            output::line(speed::play(job)?);
            Ok(ExitCode::SUCCESS)
        }
        Command::Help => {
            output::line(options::HELP.trim_end());
            Ok(ExitCode::SUCCESS)
        }
    }
}

fn run_compare(options: &compare::Options, save: Option<String>) -> Result<ExitCode, String> {
    let outcome = compare::<RustSide, PortSide>(options);
    output::line(outcome.summary.trim_end());
    let Some(worst) = outcome.worst else { return Ok(ExitCode::SUCCESS) };
    let shown = words::show::<RustSide, PortSide>(&worst.session);
    output::line(format_args!("\nthe smallest of them\n\n{}", shown.text));
    if let Some(file) = save {
        write(&file, &worst.session.bytes())?;
    }
    Ok(ExitCode::from(DIFFERING))
}

fn replay(file: Option<String>) -> Result<ExitCode, String> {
    let mut bytes = Vec::new();
    match &file {
        Some(file) => bytes = std::fs::read(file).map_err(|error| format!("{file}: {error}"))?,
        None => {
            let read = std::io::stdin().read_to_end(&mut bytes);
            read.map_err(|error| format!("standard input: {error}"))?;
        }
    }
    let shown = words::show::<RustSide, PortSide>(&Session::read(&bytes));
    output::line(shown.text.trim_end());
    Ok(if shown.sound { ExitCode::SUCCESS } else { ExitCode::from(DIFFERING) })
}

fn record(file: &str, seed: u64, sessions: u64) -> Result<ExitCode, String> {
    let list = stored::list::<RustSide>(seed, sessions)?;
    write(file, &list)?;
    output::line(format_args!("{file}: {sessions} sessions with the Rust's answers, {} bytes", list.len()));
    Ok(ExitCode::SUCCESS)
}

fn write(file: &str, bytes: &[u8]) -> Result<(), String> {
    std::fs::write(file, bytes).map_err(|error| format!("{file}: {error}"))
}
