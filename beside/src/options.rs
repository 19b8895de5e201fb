//! The command line.

use crate::changed;
use crate::compare::Options;

pub const HELP: &str = "\
Drives the real Rust scheduler and the port with the same jobs and calls, and compares every turn,
read number, row, refusal and run at fault; demand 3 is checked on both. A delivery is one call of
the port and a pair of the Rust's: its own delivery and, where that is accepted, its own step. Runs
that meet are joined before the Rust gets them, and concats and packs of one child are left out.

A job whose plan has 65,536 rows or more is wide. There the port's turns may be others, since its
queues fill by rows too: each side is asked by itself, its own reads delivered, and goes on to Done.
Openings are compared as ever, and then each split's joined rows; demand 3 is checked on both.

    beside [compare] [--seed S] [--sessions N] [--deep] [--save FILE]
        C1 to C10, every small session, every list of up to 3 runs, and N random sessions (200,000;
        seed 1). --deep goes on to larger small jobs, lists of 4 runs and more unusual calls. The
        smallest session that differs is printed in words, and written to FILE for replay.
    beside replay [FILE]
        one session, a job and calls as `turns` reads them, from FILE or standard input: both sides in words;
        on a wide job the calls are made on the Rust, and the port is asked the same with its own reads
    beside record FILE [--sessions N] [--seed S]
        writes N sessions (300; seed 1) with the Rust's answers to FILE, none of which opens a wide job
    beside changed [N] [--seed S]
        the port alone: N states (1,000,000; seed 1) of random sessions, each with 1 to 8 bytes changed and handed to
        `step` or `deliver`; every answer, and what it leaves, is held against document 01's table and counted
    beside speed
        measures both sides
    beside check
        measures check 12 of the port by itself
    beside play K
        the port alone plays the session of the Kth job that `speed` measures, once: for a tool that counts instructions

Exit status: 0 alike, or as the table says; 1 not so; 2 wrong usage or a file that cannot be read or written.
";

pub enum Command {
    Compare { options: Options, save: Option<String> },
    Replay { file: Option<String> },
    Record { file: String, seed: u64, sessions: u64 },
    Changed(changed::Options),
    Speed,
    Check,
    Play { job: usize },
    Help,
}

/// What was given on the command line, before it is known what the command allows.
#[derive(Default)]
struct Given {
    seed: Option<u64>,
    sessions: Option<u64>,
    deep: bool,
    save: Option<String>,
    words: Vec<String>,
}

pub fn parse(arguments: impl Iterator<Item = String>) -> Result<Command, String> {
    let mut given = Given::default();
    let mut arguments = arguments;
    while let Some(argument) = arguments.next() {
        match argument.as_str() {
            "--help" | "-h" => return Ok(Command::Help),
            "--seed" => given.seed = Some(number(&argument, arguments.next())?),
            "--sessions" => given.sessions = Some(number(&argument, arguments.next())?),
            "--save" => given.save = Some(arguments.next().ok_or("--save needs a file")?),
            "--deep" => given.deep = true,
            option if option.starts_with('-') => return Err(format!("unknown option {option}")),
            _ => given.words.push(argument),
        }
    }
    given.command()
}

fn number(option: &str, value: Option<String>) -> Result<u64, String> {
    let value = value.ok_or(format!("{option} needs a number"))?;
    value.parse().map_err(|_| format!("{option} needs a number, not {value:?}"))
}

impl Given {
    fn command(mut self) -> Result<Command, String> {
        let words: Vec<String> = std::mem::take(&mut self.words);
        let words: Vec<&str> = words.iter().map(String::as_str).collect();
        let seed = self.seed.unwrap_or(1);
        let command = match words[..] {
            [] | ["compare"] => {
                let sessions = self.sessions.take().unwrap_or(200_000);
                let options = Options { seed, sessions, deep: std::mem::take(&mut self.deep) };
                self.seed = None;
                Command::Compare { options, save: self.save.take() }
            }
            ["replay"] => Command::Replay { file: None },
            ["replay", file] => Command::Replay { file: Some(file.to_string()) },
            ["record", file] => {
                let sessions = self.sessions.take().unwrap_or(300);
                self.seed = None;
                Command::Record { file: file.to_string(), seed, sessions }
            }
            ["record"] => return Err("record needs a file to write".to_string()),
            ["changed"] | ["changed", _] => {
                let states = words.get(1).map_or(Ok(1_000_000), |states| number("changed", Some(states.to_string())))?;
                self.seed = None;
                Command::Changed(changed::Options { seed, states })
            }
            ["speed"] => Command::Speed,
            ["check"] => Command::Check,
            ["play", job] => {
                Command::Play { job: job.parse().map_err(|_| format!("play needs the number of a job, not {job:?}"))? }
            }
            ["play"] => return Err("play needs the number of a job".to_string()),
            _ => return Err(format!("unknown command: {}", words.join(" "))),
        };
        self.nothing_left().map(|()| command)
    }

    /// An option that the command does not have is a mistake, not to be passed over.
    fn nothing_left(&self) -> Result<(), String> {
        let left = [
            (self.seed.is_some(), "--seed"),
            (self.sessions.is_some(), "--sessions"),
            (self.deep, "--deep"),
            (self.save.is_some(), "--save"),
        ];
        let left = left.iter().find(|(given, _)| *given);
        left.map_or(Ok(()), |(_, option)| Err(format!("{option} does not belong to this command")))
    }
}

#[cfg(test)]
mod tests {
    use super::*;

    fn parsed(line: &str) -> Result<Command, String> {
        parse(line.split_whitespace().map(str::to_string))
    }

    #[test]
    fn the_default_is_a_comparison() {
        let Ok(Command::Compare { options, save: None }) = parsed("--sessions 5 --deep") else { panic!("no comparison") };
        assert_eq!((options.seed, options.sessions, options.deep), (1, 5, true));
        assert!(matches!(parsed("record FILE --seed 4"), Ok(Command::Record { seed: 4, sessions: 300, .. })));
        assert!(matches!(parsed("replay"), Ok(Command::Replay { file: None })));
        assert!(matches!(parsed("speed --help"), Ok(Command::Help)));
        assert!(matches!(parsed("play 2"), Ok(Command::Play { job: 2 })));
        assert!(matches!(parsed("check"), Ok(Command::Check)));
    }

    #[test]
    fn how_many_states_are_changed() {
        for (line, wanted) in [("changed", (1, 1_000_000)), ("changed 5000000", (1, 5_000_000)), ("changed 7 --seed 2", (2, 7))] {
            let Ok(Command::Changed(options)) = parsed(line) else { panic!("{line}") };
            assert_eq!((options.seed, options.states), wanted, "{line}");
        }
    }

    #[test]
    fn what_is_not_understood_is_refused() {
        for line in [
            "frob",
            "record",
            "replay one two",
            "--seed",
            "--seed x",
            "--what",
            "speed --deep",
            "play",
            "play C1",
            "replay --seed 1",
            "changed many",
            "changed 1 2",
            "changed --sessions 5",
            "check 3",
        ] {
            assert!(parsed(line).is_err(), "{line}");
        }
    }
}
