//! What a call is answered, written as the program `turns` prints it: the one place that does.

use std::fmt;

use crate::side::{Refusal, Turn};

#[derive(Clone, Debug, PartialEq, Eq)]
pub enum Answer {
    Open,
    Turn(Turn),
    No(Refusal),
}

impl Answer {
    /// A refusal that names no run.
    pub fn no(number: u8) -> Self {
        Self::No(number.into())
    }
}

impl From<Result<Turn, u8>> for Answer {
    fn from(answer: Result<Turn, u8>) -> Self {
        answer.map_or_else(Answer::no, Answer::Turn)
    }
}

impl fmt::Display for Answer {
    fn fmt(&self, f: &mut fmt::Formatter<'_>) -> fmt::Result {
        match self {
            Answer::Open => write!(f, "open"),
            Answer::No(Refusal { number, run }) => {
                write!(f, "no {number}")?;
                run.iter().try_for_each(|run| write!(f, " {run}"))
            }
            Answer::Turn(Turn::Read { read, segment }) => write!(f, "read {read} {segment}"),
            Answer::Turn(Turn::Waiting) => write!(f, "wait"),
            Answer::Turn(Turn::Done) => write!(f, "done"),
            Answer::Turn(Turn::Output { split, rows, columns }) => {
                write!(f, "out {split} {rows}")?;
                columns.iter().try_for_each(|(segment, first)| write!(f, " {segment}:{first}"))
            }
        }
    }
}

#[cfg(test)]
mod tests {
    use super::*;

    #[test]
    fn the_run_stands_behind_the_number() {
        assert_eq!(Answer::no(8).to_string(), "no 8");
        assert_eq!(Answer::No(Refusal { number: 18, run: Some(1) }).to_string(), "no 18 1");
    }
}
