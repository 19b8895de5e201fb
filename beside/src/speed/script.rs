//! A session to be timed again and again, with its calls in stretches: neighbouring calls of one kind.

use crate::answer::Answer;
use crate::callers::Prompt;
use crate::rust::RustSide;
use crate::session::Call;
use crate::side::{Side, Turn};
use crate::talk::{Subject, talk};

/// What is timed: opening, a plain step by its turn, a delivery with its step, and the whole session.
#[derive(Clone, Copy, PartialEq, Eq)]
pub enum Kind {
    Open,
    Read,
    Output,
    Waiting,
    Done,
    Delivery,
    Session,
}

impl Kind {
    pub const ALL: [Self; 7] = [Self::Open, Self::Read, Self::Output, Self::Waiting, Self::Done, Self::Delivery, Self::Session];

    pub fn name(self) -> &'static str {
        match self {
            Self::Open => "open",
            Self::Read => "read",
            Self::Output => "output",
            Self::Waiting => "waiting",
            Self::Done => "done",
            Self::Delivery => "delivery",
            Self::Session => "session",
        }
    }
}

pub struct Stretch {
    pub kind: Kind,
    pub calls: Vec<Call>,
}

pub struct Script {
    pub job: Vec<u8>,
    pub stretches: Vec<Stretch>,
}

impl Script {
    /// The prompt caller's session on a job, to its Done. Side `S` must answer as the Rust does.
    pub fn new<S: Side>(job: Vec<u8>) -> Result<Self, String> {
        let subject = Subject::new(job);
        let talk = talk::<RustSide, S>(&subject, &mut Prompt);
        if !talk.alike() {
            return Err(format!("the sides differ after {} calls", talk.first.calls.len()));
        }
        let mut stretches: Vec<Stretch> = Vec::new();
        for (call, answer) in talk.first.answered() {
            let kind = kind(call, answer).ok_or("a call was refused")?;
            match stretches.last_mut() {
                Some(last) if last.kind == kind => last.calls.push(call),
                _ => stretches.push(Stretch { kind, calls: vec![call] }),
            }
        }
        if stretches.last().is_none_or(|last| last.kind != Kind::Done) {
            return Err("the session does not come to its Done".to_owned());
        }
        Ok(Self { job: subject.bytes, stretches })
    }

    /// How many calls the session has, opening left out.
    pub fn calls(&self) -> usize {
        self.stretches.iter().map(|stretch| stretch.calls.len()).sum()
    }

    /// How often a kind occurs in the session.
    pub fn count(&self, kind: Kind) -> usize {
        match kind {
            Kind::Open | Kind::Session => 1,
            _ => self.stretches.iter().filter(|stretch| stretch.kind == kind).map(|stretch| stretch.calls.len()).sum(),
        }
    }
}

/// None where the call is refused.
fn kind(call: Call, answer: &Answer) -> Option<Kind> {
    let Answer::Turn(turn) = answer else { return None };
    Some(match (call, turn) {
        (Call::Deliver { .. }, _) => Kind::Delivery,
        (Call::Step, Turn::Read { .. }) => Kind::Read,
        (Call::Step, Turn::Output { .. }) => Kind::Output,
        (Call::Step, Turn::Waiting) => Kind::Waiting,
        (Call::Step, Turn::Done) => Kind::Done,
    })
}

#[cfg(test)]
mod tests {
    use super::*;
    use crate::speed::jobs;

    #[test]
    fn a_delivery_is_one_whatever_its_turn() {
        let (_, c1) = jobs::all().swap_remove(0);
        let script = Script::new::<RustSide>(c1.bytes()).expect("a session that comes to its Done");
        assert_eq!(Kind::ALL.map(|kind| script.count(kind)), [1, 2, 1, 1, 1, 2, 1]);
        assert_eq!(script.calls(), 7);
    }
}
