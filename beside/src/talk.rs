//! Both sides opened on one job and asked the same calls, until they differ or the caller ends; on a wide job, asked apart.

use std::cell::OnceCell;

use crate::answer::Answer;
use crate::apart::ask_apart;
use crate::demand::Demand;
use crate::job::Job;
use crate::session::{Call, Session, ask, opened};
use crate::side::{Side, Turn};

/// No side is asked for longer.
pub const MOST_CALLS: usize = 4000;

/// A job's bytes, with what is worked out from them once for many talks.
pub struct Subject {
    pub bytes: Vec<u8>,
    pub job: Option<Job>,
    demand: OnceCell<Option<Demand>>,
}

impl Subject {
    pub fn new(bytes: Vec<u8>) -> Self {
        let job = Job::read(&bytes);
        Self { bytes, job, demand: OnceCell::new() }
    }

    /// Whether the bytes are a job, and a wide one.
    pub fn is_wide(&self) -> bool {
        self.job.as_ref().is_some_and(Job::is_wide)
    }

    /// None where the bytes are no job.
    pub fn demand(&self) -> Option<&Demand> {
        self.demand.get_or_init(|| self.job.as_ref().map(Demand::of)).as_ref()
    }
}

/// A read that was told, and the rows that its segment has in the job.
#[derive(Clone, Copy, Debug)]
pub struct Told {
    pub read: u32,
    pub rows: u32,
    pub delivered: bool,
}

/// What a caller has seen so far.
#[derive(Default)]
pub struct View {
    leaves: Vec<(u32, u32)>,
    pub reads: Vec<Told>,
    /// Waiting was the last turn.
    pub waiting: bool,
    /// Done was the last turn.
    pub done: bool,
    /// A read was the last answer.
    pub just_read: bool,
    /// The last call, if it was refused.
    pub refused: Option<Call>,
}

impl View {
    pub fn new(subject: &Subject) -> Self {
        let leaves = subject.job.as_ref().map(|job| job.plan.leaves());
        Self { leaves: leaves.unwrap_or_default(), ..Self::default() }
    }

    pub fn in_flight(&self) -> impl DoubleEndedIterator<Item = &Told> {
        self.reads.iter().filter(|told| !told.delivered)
    }

    pub fn see(&mut self, call: Call, answer: &Answer) {
        self.just_read = false;
        self.refused = matches!(answer, Answer::No(_)).then_some(call);
        let Answer::Turn(turn) = answer else { return };
        if let Call::Deliver { read, .. } = call {
            let told = self.reads.iter_mut().filter(|told| told.read == read);
            told.for_each(|told| told.delivered = true);
        }
        self.waiting = *turn == Turn::Waiting;
        self.done = *turn == Turn::Done;
        if let Turn::Read { read, segment } = *turn {
            self.just_read = true;
            let leaf = self.leaves.iter().find(|leaf| leaf.0 == segment);
            self.reads.push(Told { read, rows: leaf.map_or(0, |leaf| leaf.1), delivered: false });
        }
    }
}

/// Whoever makes the calls, going by what one side answers: the first, where both are asked the same.
pub trait Caller {
    fn next(&mut self, view: &View) -> Option<Call>;
}

/// What one side was asked, and what it answered: first to the opening, then to each call.
#[derive(Clone, Debug, PartialEq, Eq)]
pub struct Part {
    pub calls: Vec<Call>,
    pub answers: Vec<Answer>,
}

impl Part {
    fn new(opening: Answer) -> Self {
        Self { calls: Vec::new(), answers: vec![opening] }
    }

    pub fn opening(&self) -> &Answer {
        &self.answers[0]
    }

    /// Each call with its answer.
    pub fn answered(&self) -> impl Iterator<Item = (Call, &Answer)> {
        self.calls.iter().copied().zip(&self.answers[1..])
    }

    pub fn comes_to_done(&self) -> bool {
        self.answers.iter().rev().any(|answer| *answer == Answer::Turn(Turn::Done))
    }

    pub fn add(&mut self, call: Call, answer: Answer) {
        self.calls.push(call);
        self.answers.push(answer);
    }

    fn cut(&mut self, calls: usize) {
        self.calls.truncate(calls);
        self.answers.truncate(calls + 1);
    }
}

/// What was said with each side. On a job that is not wide the calls are the same.
#[derive(Clone, Debug, PartialEq, Eq)]
pub struct Talk {
    pub first: Part,
    pub second: Part,
}

impl Talk {
    pub fn parts(&self) -> [&Part; 2] {
        [&self.first, &self.second]
    }

    /// Whether both sides opened.
    pub fn opened(&self) -> bool {
        self.parts().iter().all(|part| *part.opening() == Answer::Open)
    }

    /// Whether the two sides answered the same.
    pub fn alike(&self) -> bool {
        self.first.answers == self.second.answers
    }

    /// Keeps so many calls.
    pub fn cut(&mut self, calls: usize) {
        self.first.cut(calls);
        self.second.cut(calls);
    }

    /// The session with the calls that the first side was asked.
    pub fn session(&self, subject: &Subject) -> Session {
        Session::new(subject.bytes.clone(), self.first.calls.clone())
    }
}

pub fn talk<A: Side, B: Side>(subject: &Subject, caller: &mut impl Caller) -> Talk {
    let (first, first_opening) = opened::<A>(&subject.bytes);
    let (second, second_opening) = opened::<B>(&subject.bytes);
    let mut talk = Talk { first: Part::new(first_opening), second: Part::new(second_opening) };
    if let (Some(first), Some(second)) = (first, second) {
        if subject.is_wide() {
            ask_apart(subject, (first, second), caller, &mut talk);
        } else {
            ask_both(subject, (first, second), caller, &mut talk);
        }
    }
    talk
}

fn ask_both<A: Side, B: Side>(subject: &Subject, sides: (A, B), caller: &mut dyn Caller, talk: &mut Talk) {
    let (mut first, mut second) = sides;
    let mut view = View::new(subject);
    while talk.first.calls.len() < MOST_CALLS {
        let Some(call) = caller.next(&view) else { break };
        let answers = (ask(&mut first, call), ask(&mut second, call));
        view.see(call, &answers.0);
        let alike = answers.0 == answers.1;
        talk.first.add(call, answers.0);
        talk.second.add(call, answers.1);
        if !alike {
            break;
        }
    }
}
