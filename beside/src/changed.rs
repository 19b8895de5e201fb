//! States that no call left: those of random sessions with some of their bytes changed, handed to the port. The Rust has no such
//! states, so each answer and what it leaves are held against document 01's table.

mod change;
mod judge;

use std::time::Instant;

use ritsghule::lent;

use self::change::{Change, changes, in_use};
use self::judge::fault;
use crate::answer::Answer;
use crate::draw::draw;
use crate::port::{self, PortSide};
use crate::progress::Progress;
use crate::random::Random;
use crate::session::Call;
use crate::side::Refusal;
use crate::tally::{Answers, grouped};

/// How many changed states are made of each, and the most calls on one.
const WAYS: usize = 8;
const CALLS: usize = 4;

/// What fills the bytes past the published length, and how many there are.
const PAST: u8 = 0xa5;
const SPARE: usize = 64;

/// No job has more reads.
const MOST_READS: u64 = 24;

pub struct Options {
    pub seed: u64,
    pub states: u64,
}

/// What the calls came to.
pub struct Outcome {
    pub summary: String,
    /// Every answer, and what it left, was as the table says.
    pub sound: bool,
}

pub fn run(options: &Options) -> Outcome {
    let begun = Instant::now();
    let mut trials = Trials::new(options);
    let mut sessions = 0;
    while !trials.over() {
        trials.session(sessions);
        sessions += 1;
    }
    trials.progress.clear();
    let mut summary = format!(
        "states     {} with 1 to 8 bytes changed, of {} sessions, seed {}\n",
        grouped(trials.states),
        grouped(sessions),
        options.seed
    );
    summary += &trials.answers.lines();
    summary += &trials.verdict(begun.elapsed().as_secs_f64());
    Outcome { summary, sound: trials.first_fault.is_none() }
}

/// Trials under way.
struct Trials<'a> {
    options: &'a Options,
    states: u64,
    calls: u64,
    answers: Answers,
    first_fault: Option<String>,
    progress: Progress,
}

impl<'a> Trials<'a> {
    fn new(options: &'a Options) -> Self {
        Self { options, states: 0, calls: 0, answers: Answers::default(), first_fault: None, progress: Progress::new() }
    }

    fn over(&self) -> bool {
        self.states == self.options.states || self.first_fault.is_some()
    }

    /// Changes the states that one session comes to, until the trials are over.
    fn session(&mut self, number: u64) {
        let seed = self.options.seed;
        let (subject, talk) = draw::<PortSide, PortSide>(seed, number);
        let mut state = [vec![0; lent::state_len()], vec![PAST; SPARE]].concat();
        if lent::open(&subject.bytes, &mut state).is_err() {
            return;
        }
        let leaves = subject.job.map(|job| job.plan.leaves()).unwrap_or_default();
        let mut caller = Caller { rows: leaves.iter().map(|leaf| leaf.1).collect(), random: Random::new(!seed, number) };
        for (made, call) in talk.first.calls.iter().enumerate() {
            let in_use = in_use(&state);
            for _ in 0..WAYS {
                if self.over() {
                    return;
                }
                let changes = changes(&in_use, &mut caller.random);
                let tried = self.state(&state, &changes, &mut caller);
                self.first_fault = tried.err().map(|fault| format!("session {number}, {made} calls, {changes:?}: {fault}"));
            }
            self.progress.at(|| format!("{} of {} states", grouped(self.states), grouped(self.options.states)));
            port::ask(&mut state, *call);
        }
    }

    /// Calls on a changed state, until one is refused by 12 or more.
    fn state(&mut self, state: &[u8], changes: &[Change], caller: &mut Caller) -> Result<(), String> {
        self.states += 1;
        let mut state = state.to_vec();
        changes.iter().for_each(|change| change.make(&mut state));
        for _ in 0..CALLS {
            let call = caller.call();
            let answer = judged(&mut state, call)?;
            self.calls += 1;
            self.answers.add_call(call, &answer);
            if matches!(answer, Answer::No(Refusal { number: 12.., .. })) {
                break;
            }
        }
        Ok(())
    }

    fn verdict(&self, seconds: f64) -> String {
        let head = format!("{} calls, {seconds:.1} s: ", grouped(self.calls));
        match &self.first_fault {
            None => head + "each ended with an answer that the table has, and left what the table says\n",
            Some(fault) => head + "then one that the table has not\n" + fault + "\n",
        }
    }
}

/// A call on a state, and what is wrong with its answer.
fn judged(state: &mut [u8], call: Call) -> Result<Answer, String> {
    let before = state.to_vec();
    let mut asked = |call| {
        let answer = port::ask(state, call);
        match fault(call, &answer, &before, state) {
            None => Ok(answer),
            Some(what) => Err(format!("{call:?} is answered {answer}: {what}")),
        }
    };
    let checked = asked(Call::CHECK)?;
    let answer = asked(call)?;
    if (answer == Answer::no(12)) == (checked == Answer::no(12)) {
        Ok(answer)
    } else {
        Err(format!("{call:?} is answered {answer}, and {:?} {checked}", Call::CHECK))
    }
}

/// Makes any calls.
struct Caller {
    /// Rows that segments of the job have.
    rows: Vec<u32>,
    random: Random,
}

impl Caller {
    fn call(&mut self) -> Call {
        if self.rows.is_empty() || self.random.chance(50) {
            return Call::Step;
        }
        let most = self.random.between(0, MOST_READS);
        Call::Deliver { read: self.random.between(0, most) as u32, rows: self.random.pick(&self.rows) }
    }
}

#[cfg(test)]
mod tests {
    use super::*;

    #[test]
    fn every_number_that_a_changed_state_can_have_comes() {
        let options = Options { seed: 1, states: 50_000 };
        let mut trials = Trials::new(&options);
        for number in 0.. {
            if trials.over() {
                break;
            }
            trials.session(number);
        }
        assert_eq!(trials.first_fault, None);
        assert_eq!(trials.states, options.states);
        assert_eq!(trials.answers.missing(10..=14), []);
    }
}
