//! Check 12 by itself, on states that calls have left.

use std::hint::black_box;
use std::time::{Duration, Instant};

use ritsghule::lent;

use super::measure::make;
use super::{ROUND, ROUNDS, jobs, median};
use crate::answer::Answer;
use crate::callers::Prompt;
use crate::job::Job;
use crate::output::line;
use crate::port::{self, PortSide};
use crate::session::{Call, ask, opened};
use crate::talk::{Caller, Subject, View, talk};

/// A state that is checked.
struct State {
    name: &'static str,
    job: Job,
    /// None: just opened. Else the prompt caller's, at the Waiting after so many deliveries.
    deliveries: Option<usize>,
}

fn states() -> [State; 3] {
    [
        State { name: "just opened: 4 segments, 2 splits, 2 slots", job: jobs::alike(4, 2, 2, 4), deliveries: None },
        State { name: "the same, running: half of the reads delivered", job: jobs::alike(4, 2, 2, 4), deliveries: Some(2) },
        State {
            name: "23 segments, 16 splits, 3 slots: all reads in flight",
            job: jobs::alike(23, 16, 3, 16),
            deliveries: Some(0),
        },
    ]
}

/// Prints a line for each state, and one for a state that is too short to be checked.
pub fn run() -> Result<(), String> {
    line(format_args!(
        "Nanoseconds of a delivery that names a read never made: checks 1 and 12, then refusal 10. The median of {ROUNDS} rounds,"
    ));
    line("each round the mean of many calls. In each job every segment is shared by all splits.\n");
    for State { name, job, deliveries } in states() {
        let mut scan = reach(&job, deliveries).ok_or_else(|| format!("{name}: it cannot be reached"))?;
        print(name, || make(&mut scan, Call::CHECK));
    }
    let mut short = vec![0; lent::state_len() - 1];
    print("without check 12: a state too short, refused by 1", || drop(black_box(port::ask(&mut short, Call::CHECK))));
    Ok(())
}

/// Prompt up to the Waiting after so many deliveries.
struct Until {
    deliveries: usize,
}

impl Caller for Until {
    fn next(&mut self, view: &View) -> Option<Call> {
        if view.waiting {
            self.deliveries = self.deliveries.checked_sub(1)?;
        }
        Prompt.next(view)
    }
}

/// The scan in its state, if the check is answered there as it should be.
fn reach(job: &Job, deliveries: Option<usize>) -> Option<PortSide> {
    let subject = Subject::new(job.bytes());
    let calls = deliveries.map(|deliveries| talk::<PortSide, PortSide>(&subject, &mut Until { deliveries }).first.calls);
    let mut scan = opened::<PortSide>(&subject.bytes).0?;
    for call in calls.unwrap_or_default() {
        ask(&mut scan, call);
    }
    (ask(&mut scan, Call::CHECK) == Answer::no(10)).then_some(scan)
}

fn print(name: &str, mut call: impl FnMut()) {
    const TRIED: u32 = 1000;
    let fitting = f64::from(TRIED) * ROUND.as_secs_f64() / round(&mut call, TRIED).as_secs_f64();
    let calls = fitting.max(1.0) as u32;
    let rounds = (0..ROUNDS).map(|_| round(&mut call, calls).as_nanos() as f64 / f64::from(calls));
    line(format_args!("  {name:<54}{:>8.0}", median(rounds.collect())));
}

/// How long so many calls take.
fn round(call: &mut impl FnMut(), calls: u32) -> Duration {
    let start = Instant::now();
    for _ in 0..calls {
        call();
    }
    start.elapsed()
}

#[cfg(test)]
mod tests {
    use super::*;
    use crate::side::Turn;

    #[test]
    fn each_state_can_be_reached() {
        for State { name, job, deliveries } in states() {
            assert!(reach(&job, deliveries).is_some(), "{name}");
        }
    }

    #[test]
    fn a_state_is_the_one_at_the_next_waiting() {
        let subject = Subject::new(jobs::alike(4, 2, 2, 4).bytes());
        let talk = talk::<PortSide, PortSide>(&subject, &mut Until { deliveries: 2 });
        assert_eq!(talk.first.answers.last(), Some(&Answer::Turn(Turn::Waiting)));
        assert_eq!(talk.first.calls.iter().filter(|call| **call != Call::Step).count(), 2);
    }
}
