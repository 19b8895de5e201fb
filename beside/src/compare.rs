//! The whole comparison: C1 to C10, every small session, every short list of runs, and random ones. What is compared is every
//! answer; on wide jobs it is the opening and the joined rows.

use std::time::Instant;

use crate::cases;
use crate::draw::draw;
use crate::exhaustive::{Extent, extents, jobs, run_jobs};
use crate::explore::{Explorer, Path};
use crate::fault::{Finding, finding};
use crate::progress::Progress;
use crate::shrink::{smallest, weight};
use crate::side::Side;
use crate::talk::{Subject, Talk, talk};
use crate::tally::{Tally, grouped};
use crate::trees::plans;

pub struct Options {
    pub seed: u64,
    pub sessions: u64,
    pub deep: bool,
}

/// What a comparison came to.
pub struct Outcome {
    pub summary: String,
    /// The smallest session at fault, made smaller still.
    pub worst: Option<Finding>,
}

/// A comparison under way.
struct Comparison {
    tally: Tally,
    jobs: u64,
    at_fault: u64,
    least: Option<Finding>,
    progress: Progress,
}

pub fn compare<A: Side, B: Side>(options: &Options) -> Outcome {
    let begun = Instant::now();
    let mut comparison = Comparison::new();
    for (subject, talk) in cases::talks::<A, B>() {
        comparison.add(&subject, talk);
    }
    let cases = comparison.tally.sessions;
    for extent in extents(options.deep) {
        comparison.exhaust::<A, B>(extent);
    }
    let exhaustive = comparison.tally.sessions - cases;
    let most_runs = if options.deep { 4 } else { 3 };
    comparison.run_lists::<A, B>(most_runs);
    let run_lists = comparison.tally.sessions - exhaustive - cases;
    comparison.sample::<A, B>(options);
    let mut summary = format!("C1 to C10  {} sessions\n", grouped(cases));
    summary += &format!("exhaustive {} sessions on {} jobs\n", grouped(exhaustive), grouped(comparison.jobs));
    summary += &format!("runs       {} sessions on every list of up to {most_runs} runs\n", grouped(run_lists));
    summary += &format!("random     {} sessions, seed {}\n", grouped(options.sessions), options.seed);
    summary += &comparison.tally.lines();
    summary += &comparison.verdict(begun.elapsed().as_secs_f64());
    comparison.progress.at(|| "looking for the smallest session".to_string());
    let worst = comparison.least.map(smallest::<A, B>);
    comparison.progress.clear();
    Outcome { summary, worst }
}

impl Comparison {
    fn new() -> Self {
        Self { tally: Tally::default(), jobs: 0, at_fault: 0, least: None, progress: Progress::new() }
    }

    /// Every session on every job of this extent.
    fn exhaust<A: Side, B: Side>(&mut self, extent: Extent) {
        let plans = plans(extent.nodes, extent.segments);
        for (number, plan) in plans.iter().enumerate() {
            for job in jobs(plan) {
                self.jobs += 1;
                self.every_order::<A, B>(&Subject::new(job.bytes()), extent.odd);
            }
            let sessions = self.tally.sessions;
            self.progress.at(|| {
                let (done, nodes) = (100 * number / plans.len(), extent.nodes);
                format!("exhaustive, {nodes}-node plans: {done} %, {} sessions", grouped(sessions))
            });
        }
    }

    /// Every list of runs with up to so many of them; where it opens, every order of deliveries.
    fn run_lists<A: Side, B: Side>(&mut self, most: usize) {
        for job in run_jobs(most) {
            self.every_order::<A, B>(&Subject::new(job.bytes()), 0);
        }
    }

    fn every_order<A: Side, B: Side>(&mut self, subject: &Subject, odd: usize) {
        let mut path = Path::default();
        loop {
            let talk = talk::<A, B>(subject, &mut Explorer::new(&mut path, odd));
            self.add(subject, talk);
            if !path.advance() {
                break;
            }
        }
    }

    fn sample<A: Side, B: Side>(&mut self, options: &Options) {
        for number in 0..options.sessions {
            let (subject, talk) = draw::<A, B>(options.seed, number);
            self.add(&subject, talk);
            self.progress.at(|| format!("random: {} of {}", grouped(number), grouped(options.sessions)));
        }
    }

    fn add(&mut self, subject: &Subject, talk: Talk) {
        self.tally.add(subject, &talk);
        if let Some(found) = finding(subject, talk) {
            self.at_fault += 1;
            let smaller = |least: &Finding| weight(&found.session) < weight(&least.session);
            if self.least.as_ref().is_none_or(smaller) {
                self.least = Some(found);
            }
        }
    }

    fn verdict(&self, seconds: f64) -> String {
        let calls = grouped(self.tally.calls);
        let all = grouped(self.tally.sessions);
        let head = format!("{all} sessions, {calls} calls, {seconds:.1} s: ");
        match self.at_fault {
            0 => head + "all alike, wide jobs by their joined rows, and demand 3 holds on both sides\n",
            _ => head + &format!("{} differ, break demand 3 or do not come to Done\n", grouped(self.at_fault)),
        }
    }
}

#[cfg(test)]
mod tests {
    use super::*;
    use crate::rust::RustSide;
    use crate::testing::{self, Plain, Wrong};

    #[test]
    fn random_sessions_reach_what_they_aim_at() {
        let mut comparison = Comparison::new();
        comparison.sample::<RustSide, RustSide>(&Options { seed: 1, sessions: 3000, deep: false });
        assert!(comparison.least.is_none());
        assert_eq!(comparison.tally.missing(), Vec::<String>::new());
    }

    /// How many small sessions are at fault where this side stands beside the plain one.
    fn at_fault<B: Side>() -> u64 {
        let mut comparison = Comparison::new();
        comparison.exhaust::<Plain, B>(Extent { nodes: 2, segments: 1, odd: 1 });
        assert_eq!(comparison.least.is_some(), comparison.at_fault > 0);
        comparison.at_fault
    }

    /// How many lists of runs, and how many of 2,000 random sessions, are at fault where this side stands beside the plain one.
    fn found_in_runs<B: Side>() -> [u64; 2] {
        let mut listed = Comparison::new();
        listed.run_lists::<Plain, B>(3);
        let mut drawn = Comparison::new();
        drawn.sample::<Plain, B>(&Options { seed: 1, sessions: 2000, deep: false });
        [listed.at_fault, drawn.at_fault]
    }

    #[test]
    fn sides_that_refuse_runs_otherwise_are_found() {
        assert_eq!(found_in_runs::<Plain>(), [0, 0]);
        let found = [
            found_in_runs::<Wrong<{ testing::LONG_BEFORE_EARLY }>>(),
            found_in_runs::<Wrong<{ testing::JOINED_INDEX }>>(),
            found_in_runs::<Wrong<{ testing::EMPTY_RUNS_FIRST }>>(),
            found_in_runs::<Wrong<{ testing::INDEX_OF_THE_JOB }>>(),
            found_in_runs::<Wrong<{ testing::NAMES_NO_RUN }>>(),
        ];
        assert!(found.iter().flatten().all(|at_fault| *at_fault > 0), "{found:?}");
    }

    /// The plain side's rule, which the Rust side has in its own words.
    #[test]
    fn the_rule_of_runs_is_that_of_the_rust_side() {
        for job in run_jobs(3) {
            let refusal = job.split_at_fault().map(|(_, refusal)| refusal);
            assert_eq!(RustSide::open(&job.bytes()).err(), refusal, "{job:?}");
        }
    }

    #[test]
    fn sides_that_differ_are_found() {
        assert_eq!(at_fault::<Plain>(), 0);
        assert!(at_fault::<Wrong<{ testing::LATE_BY_A_TURN }>>() > 0);
        assert!(at_fault::<Wrong<{ testing::STEPS_WHEN_REFUSED }>>() > 0);
        assert!(at_fault::<Wrong<{ testing::KEEPS_NO_STEP }>>() > 0);
    }
}
