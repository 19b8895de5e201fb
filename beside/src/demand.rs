//! Demand 3 of document 01, of one side's answers to one session. It goes by the job alone, not by the other side.

mod fact;
mod watch;

use std::collections::BTreeMap;

use self::watch::Watch;
use crate::answer::Answer;
use crate::job::Job;
use crate::plan::{Piece, cut};
use crate::session::Call;

pub use self::fact::Fact;

/// What the demand says of one job.
pub struct Demand {
    /// For each split its kept rows.
    kept: Vec<Vec<Piece>>,
    rows_of: BTreeMap<u32, u32>,
    /// 2D + K + 1.
    most_steps: u64,
}

/// Which fact, and at which answer: 0 is the opening.
#[derive(Clone, Debug, PartialEq, Eq)]
pub struct Broken {
    pub at: usize,
    pub fact: Fact,
}

impl Demand {
    pub fn of(job: &Job) -> Self {
        let rows_of: BTreeMap<u32, u32> = job.plan.leaves().into_iter().collect();
        let all = job.plan.pieces();
        let runs = job.splits.iter().flat_map(|split| &split.runs);
        let kept_rows: u64 = runs.map(|run| u64::from(run.length)).sum();
        let kept = job.splits.iter().map(|split| {
            let runs = split.runs.iter();
            let start = u64::from(split.start);
            runs.flat_map(|run| cut(&all, start + u64::from(run.start), run.length.into())).collect()
        });
        let most_steps = 2 * rows_of.len() as u64 + kept_rows + 1;
        Self { kept: kept.collect(), rows_of, most_steps }
    }

    /// Every fact that the answers to an accepted opening and the calls after it break, in sequence.
    pub fn check(&self, calls: &[Call], answers: &[Answer]) -> Vec<Broken> {
        let mut watch = Watch::new(self);
        for (call, answer) in calls.iter().zip(&answers[1..]) {
            watch.see(*call, answer);
        }
        watch.broken
    }
}

#[cfg(test)]
mod tests {
    use std::mem::discriminant;

    use super::*;
    use crate::callers::Prompt;
    use crate::generate;
    use crate::job::Split;
    use crate::plan::Node;
    use crate::random::Random;
    use crate::side::{Side, Turn};
    use crate::talk::{Subject, talk};
    use crate::testing::{self, Plain, Wrong};
    use crate::whims::Whims;

    /// Every fact that a side breaks in 300 sessions, half of them served promptly.
    fn broken<S: Side>() -> Vec<Fact> {
        let mut facts = Vec::new();
        for stream in 0..150 {
            let mut random = Random::new(5, stream);
            let subject = Subject::new(generate::job(&mut random).bytes());
            let demand = subject.demand().expect("a job that is generated is a tree");
            let talks = [talk::<S, S>(&subject, &mut Prompt), talk::<S, S>(&subject, &mut Whims::new(random))];
            facts.extend(talks.iter().flat_map(|talk| demand.check(&talk.first.calls, &talk.first.answers)));
        }
        facts.into_iter().map(|broken| broken.fact).collect()
    }

    fn breaks<S: Side>(fact: Fact) {
        let facts = broken::<S>();
        assert!(facts.iter().any(|broken| discriminant(broken) == discriminant(&fact)), "not found: {fact}");
    }

    #[test]
    fn a_plain_scan_breaks_no_fact() {
        assert_eq!(broken::<Plain>(), []);
    }

    #[test]
    fn each_wrong_side_breaks_its_fact() {
        breaks::<Wrong<{ testing::REFUSES_A_STEP }>>(Fact::Refused(0));
        breaks::<Wrong<{ testing::WAITS_FOR_NOTHING }>>(Fact::WaitingForNothing);
        breaks::<Wrong<{ testing::READS_ANOTHER_SEGMENT }>>(Fact::UnknownSegment(0));
        breaks::<Wrong<{ testing::READS_TWICE }>>(Fact::SegmentReadTwice(0));
        breaks::<Wrong<{ testing::ONE_READ_NUMBER }>>(Fact::ReadNumberAgain(0));
        breaks::<Wrong<{ testing::ANOTHER_SPLIT }>>(Fact::UnknownSplit(0));
        breaks::<Wrong<{ testing::NO_ROWS }>>(Fact::NoRows);
        breaks::<Wrong<{ testing::BEFORE_DELIVERY }>>(Fact::SegmentNotDelivered(0));
        breaks::<Wrong<{ testing::INVENTED_ROWS }>>(Fact::NotNextKeptRows(0));
        breaks::<Wrong<{ testing::NEXT_ROW }>>(Fact::NotNextKeptRows(0));
        breaks::<Wrong<{ testing::FIRST_SPLIT_ONLY }>>(Fact::DoneTooEarly(0));
        breaks::<Wrong<{ testing::NEVER_DONE }>>(Fact::NoDoneWithin(0));
    }

    #[test]
    fn a_delivery_has_the_answer_that_is_due() {
        let not_refused = Fact::NotRefused { due: 0, given: Answer::Open };
        breaks::<Wrong<{ testing::REFUSES_DELIVERIES }>>(Fact::Refused(0));
        breaks::<Wrong<{ testing::TAKES_ANY_DELIVERY }>>(not_refused.clone());
        breaks::<Wrong<{ testing::OTHER_REFUSAL }>>(not_refused);
        breaks::<Wrong<{ testing::STEPS_WHEN_REFUSED }>>(Fact::NotNextKeptRows(0));
        breaks::<Wrong<{ testing::KEEPS_NO_STEP }>>(Fact::NotNextKeptRows(0));
    }

    /// The facts broken by these answers, on a job of one segment, 1, in one split with these runs.
    fn broken_with(rows: u32, runs: &[(u32, u32)], answered: &[(Call, Answer)]) -> Vec<Broken> {
        let (plan, splits) = (Node::Segment { segment: 1, rows }, vec![Split::new(0, rows, runs)]);
        let (calls, answers): (Vec<Call>, Vec<Answer>) = answered.iter().cloned().unzip();
        Demand::of(&Job { slots: 1, plan, splits }).check(&calls, &[vec![Answer::Open], answers].concat())
    }

    /// The same on a job of one row, so that 2D + K + 1 is 4.
    fn broken_by(answered: &[(Call, Answer)]) -> Vec<Broken> {
        broken_with(1, &[(0, 1)], answered)
    }

    #[test]
    fn the_turn_of_a_delivery_counts_as_a_step() {
        let delivery = |rows| Call::Deliver { read: 0, rows };
        let read = (Call::Step, Answer::Turn(Turn::Read { read: 0, segment: 1 }));
        let wait = (Call::Step, Answer::Turn(Turn::Waiting));
        let refused = (delivery(9), Answer::no(11));
        let out = (delivery(1), Answer::Turn(Turn::Output { split: 0, rows: 1, columns: vec![(1, 0)] }));
        let done = (Call::Step, Answer::Turn(Turn::Done));
        let late = [Fact::WaitingForNothing, Fact::NoDoneWithin(4)].map(|fact| Broken { at: 4, fact });
        assert_eq!(broken_by(&[read.clone(), wait.clone(), out.clone(), wait.clone()]), late);
        assert_eq!(broken_by(&[read.clone(), wait.clone(), refused.clone(), out, done]), []);
        assert_eq!(broken_by(&[read, wait.clone(), refused.clone(), wait.clone(), refused, wait]), []);
    }

    #[test]
    fn the_kept_rows_are_those_of_the_joined_runs() {
        let read = (Call::Step, Answer::Turn(Turn::Read { read: 0, segment: 1 }));
        let out = |rows| Answer::Turn(Turn::Output { split: 0, rows, columns: vec![(1, 0)] });
        let done = (Call::Step, Answer::Turn(Turn::Done));
        let broken = |rows| {
            let delivery = (Call::Deliver { read: 0, rows: 4 }, out(rows));
            broken_with(4, &[(0, 2), (2, 1)], &[read.clone(), delivery, done.clone()])
        };
        assert_eq!(broken(3), []);
        assert_eq!(broken(2), [Broken { at: 3, fact: Fact::DoneTooEarly(0) }]);
        assert_eq!(broken(4)[0], Broken { at: 2, fact: Fact::NotNextKeptRows(0) });
    }
}
