//! A session at fault made smaller, step by step, for as long as the fault stays.

use crate::callers::{Listed, Prompt};
use crate::fault::{Finding, finding};
use crate::records;
use crate::session::{Call, Session};
use crate::side::Side;
use crate::smaller::{lessenings, smaller_jobs};
use crate::talk::{Caller, Subject, talk};

/// What is made smaller, the weightiest first: bytes of the job, its numbers, calls, their numbers.
pub fn weight(session: &Session) -> (usize, u64, usize, u64) {
    let (list, rest) = records::take_while(&session.job, |_| true);
    let fields = list.iter().flat_map(|record| &record.fields).map(|field| u64::from(*field));
    let numbers = fields.sum::<u64>() + rest.iter().map(|byte| u64::from(*byte)).sum::<u64>();
    let call_numbers = session.calls.iter().map(|call| match *call {
        Call::Step => 0,
        Call::Deliver { read, rows } => u64::from(read) + u64::from(rows),
    });
    (session.job.len(), numbers, session.calls.len(), call_numbers.sum())
}

/// Calls that may be made on a side in search of a smaller session.
const MOST_CALLS: usize = 10_000_000;

/// A session with a fault of the same kind from which nothing more can be taken, or the smallest that was found in time.
pub fn smallest<A: Side, B: Side>(found: Finding) -> Finding {
    let mut search = Search { best: found, calls_left: MOST_CALLS };
    while search.smaller_job::<A, B>() || search.fewer_calls::<A, B>() {}
    search.best
}

struct Search {
    best: Finding,
    calls_left: usize,
}

impl Search {
    fn smaller_job<A: Side, B: Side>(&mut self) -> bool {
        let wishes = self.best.talk.first.wishes();
        smaller_jobs(&self.best.session.job).into_iter().any(|job| {
            let subject = Subject::new(job);
            self.attempt::<A, B>(&subject, &mut Listed::new(&wishes)) || self.attempt::<A, B>(&subject, &mut Prompt)
        })
    }

    /// Leaves out parts of the calls: halves first, at last single ones.
    fn fewer_calls<A: Side, B: Side>(&mut self) -> bool {
        let wishes = self.best.talk.first.wishes();
        let subject = Subject::new(self.best.session.job.clone());
        lessenings(wishes.len() as u32).map(|size| size as usize).any(|size| {
            (0..=wishes.len() - size).any(|start| {
                let fewer = [&wishes[..start], &wishes[start + size..]].concat();
                self.attempt::<A, B>(&subject, &mut Listed::new(&fewer))
            })
        })
    }

    /// Whether this talk has the same fault and is smaller; it then is the best.
    fn attempt<A: Side, B: Side>(&mut self, subject: &Subject, caller: &mut impl Caller) -> bool {
        if self.calls_left == 0 {
            return false;
        }
        let talk = talk::<A, B>(subject, caller);
        let calls = talk.first.calls.len().max(talk.second.calls.len());
        self.calls_left = self.calls_left.saturating_sub(1 + calls);
        let smaller = |found: &Finding| weight(&found.session) < weight(&self.best.session);
        let found = finding(subject, talk).filter(|found| found.fault.is_like(&self.best.fault) && smaller(found));
        let Some(found) = found else { return false };
        self.best = found;
        true
    }
}

#[cfg(test)]
mod tests {
    use super::*;
    use crate::draw::draw;
    use crate::job::{Job, Split};
    use crate::plan::Node;
    use crate::testing::{self, Plain, Wrong};

    /// The first 8 sessions at fault, all of them on wide jobs or none, each made as small as can be.
    fn smallest_of<A: Side, B: Side>(wide: bool) -> Vec<Session> {
        let found = (0..).filter_map(|number| {
            let (subject, talk) = draw::<A, B>(3, number);
            finding(&subject, talk).filter(|_| subject.is_wide() == wide)
        });
        found.take(8).map(|found| smallest::<A, B>(found).session).collect()
    }

    fn smallest_sessions<B: Side>() -> Vec<Session> {
        smallest_of::<Plain, B>(false)
    }

    fn one_row(splits: usize) -> Vec<u8> {
        let (whole, empty) = (Split::new(0, 1, &[(0, 1)]), Split::new(0, 0, &[]));
        let splits = [vec![empty; splits - 1], vec![whole]].concat();
        Job { slots: 1, plan: Node::Segment { segment: 0, rows: 1 }, splits }.bytes()
    }

    const SERVED: [Call; 2] = [Call::Step, Call::Deliver { read: 0, rows: 1 }];

    #[test]
    fn one_row_of_one_segment_shows_invented_rows() {
        let smallest = Session::new(one_row(1), SERVED.to_vec());
        for session in smallest_sessions::<Wrong<{ testing::INVENTED_ROWS }>>() {
            assert_eq!(session, smallest);
        }
    }

    #[test]
    fn two_splits_show_what_is_wrong_in_the_second() {
        let smallest = Session::new(one_row(2), SERVED.to_vec());
        for session in smallest_sessions::<Wrong<{ testing::LAST_SPLIT_OF_TWO }>>() {
            assert_eq!(session, smallest);
        }
    }

    /// A segment of so many rows in a split of all of them, with these runs, the last of which is refused.
    fn refused(rows: u32, runs: &[(u32, u32)]) -> Session {
        let plan = Node::Segment { segment: 0, rows };
        Session::new(Job { slots: 1, plan, splits: vec![Split::new(0, rows, runs)] }.bytes(), Vec::new())
    }

    #[test]
    fn a_run_too_early_and_too_long_shows_which_is_asked_first() {
        for session in smallest_sessions::<Wrong<{ testing::LONG_BEFORE_EARLY }>>() {
            assert_eq!(session, refused(1, &[(0, 1), (0, 2)]));
        }
    }

    #[test]
    fn a_run_behind_two_that_meet_shows_an_index_of_joined_runs() {
        for session in smallest_sessions::<Wrong<{ testing::JOINED_INDEX }>>() {
            assert_eq!(session, refused(2, &[(0, 1), (1, 1), (0, 0)]));
        }
    }

    #[test]
    fn one_delivery_of_no_read_shows_another_refusal() {
        for session in smallest_sessions::<Wrong<{ testing::OTHER_REFUSAL }>>() {
            assert_eq!(session.calls.len(), 1, "{session:?}");
            assert_eq!(session.job, Job { slots: 1, plan: Node::Segment { segment: 0, rows: 0 }, splits: vec![] }.bytes());
        }
    }

    /// One row kept of a plan that is just wide.
    fn one_row_of_many() -> Vec<u8> {
        let plan = Node::Segment { segment: 0, rows: 65_536 };
        Job { slots: 1, plan, splits: vec![Split::new(0, 1, &[(0, 1)])] }.bytes()
    }

    #[test]
    fn other_rows_of_a_wide_job_show_on_a_small_one() {
        type Invents = Wrong<{ testing::INVENTED_ROWS }>;
        let served = vec![Call::Step, Call::Deliver { read: 0, rows: 65_536 }, Call::Step];
        for session in [smallest_of::<Plain, Invents>(true), smallest_of::<Invents, Plain>(true)].concat() {
            assert_eq!(session, Session::new(one_row_of_many(), served.clone()));
        }
    }

    #[test]
    fn a_refusal_by_one_side_of_a_wide_job_stays_one() {
        type Refuses = Wrong<{ testing::REFUSES_DELIVERIES }>;
        let delivery = Call::Deliver { read: 0, rows: 65_536 };
        for session in smallest_of::<Refuses, Plain>(true) {
            assert_eq!(session, Session::new(one_row_of_many(), vec![Call::Step, Call::Step, delivery]));
        }
        for session in smallest_of::<Plain, Refuses>(true) {
            assert_eq!(session, Session::new(one_row_of_many(), vec![Call::Step, delivery, Call::Step]));
        }
    }

    #[test]
    fn an_opening_that_differs_need_not_stay_wide() {
        for session in smallest_of::<Plain, Wrong<{ testing::LONG_BEFORE_EARLY }>>(true) {
            assert_eq!(session, refused(1, &[(0, 1), (0, 2)]));
        }
    }
}
