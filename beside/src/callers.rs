//! Two callers without will of their own: one that serves promptly, one that keeps to a list.

use crate::answer::Answer;
use crate::session::Call;
use crate::side::Side;
use crate::talk::{Caller, Part, Subject, Talk, Told, View, talk};

impl Told {
    pub fn delivery(&self) -> Call {
        Call::Deliver { read: self.read, rows: self.rows }
    }
}

/// Steps, and delivers the lowest read in flight at each Waiting, until Done, a Waiting for nothing or a refusal of its call.
pub struct Prompt;

impl Caller for Prompt {
    fn next(&mut self, view: &View) -> Option<Call> {
        let call = if view.done {
            None
        } else if view.waiting {
            view.in_flight().next().map(Told::delivery)
        } else {
            Some(Call::Step)
        };
        call.filter(|call| view.refused != Some(*call))
    }
}

/// A call on a list. `Serve` is a delivery with the rows that are right for the read, on whatever side and job it is made.
#[derive(Clone, Copy, Debug, PartialEq, Eq)]
pub enum Wish {
    Exactly(Call),
    Serve(u32),
}

impl Wish {
    fn call(self, view: &View) -> Call {
        match self {
            Wish::Exactly(call) => call,
            Wish::Serve(read) => {
                let told = view.reads.iter().find(|told| told.read == read);
                told.map_or(Call::Deliver { read, rows: 0 }, Told::delivery)
            }
        }
    }
}

impl Part {
    /// Its calls, as they can be made on another side or another job: a delivery that was accepted keeps its sense, not its rows.
    pub fn wishes(&self) -> Vec<Wish> {
        let wishes = self.answered().map(|(call, answer)| match (call, answer) {
            (Call::Deliver { read, .. }, Answer::Turn(_)) => Wish::Serve(read),
            _ => Wish::Exactly(call),
        });
        wishes.collect()
    }
}

/// The calls on a list, one after another.
pub struct Listed<'a>(std::slice::Iter<'a, Wish>);

impl<'a> Listed<'a> {
    pub fn new(wishes: &'a [Wish]) -> Self {
        Self(wishes.iter())
    }
}

impl Caller for Listed<'_> {
    fn next(&mut self, view: &View) -> Option<Call> {
        self.0.next().map(|wish| wish.call(view))
    }
}

/// The talk with these calls made on the first side exactly.
pub fn replay<A: Side, B: Side>(subject: &Subject, calls: &[Call]) -> Talk {
    let wishes: Vec<Wish> = calls.iter().copied().map(Wish::Exactly).collect();
    talk::<A, B>(subject, &mut Listed::new(&wishes))
}

#[cfg(test)]
mod tests {
    use super::*;
    use crate::draw::draw;
    use crate::fault::{fault, finding};
    use crate::session::Session;
    use crate::testing::{self, Plain, Wrong};

    /// How many of 1,000 sessions are at fault on a wide job. Each is the same again when it is read from its bytes.
    fn wide_and_found<A: Side, B: Side>() -> usize {
        let drawn = (0..1000).map(|number| draw::<A, B>(4, number)).filter(|(subject, _)| subject.is_wide());
        let found = drawn.filter_map(|(subject, talk)| finding(&subject, talk));
        let checked = found.inspect(|found| {
            let session = Session::read(&found.session.bytes());
            let subject = Subject::new(session.job);
            let again = replay::<A, B>(&subject, &session.calls);
            assert_eq!(again, found.talk);
            assert_eq!(fault(&subject, &again).as_ref(), Some(&found.fault));
        });
        checked.count()
    }

    #[test]
    fn a_session_found_on_a_wide_job_is_the_same_again() {
        let found = [
            wide_and_found::<Plain, Wrong<{ testing::INVENTED_ROWS }>>(),
            wide_and_found::<Plain, Wrong<{ testing::REFUSES_DELIVERIES }>>(),
            wide_and_found::<Plain, Wrong<{ testing::READS_TWICE }>>(),
            wide_and_found::<Wrong<{ testing::REFUSES_A_STEP }>, Plain>(),
            wide_and_found::<Wrong<{ testing::LOSES_A_ROW }>, Wrong<{ testing::READS_BACKWARDS }>>(),
            wide_and_found::<Wrong<{ testing::ROW_BY_ROW }>, Plain>(),
            wide_and_found::<Wrong<{ testing::SPLITS_BACKWARDS }>, Wrong<{ testing::WAITS_FOR_NOTHING }>>(),
        ];
        assert!(found.iter().all(|found| *found > 20), "{found:?}");
    }
}
