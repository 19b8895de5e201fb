//! A wide job's talk: each side is asked by itself and up to its Done, since the turns of the two may differ.

use crate::callers::{Listed, Prompt};
use crate::session::ask;
use crate::side::Side;
use crate::talk::{Caller, MOST_CALLS, Part, Subject, Talk, View};

/// The caller goes by the first side. The second is then asked the same in sense: where the first accepted a delivery, it is
/// served its own read of that number. On each side the prompt caller goes on to Done.
pub fn ask_apart<A: Side, B: Side>(subject: &Subject, sides: (A, B), caller: &mut dyn Caller, talk: &mut Talk) {
    ask_to_done(subject, sides.0, caller, &mut talk.first);
    let wishes = talk.first.wishes();
    ask_to_done(subject, sides.1, &mut Listed::new(&wishes), &mut talk.second);
}

fn ask_to_done<S: Side>(subject: &Subject, mut side: S, caller: &mut dyn Caller, part: &mut Part) {
    let mut view = View::new(subject);
    ask_all(&mut side, caller, &mut view, part);
    ask_all(&mut side, &mut Prompt, &mut view, part);
}

fn ask_all<S: Side>(side: &mut S, caller: &mut dyn Caller, view: &mut View, part: &mut Part) {
    while part.calls.len() < MOST_CALLS {
        let Some(call) = caller.next(view) else { break };
        let answer = ask(side, call);
        view.see(call, &answer);
        part.add(call, answer);
    }
}

#[cfg(test)]
mod tests {
    use super::*;
    use crate::callers::Wish;
    use crate::job::{Job, Split};
    use crate::plan::Node;
    use crate::session::Call;
    use crate::talk::talk;
    use crate::testing::{self, Plain, Wrong};

    /// A segment of so many rows and one of 2, joined, in one split that keeps everything.
    fn subject(rows: u32) -> Subject {
        let plan = Node::Concat(vec![Node::Segment { segment: 7, rows }, Node::Segment { segment: 8, rows: 2 }]);
        Subject::new(Job { slots: 1, plan, splits: vec![Split::new(0, rows + 2, &[(0, rows + 2)])] }.bytes())
    }

    fn deliver(read: u32, rows: u32) -> Call {
        Call::Deliver { read, rows }
    }

    #[test]
    fn the_second_side_is_served_its_own_reads() {
        use Call::Step;
        let wishes = [Step, deliver(0, 9), Step, deliver(0, 65_534)].map(Wish::Exactly);
        let talk = talk::<Plain, Wrong<{ testing::READS_BACKWARDS }>>(&subject(65_534), &mut Listed::new(&wishes));
        assert_eq!(talk.first.calls, [Step, deliver(0, 9), Step, deliver(0, 65_534), deliver(1, 2), Step, Step]);
        assert_eq!(talk.second.calls, [Step, deliver(0, 9), Step, deliver(0, 2), deliver(1, 65_534), Step, Step]);
        assert!(talk.parts().iter().all(|part| part.comes_to_done()));
    }

    #[test]
    fn the_second_side_goes_on_where_the_first_is_done() {
        let talk = talk::<Plain, Wrong<{ testing::CUTS_IN_TWO }>>(&subject(65_534), &mut Listed::new(&[]));
        assert_eq!(talk.parts().map(|part| part.calls.len()), [7, 9]);
        assert!(talk.parts().iter().all(|part| part.comes_to_done()));
    }

    #[test]
    fn a_plan_of_one_row_less_is_not_wide() {
        let talk = talk::<Plain, Wrong<{ testing::CUTS_IN_TWO }>>(&subject(65_533), &mut Prompt);
        assert_eq!(talk.parts().map(|part| part.calls.len()), [5, 5]);
        assert!(!talk.alike() && !talk.first.comes_to_done());
    }

    #[test]
    fn a_side_that_goes_on_for_ever_is_left() {
        let bounded = talk::<Wrong<{ testing::ROW_BY_ROW }>, Wrong<{ testing::ROW_BY_ROW }>>(&subject(65_534), &mut Prompt);
        assert_eq!(bounded.parts().map(|part| part.calls.len()), [MOST_CALLS; 2]);
        let refused = talk::<Wrong<{ testing::REFUSES_DELIVERIES }>, Plain>(&subject(65_534), &mut Prompt);
        assert_eq!(refused.first.calls.len(), 4);
        assert!(refused.second.comes_to_done());
    }
}
