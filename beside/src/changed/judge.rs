//! Document 01's table, of calls on any state of sufficient length: which numbers a call can have, and what each leaves.

use ritsghule::lent;

use crate::answer::Answer;
use crate::session::Call;
use crate::side::Refusal;

/// What is wrong with an answer, given the state, and what stands after it, before and after the call.
pub fn fault(call: Call, answer: &Answer, before: &[u8], after: &[u8]) -> Option<&'static str> {
    let (state, past) = after.split_at(lent::state_len());
    if !has(call, answer) {
        return Some("the table has no such answer to it");
    }
    if *past != before[state.len()..] {
        return Some("a byte past the published length changed");
    }
    match answer {
        Answer::No(Refusal { number: 13 | 14, .. }) => state.iter().any(|byte| *byte != 0).then_some("the state is not all zero"),
        Answer::No(_) => (after != before).then_some("the state is not as it was"),
        _ => None,
    }
}

/// Whether the table has this answer to the call.
fn has(call: Call, answer: &Answer) -> bool {
    let numbers: &[u8] = match call {
        Call::Step => &[12, 13, 14],
        Call::CHECK => &[10, 12],
        Call::Deliver { .. } => &[10, 11, 12, 13, 14],
    };
    match answer {
        Answer::Turn(_) => call != Call::CHECK,
        Answer::No(Refusal { number, run: None }) => numbers.contains(number),
        _ => false,
    }
}

#[cfg(test)]
mod tests {
    use super::*;
    use crate::side::Turn;

    const DELIVERY: Call = Call::Deliver { read: 0, rows: 1 };

    /// A state with a byte to spare, in use or not.
    fn state(own: u8, past: u8) -> Vec<u8> {
        let mut state = vec![own; lent::state_len()];
        state.push(past);
        state
    }

    #[test]
    fn answers_of_the_table() {
        let (old, new, none) = (state(1, 7), state(2, 7), state(0, 7));
        for call in [Call::Step, DELIVERY] {
            assert_eq!(fault(call, &Answer::Turn(Turn::Waiting), &old, &new), None);
            for number in [12, 13, 14] {
                let after = if number == 12 { &old } else { &none };
                assert_eq!(fault(call, &Answer::no(number), &old, after), None);
            }
        }
        for number in [10, 11] {
            assert_eq!(fault(DELIVERY, &Answer::no(number), &old, &old), None);
        }
        assert_eq!(fault(Call::CHECK, &Answer::no(10), &old, &old), None);
    }

    #[test]
    fn answers_of_another_call() {
        let old = state(1, 7);
        for number in [0, 1, 9, 10, 11, 15, 17, 255] {
            assert!(fault(Call::Step, &Answer::no(number), &old, &old).is_some(), "{number}");
        }
        for number in [0, 1, 9, 15, 18, 255] {
            assert!(fault(DELIVERY, &Answer::no(number), &old, &old).is_some(), "{number}");
        }
        let zero = state(0, 7);
        for answer in [Answer::Turn(Turn::Done), Answer::no(11), Answer::no(13), Answer::no(14)] {
            assert!(fault(Call::CHECK, &answer, &zero, &zero).is_some(), "{answer}");
        }
    }

    #[test]
    fn what_is_left() {
        let (old, new, past) = (state(1, 7), state(2, 7), state(1, 8));
        for call in [Call::Step, DELIVERY] {
            for answer in [Answer::no(12), Answer::no(14), Answer::Turn(Turn::Done)] {
                assert!(fault(call, &answer, &old, &past).is_some(), "{call:?}: {answer}");
            }
            for number in [12, 13, 14] {
                assert!(fault(call, &Answer::no(number), &old, &new).is_some(), "{call:?}: {number}");
            }
        }
        for number in [10, 11] {
            assert!(fault(DELIVERY, &Answer::no(number), &old, &new).is_some(), "{number}");
        }
    }
}
