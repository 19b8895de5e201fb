//! The cases C1 to C10 of document 01, with document 02's joined runs and one call for a delivery.

use crate::callers::{Listed, Prompt, Wish};
use crate::job::{Job, Split};
use crate::plan::Node;
use crate::session::Call;
use crate::side::Side;
use crate::talk::{Subject, Talk, talk};

fn segment(segment: u32, rows: u32) -> Node {
    Node::Segment { segment, rows }
}

fn job(plan: Node, splits: Vec<Split>) -> Vec<u8> {
    Job { slots: 1, plan, splits }.bytes()
}

/// The jobs, in sequence.
fn jobs() -> [Vec<u8>; 10] {
    let four_rows = |splits| job(segment(1, 4), splits);
    let joined = |parts: &[(u32, u32)]| Node::Concat(parts.iter().map(|&(name, rows)| segment(name, rows)).collect());
    let packed = Node::Pack(vec![segment(1, 4), joined(&[(2, 1), (3, 3)])]);
    [
        job(joined(&[(1, 3), (2, 2)]), vec![Split::new(0, 5, &[(0, 5)])]),
        job(joined(&[(1, 3), (2, 2), (3, 4)]), vec![Split::new(0, 9, &[(0, 3), (5, 4)])]),
        job(packed, vec![Split::new(0, 4, &[(0, 4)])]),
        job(segment(7, 6), vec![Split::new(0, 2, &[(0, 2)]), Split::new(2, 6, &[(0, 4)])]),
        four_rows(vec![]),
        four_rows(vec![Split::new(0, 4, &[])]),
        four_rows(vec![Split::new(0, 4, &[(0, 2), (2, 1)])]),
        four_rows(vec![Split::new(0, 4, &[(0, 2), (3, 1)])]),
        Vec::new(),
        four_rows(vec![Split::new(0, 4, &[(0, 4)])]),
    ]
}

/// C10 delivers its read twice.
const TWICE: [Wish; 5] =
    [Wish::Exactly(Call::Step), Wish::Exactly(Call::Step), Wish::Serve(0), Wish::Serve(0), Wish::Exactly(Call::Step)];

pub fn talks<A: Side, B: Side>() -> Vec<(Subject, Talk)> {
    let subjects = jobs().map(Subject::new).into_iter().enumerate();
    let talks = subjects.map(|(number, subject)| {
        let talk = match number {
            9 => talk::<A, B>(&subject, &mut Listed::new(&TWICE)),
            _ => talk::<A, B>(&subject, &mut Prompt),
        };
        (subject, talk)
    });
    talks.collect()
}

#[cfg(test)]
mod tests {
    use super::*;
    use crate::answer::Answer;
    use crate::rust::RustSide;

    fn lines(answers: &[Answer]) -> String {
        answers.iter().map(|answer| format!("{answer}; ")).collect()
    }

    #[test]
    fn the_answers_are_those_of_the_documents() {
        let answers: Vec<String> = talks::<RustSide, RustSide>().iter().map(|(_, talk)| lines(&talk.first.answers)).collect();
        let due = [
            "open; read 0 2; read 1 1; wait; wait; out 0 3 1:0; out 0 2 2:0; done; ",
            "open; read 0 3; read 1 1; wait; wait; out 0 3 1:0; out 0 4 3:0; done; ",
            "open; read 0 1; read 1 3; read 2 2; wait; wait; wait; out 0 1 1:0 2:0; out 0 3 1:1 3:0; done; ",
            "open; read 0 7; wait; out 0 2 7:0; out 1 4 7:2; done; ",
            "open; done; ",
            "open; done; ",
            "open; read 0 1; wait; out 0 3 1:0; done; ",
            "open; read 0 1; wait; out 0 2 1:0; out 0 1 1:3; done; ",
            "no 2; ",
            "open; read 0 1; wait; out 0 4 1:0; no 10; done; ",
        ];
        assert_eq!(answers, due);
    }
}
