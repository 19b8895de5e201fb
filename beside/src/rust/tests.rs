//! Which refusal comes first, and what is left after one; what becomes of runs that meet, and of joins of one child.

use vortex_layout::VortexError;
use vortex_layout::plan::physical::{PlanRef, SegmentScan};

use super::{RustSide, job};
use crate::callers::Prompt;
use crate::records::{self, CONCAT, PACK, Record, SEGMENT, SLOTS, SPLIT};
use crate::side::{Refusal, Side, Turn};
use crate::talk::{Subject, talk};

fn slots(slots: u32) -> Record {
    Record::new(SLOTS, &[slots])
}

fn segment(segment: u32, rows: u32) -> Record {
    Record::new(SEGMENT, &[segment, rows])
}

fn concat(children: u32) -> Record {
    Record::new(CONCAT, &[children])
}

fn pack(children: u32) -> Record {
    Record::new(PACK, &[children])
}

/// A split with its runs, or with what of them is there.
fn split(start: u32, end: u32, count: u32, runs: &[u32]) -> Record {
    Record::new(SPLIT, &[&[start, end, count], runs].concat())
}

#[track_caller]
fn expect(refusal: Option<u8>, records: &[Record]) {
    assert_eq!(RustSide::open(&records::bytes_of(records)).err(), refusal.map(Refusal::from));
}

/// The refusal of a split of a segment of 4 rows, with the run at fault.
#[track_caller]
fn expect_run(number: u8, index: u32, start: u32, end: u32, runs: &[u32]) {
    let records = after_segments(1, &[split(start, end, runs.len() as u32 / 2, runs)]);
    let refusal = RustSide::open(&records::bytes_of(&records)).err();
    assert_eq!(refusal, Some(Refusal { number, run: Some(index) }), "{runs:?}");
}

/// Slots, then so many equal segments, then the rest.
fn after_segments(count: usize, rest: &[Record]) -> Vec<Record> {
    [&[slots(1)][..], &vec![segment(1, 4); count], rest].concat()
}

#[test]
fn records_in_sequence() {
    expect(Some(2), &[]);
    expect(Some(2), &[segment(1, 4)]);
    expect(Some(2), &[slots(1), slots(1)]);
    expect(Some(2), &after_segments(1, &[split(0, 4, 0, &[]), segment(1, 4)]));
    expect(Some(3), &[slots(1)]);
    expect(Some(3), &[slots(1), split(0, 0, 0, &[])]);
    expect(None, &after_segments(1, &[]));
}

#[test]
fn limits() {
    for (count, refusal) in [(0, Some(3)), (1, None), (3, None), (4, Some(3))] {
        expect(refusal, &[slots(count), segment(1, 4)]);
    }
    expect(None, &after_segments(23, &[concat(23)]));
    expect(Some(3), &after_segments(24, &[concat(24)]));
    expect(None, &after_segments(4, &[pack(4)]));
    expect(Some(3), &after_segments(5, &[pack(5)]));
    expect(None, &after_segments(1, &vec![split(0, 4, 0, &[]); 16]));
    expect(Some(3), &after_segments(1, &vec![split(0, 4, 0, &[]); 17]));
}

#[test]
fn runs_are_all_there_before_they_are_counted() {
    // Those that meet, too: they are counted as they are written.
    for apart in [1, 2] {
        let runs: Vec<u32> = (0..17).flat_map(|run| [apart * run, 1]).collect();
        expect(None, &[slots(1), segment(1, 40), split(0, 40, 16, &runs[..32])]);
        expect(Some(3), &[slots(1), segment(1, 40), split(0, 40, 17, &runs)]);
        expect(Some(2), &[slots(1), segment(1, 40), split(0, 40, 17, &runs[..33])]);
    }
    expect(Some(2), &[slots(1), segment(1, 40), split(0, 40, u32::MAX, &[])]);
}

#[test]
fn the_tree() {
    expect(Some(4), &after_segments(1, &[concat(0)]));
    expect(Some(4), &after_segments(4, &[pack(5)]));
    expect(Some(4), &after_segments(2, &[]));
    expect(Some(4), &after_segments(2, &[split(9, 1, 0, &[])]));
    expect(Some(5), &after_segments(1, &[segment(2, 5), pack(2)]));
    expect(Some(5), &after_segments(2, &[pack(2), segment(2, 4), concat(2)]));
    expect(Some(6), &after_segments(1, &[segment(1, 5)]));
    expect(Some(7), &[slots(1), segment(1, u32::MAX), segment(2, 1), concat(2)]);
    expect(None, &[slots(1), segment(1, u32::MAX), segment(2, 0), concat(2)]);
}

#[test]
fn splits_and_runs() {
    expect(Some(8), &after_segments(1, &[split(3, 2, 0, &[])]));
    expect(Some(8), &after_segments(1, &[split(0, 5, 0, &[])]));
    expect(None, &after_segments(1, &[split(4, 4, 0, &[])]));
    expect(Some(8), &after_segments(1, &[split(0, 5, 1, &[0, 0])]));
    expect_run(17, 0, 0, 4, &[0, 0]);
    expect_run(17, 0, 0, 4, &[9, 0]);
    expect_run(17, 1, 0, 4, &[0, 2, 1, 0]);
    expect_run(18, 1, 0, 4, &[0, 2, 1, 9]);
    expect_run(19, 0, 2, 4, &[2, 1]);
    expect_run(19, 0, 0, 4, &[u32::MAX, 2]);
    expect_run(19, 0, 0, 4, &[0, 9, 1, 0]);
    expect(None, &after_segments(1, &[split(0, 4, 2, &[0, 2, 3, 1])]));
}

#[test]
fn runs_that_meet_and_their_neighbours() {
    expect(None, &after_segments(1, &[split(0, 4, 2, &[0, 2, 2, 1])]));
    expect(None, &after_segments(1, &[split(0, 4, 3, &[0, 1, 1, 1, 2, 2])]));
    expect_run(17, 1, 0, 4, &[0, 2, 2, 0]);
    expect_run(17, 2, 0, 4, &[0, 1, 1, 1, 2, 0]);
    expect_run(18, 1, 0, 4, &[0, 2, 1, 1]);
    expect_run(18, 1, 0, 4, &[2, 1, 0, 2]);
    expect_run(18, 2, 0, 4, &[0, 2, 2, 1, 2, 1]);
    expect_run(19, 1, 0, 4, &[0, 2, 2, 3]);
    expect_run(19, 2, 0, 4, &[0, 2, 2, 1, 3, 2]);
}

/// What is answered where reads are served promptly, as `turns` prints it.
fn answers(records: &[Record]) -> Vec<String> {
    let talk = talk::<RustSide, RustSide>(&Subject::new(records::bytes_of(records)), &mut Prompt);
    talk.first.answers.iter().map(ToString::to_string).collect()
}

/// What is put out.
fn outputs(records: &[Record]) -> Vec<String> {
    answers(records).into_iter().filter(|line| line.starts_with("out")).collect()
}

#[test]
fn runs_that_meet_are_one_batch_of_a_segment() {
    let three_in_a_row = split(0, 8, 4, &[1, 1, 2, 2, 4, 1, 6, 1]);
    assert_eq!(outputs(&[slots(1), segment(1, 8), three_in_a_row.clone()]), ["out 0 4 1:1", "out 0 1 1:6"]);
    let shared = vec![three_in_a_row; 2];
    let of_both = ["out 0 4 1:1", "out 0 1 1:6", "out 1 4 1:1", "out 1 1 1:6"];
    assert_eq!(outputs(&[&[slots(1), segment(1, 8)][..], &shared].concat()), of_both);
    let at_the_border = [slots(1), segment(1, 3), segment(2, 3), concat(2), split(0, 6, 2, &[1, 2, 3, 2])];
    assert_eq!(outputs(&at_the_border), ["out 0 2 1:1", "out 0 2 2:0"]);
}

/// The plan that the Rust is given for these nodes, as `concat(1, pack(2, 3))`.
fn given(nodes: &[Record]) -> String {
    let job = job::read(&records::bytes_of(&[&[slots(1)][..], nodes].concat()));
    in_words(&job.expect("a job that opens").plan)
}

fn in_words(plan: &PlanRef) -> String {
    if let Some(leaf) = plan.as_opt::<SegmentScan>() {
        return (*leaf.segment_id()).to_string();
    }
    let children: Vec<String> = plan.children().iter().map(|child| in_words(&child.expect("a child"))).collect();
    format!("{}({})", plan.id().to_string().replace("vortex.plan.", ""), children.join(", "))
}

#[test]
fn joins_of_several_are_given() {
    let [one, two, three] = [1, 2, 3].map(|name| segment(name, 4));
    assert_eq!(given(&[segment(1, 4)]), "1");
    assert_eq!(given(&[one.clone(), two.clone(), concat(2)]), "concat(1, 2)");
    assert_eq!(given(&[one.clone(), one.clone(), pack(2)]), "pack(1, 1)");
    assert_eq!(
        given(&[one.clone(), two.clone(), pack(2), three.clone(), one.clone(), pack(2), concat(2)]),
        "concat(pack(1, 2), pack(3, 1))"
    );
    assert_eq!(given(&[one.clone(), segment(4, 2), segment(5, 2), concat(2), pack(2)]), "pack(1, concat(4, 5))");
    // A child without rows is one of several.
    assert_eq!(given(&[one, segment(4, 0), concat(2)]), "concat(1, 4)");
}

#[test]
fn a_join_of_one_child_stands_for_it() {
    let [one, two, three] = [1, 2, 3].map(|name| segment(name, 4));
    for lone in [concat(1), pack(1)] {
        let lone = || lone.clone();
        assert_eq!(given(&[one.clone(), lone()]), "1");
        assert_eq!(given(&[one.clone(), two.clone(), concat(2), lone()]), "concat(1, 2)");
        assert_eq!(given(&[one.clone(), two.clone(), pack(2), lone()]), "pack(1, 2)");
        assert_eq!(given(&[one.clone(), lone(), two.clone(), concat(2)]), "concat(1, 2)");
        assert_eq!(given(&[one.clone(), two.clone(), lone(), pack(2)]), "pack(1, 2)");
        assert_eq!(given(&[one.clone(), lone(), one.clone(), lone(), concat(2)]), "concat(1, 1)");
        let beside_a_join = [one.clone(), lone(), two.clone(), three.clone(), concat(2), concat(2)];
        assert_eq!(given(&beside_a_join), "concat(1, concat(2, 3))");
        let over_a_join = [one.clone(), two.clone(), three.clone(), concat(2), lone(), concat(2), lone()];
        assert_eq!(given(&over_a_join), "concat(1, concat(2, 3))");
    }
}

#[test]
fn joins_of_one_child_in_a_row_stand_for_the_innermost() {
    let [one, two, three] = [1, 2, 3].map(|name| segment(name, 4));
    assert_eq!(given(&[one.clone(), concat(1), pack(1)]), "1");
    assert_eq!(given(&[one.clone(), pack(1), concat(1), concat(1), pack(1)]), "1");
    assert_eq!(given(&[one.clone(), two.clone(), concat(1), pack(1), concat(2), pack(1), concat(1)]), "concat(1, 2)");
    assert_eq!(given(&[one, two, concat(1), concat(1), pack(2), three, pack(1), concat(1), pack(2)]), "pack(pack(1, 2), 3)");
}

#[test]
fn joins_of_one_child_are_checked_as_they_are_written() {
    let lone = |count| vec![concat(1); count];
    expect(None, &after_segments(1, &lone(23)));
    expect(Some(3), &after_segments(1, &lone(24)));
    expect(None, &after_segments(21, &[concat(21), pack(1), concat(1)]));
    expect(Some(3), &after_segments(22, &[concat(22), pack(1), concat(1)]));
    expect(Some(4), &after_segments(0, &[concat(1)]));
    expect(Some(4), &after_segments(2, &[pack(1)]));
    expect(Some(4), &after_segments(1, &[concat(1), concat(2)]));
    expect(Some(5), &after_segments(1, &[segment(2, 5), concat(1), pack(2)]));
    expect(Some(5), &after_segments(2, &[pack(2), pack(1), segment(2, 4), concat(2)]));
    expect(Some(3), &after_segments(4, &[pack(4), concat(1), segment(2, 4), pack(1), pack(2)]));
    expect(Some(7), &[slots(1), segment(1, u32::MAX), concat(1), segment(2, 1), concat(2)]);
    expect(Some(8), &after_segments(1, &[pack(1), split(0, 5, 0, &[])]));
    expect(Some(2), &after_segments(1, &[split(0, 4, 0, &[]), concat(1)]));
}

#[test]
fn a_join_of_one_child_makes_no_pipeline() {
    let whole = split(0, 8, 1, &[0, 8]);
    let below = [slots(1), segment(1, 4), segment(2, 4), concat(1), concat(2), whole];
    let due = ["open", "read 0 2", "read 1 1", "wait", "wait", "out 0 4 1:0", "out 0 4 2:0", "done"];
    assert_eq!(answers(&below), due);
    let in_a_row = [slots(1), segment(1, 4), concat(1), pack(1), split(0, 4, 1, &[0, 4])];
    assert_eq!(answers(&in_a_row), ["open", "read 0 1", "wait", "out 0 4 1:0", "done"]);
}

#[test]
fn a_concat_of_which_one_child_is_left_is_joined_all_the_same() {
    let beside = |field: &[Record]| {
        let end = [pack(2), split(0, 4, 1, &[0, 4])];
        answers(&[&[slots(1), segment(1, 4)][..], field, &end].concat())[1..3].to_vec()
    };
    let of_one = [segment(3, 4), concat(1)];
    let of_two = [segment(2, 0), segment(3, 4), concat(2)];
    assert_eq!(beside(&of_one), ["read 0 3", "read 1 1"]);
    assert_eq!(beside(&of_two), ["read 0 1", "read 1 3"]);
}

#[test]
fn a_refused_delivery_changes_nothing() {
    let job = records::bytes_of(&after_segments(1, &[split(0, 4, 1, &[0, 4])]));
    let mut side = RustSide::open(&job).expect("a job that opens");
    assert_eq!(side.deliver(0, 9), Err(10));
    assert_eq!(side.step(), Ok(Turn::Read { read: 0, segment: 1 }));
    assert_eq!(side.deliver(0, 9), Err(11));
    assert_eq!(side.deliver(0, 4), Ok(Turn::Output { split: 0, rows: 4, columns: vec![(1, 0)] }));
    assert_eq!(side.deliver(0, 9), Err(10));
    assert_eq!(side.step(), Ok(Turn::Done));
}

#[test]
fn a_scan_that_failed_is_no_scan() {
    let job = records::bytes_of(&after_segments(1, &[]));
    for (message, refusal) in [("Scan is stuck with nothing runnable", 13), ("Pack fields ended", 14)] {
        let mut side = RustSide::open(&job).expect("a job that opens");
        assert_eq!(side.fail(&VortexError::new(message.to_owned())), refusal);
        assert_eq!(side.step(), Err(12));
        assert_eq!(side.deliver(0, 4), Err(12));
    }
}
