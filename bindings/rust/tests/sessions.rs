//! Whole sessions, with the answers that documents 01 and 02 give.

mod common;

use common::session::{answers, served, shown, Call};
use common::{c1, Record, ONE_BAG};
use ritsghule::{lent, Column, Output, Scan, Turn};
use Call::{Deliver, Step};

fn output(turn: Turn) -> Output {
    match turn {
        Turn::Output(output) => output,
        other => panic!("an output was due, not {other:?}"),
    }
}

#[test]
fn c1_whole() {
    let mut scan = Scan::open(&c1()).unwrap();
    assert_eq!(
        scan.step(),
        Ok(Turn::Read {
            read: 0,
            segment: 2
        })
    );
    assert_eq!(
        scan.step(),
        Ok(Turn::Read {
            read: 1,
            segment: 1
        })
    );
    assert_eq!(scan.step(), Ok(Turn::Waiting));
    assert_eq!(scan.deliver(0, 2), Ok(Turn::Waiting));
    let first = output(scan.deliver(1, 3).unwrap());
    assert_eq!(
        (first.split, first.rows, first.columns()),
        (
            0,
            3,
            &[Column {
                segment: 1,
                first: 0
            }][..]
        )
    );
    let second = output(scan.step().unwrap());
    assert_eq!(
        (second.split, second.rows, second.columns()),
        (
            0,
            2,
            &[Column {
                segment: 2,
                first: 0
            }][..]
        )
    );
    assert_eq!(scan.step(), Ok(Turn::Done));
}

#[test]
fn c1_on_a_lent_state() {
    let mut state = vec![0xA5; lent::state_len()];
    lent::open(&c1(), &mut state).unwrap();
    let turns = [
        lent::step(&mut state),
        lent::step(&mut state),
        lent::step(&mut state),
        lent::deliver(&mut state, 0, 2),
        lent::deliver(&mut state, 1, 3),
        lent::step(&mut state),
        lent::step(&mut state),
    ];
    assert_eq!(
        turns.map(|turn| shown(turn.unwrap())),
        [
            "read 0 2",
            "read 1 1",
            "wait",
            "wait",
            "out 0 3 1:0",
            "out 0 2 2:0",
            "done"
        ]
    );
}

#[test]
fn c2_leaves_a_segment_out() {
    let lines = served(&[
        ("SC", &[1]),
        ("SG", &[1, 3]),
        ("SG", &[2, 2]),
        ("SG", &[3, 4]),
        ("CC", &[3]),
        ("SP", &[0, 9, 2, 0, 3, 5, 4]),
    ]);
    assert_eq!(
        lines,
        [
            "read 0 3",
            "read 1 1",
            "wait",
            "wait",
            "out 0 3 1:0",
            "out 0 4 3:0",
            "done"
        ]
    );
}

#[test]
fn c3_has_two_columns() {
    let lines = served(&[
        ("SC", &[1]),
        ("SG", &[1, 4]),
        ("SG", &[2, 1]),
        ("SG", &[3, 3]),
        ("CC", &[2]),
        ("PK", &[2]),
        ("SP", &[0, 4, 1, 0, 4]),
    ]);
    assert_eq!(
        lines,
        [
            "read 0 1",
            "read 1 3",
            "read 2 2",
            "wait",
            "wait",
            "wait",
            "out 0 1 1:0 2:0",
            "out 0 3 1:1 3:0",
            "done"
        ]
    );
}

#[test]
fn c4_reads_a_shared_segment_once() {
    let lines = served(&[
        ("SC", &[1]),
        ("SG", &[7, 6]),
        ("SP", &[0, 2, 1, 0, 2]),
        ("SP", &[2, 6, 1, 0, 4]),
    ]);
    assert_eq!(
        lines,
        ["read 0 7", "wait", "out 0 2 7:0", "out 1 4 7:2", "done"]
    );
}

#[test]
fn c5_has_no_split() {
    assert_eq!(served(&[("SC", &[1]), ("SG", &[1, 4])]), ["done"]);
}

/// One bag of four rows in one split.
fn served_of_four(split: &[u32]) -> Vec<String> {
    served(&[("SC", &[1]), ("SG", &[1, 4]), ("SP", split)])
}

#[test]
fn c7_joins_runs_that_meet() {
    assert_eq!(
        served_of_four(&[0, 4, 2, 0, 2, 2, 1]),
        ["read 0 1", "wait", "out 0 3 1:0", "done"]
    );
    assert_eq!(
        served_of_four(&[0, 4, 3, 0, 1, 1, 1, 2, 2]),
        ["read 0 1", "wait", "out 0 4 1:0", "done"]
    );
}

#[test]
fn c8_keeps_runs_apart() {
    assert_eq!(
        served_of_four(&[0, 4, 2, 0, 2, 3, 1]),
        ["read 0 1", "wait", "out 0 2 1:0", "out 0 1 1:3", "done"]
    );
}

#[test]
fn joined_runs_are_a_batch_of_each_bag() {
    let lines = served(&[
        ("SC", &[1]),
        ("SG", &[1, 2]),
        ("SG", &[2, 3]),
        ("CC", &[2]),
        ("SP", &[0, 5, 4, 0, 1, 1, 1, 2, 1, 3, 1]),
    ]);
    assert_eq!(
        lines,
        [
            "read 0 2",
            "read 1 1",
            "wait",
            "wait",
            "out 0 2 1:0",
            "out 0 2 2:0",
            "done"
        ]
    );
}

#[test]
fn sixteen_runs_that_meet_are_one() {
    let mut split = vec![0, 40, 16];
    split.extend((0..16).flat_map(|row| [row, 1]));
    assert_eq!(
        served(&[("SC", &[1]), ("SG", &[1, 40]), ("SP", &split)]),
        ["read 0 1", "wait", "out 0 16 1:0", "done"]
    );
}

#[test]
fn c10_refuses_a_read_delivered_twice() {
    assert_eq!(
        answers(ONE_BAG, &[Step, Step, Deliver(0, 4), Deliver(0, 4), Step]),
        ["read 0 1", "wait", "out 0 4 1:0", "no 10", "done"]
    );
}

#[test]
fn a_refused_delivery_takes_no_step() {
    assert_eq!(
        answers(
            ONE_BAG,
            &[Deliver(0, 4), Step, Deliver(0, 5), Deliver(0, 4), Step]
        ),
        ["no 10", "read 0 1", "no 11", "out 0 4 1:0", "done"]
    );
}

/// Before a Waiting too: the first of these tells the next read.
#[test]
fn an_accepted_delivery_answers_the_turn_of_its_step() {
    let three_bags: &[Record] = &[
        ("SC", &[1]),
        ("SG", &[1, 3]),
        ("SG", &[2, 2]),
        ("SG", &[3, 4]),
        ("CC", &[3]),
        ("SP", &[0, 9, 1, 0, 9]),
    ];
    let calls = [
        Step,
        Deliver(0, 4),
        Step,
        Deliver(2, 3),
        Deliver(1, 2),
        Step,
        Step,
    ];
    assert_eq!(
        answers(three_bags, &calls),
        [
            "read 0 3",
            "read 1 2",
            "read 2 1",
            "out 0 3 1:0",
            "out 0 2 2:0",
            "out 0 4 3:0",
            "done"
        ]
    );
}

/// A bag of so many rows above one of a single row, in two slots: split 0 keeps the lower bag,
/// split 1 all but one row. The answers from the lower bag's delivery on.
fn lower_bag_last(rows: u32) -> Vec<String> {
    let records: &[Record] = &[
        ("SC", &[2]),
        ("SG", &[1, rows]),
        ("SG", &[2, 1]),
        ("CC", &[2]),
        ("SP", &[rows, rows + 1, 1, 0, 1]),
        ("SP", &[0, rows + 1, 2, 0, rows - 2, rows - 1, 2]),
    ];
    let calls = [
        Step,
        Step,
        Deliver(0, rows),
        Step,
        Deliver(1, 1),
        Step,
        Step,
    ];
    answers(records, &calls).split_off(4)
}

/// With 65,536 rows split 1's ports are full: its last row comes behind split 0's.
#[test]
fn a_port_of_65_536_rows_is_full() {
    let room = ["out 1 1 2:0", "out 0 1 2:0", "done"];
    let full = ["out 0 1 2:0", "out 1 1 2:0", "done"];
    assert_eq!(lower_bag_last(65_536), room);
    assert_eq!(lower_bag_last(65_537), full);
}

/// A pack takes one row of 65,536, and the writer of that port goes on.
#[test]
fn a_part_taken_wakes_the_writer() {
    let records: &[Record] = &[
        ("SC", &[2]),
        ("SG", &[1, 1]),
        ("SG", &[2, 65_537]),
        ("CC", &[2]),
        ("SG", &[3, 65_538]),
        ("PK", &[2]),
        ("SP", &[1, 2, 1, 0, 1]),
        ("SP", &[0, 65_538, 2, 0, 65_536, 65_537, 1]),
    ];
    let calls = [
        Step,
        Step,
        Deliver(1, 65_538),
        Deliver(0, 1),
        Deliver(2, 65_537),
        Step,
        Step,
        Step,
    ];
    assert_eq!(
        answers(records, &calls),
        [
            "read 0 1",
            "read 1 3",
            "read 2 2",
            "out 1 1 1:0 3:0",
            "out 1 65535 2:0 3:1",
            "out 0 1 2:0 3:1",
            "out 1 1 2:65536 3:65537",
            "done"
        ]
    );
}
