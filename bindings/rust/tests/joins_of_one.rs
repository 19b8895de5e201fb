//! Concats and packs of one child: each is read, checked and counted to the 24 nodes, but stands for
//! its child and makes no pipeline. The state has labels for it: each stored node's number in job
//! order.

mod common;

use common::session::{answers, serve, served, shown, Call};
use common::{job, Record, LABELS};
use ritsghule::{lent, Refusal, Scan};
use Call::{Deliver, Step};

const MOST_NODES: usize = 24;

const SLOT: Record = ("SC", &[1]);
const BAG: Record = ("SG", &[1, 4]);
const OTHER_BAG: Record = ("SG", &[2, 4]);
const CONCAT_OF_ONE: Record = ("CC", &[1]);
const PACK_OF_ONE: Record = ("PK", &[1]);
const CONCAT_OF_TWO: Record = ("CC", &[2]);
const PACK_OF_TWO: Record = ("PK", &[2]);

const ABOVE_A_LEAF: &[Record] = &[
    SLOT,
    BAG,
    OTHER_BAG,
    CONCAT_OF_ONE,
    CONCAT_OF_TWO,
    ("SP", &[0, 8, 1, 0, 8]),
];
const ALONE: &[Record] = &[
    SLOT,
    BAG,
    CONCAT_OF_ONE,
    PACK_OF_ONE,
    ("SP", &[0, 4, 1, 0, 4]),
];
const BESIDE_A_CONCAT: &[Record] = &[
    SLOT,
    ("SG", &[1, 1]),
    CONCAT_OF_ONE,
    PACK_OF_ONE,
    ("SG", &[2, 1]),
    ("SG", &[3, 1]),
    CONCAT_OF_TWO,
    CONCAT_OF_TWO,
    ("SP", &[0, 3, 1, 0, 3]),
];
const AT_THE_ROOT: &[Record] = &[
    SLOT,
    BAG,
    PACK_OF_ONE,
    OTHER_BAG,
    CONCAT_OF_TWO,
    CONCAT_OF_ONE,
    PACK_OF_ONE,
    ("SP", &[0, 8, 2, 1, 2, 5, 3]),
];
const IN_COLUMNS: &[Record] = &[
    ("SC", &[2]),
    BAG,
    CONCAT_OF_ONE,
    ("SG", &[2, 1]),
    PACK_OF_ONE,
    ("SG", &[3, 3]),
    CONCAT_OF_TWO,
    CONCAT_OF_ONE,
    PACK_OF_TWO,
    PACK_OF_ONE,
    ("SP", &[0, 4, 2, 0, 2, 3, 1]),
    ("SP", &[2, 4, 1, 0, 2]),
];
const ONE_BAG_IN_BOTH_COLUMNS: &[Record] = &[
    ("SC", &[3]),
    BAG,
    CONCAT_OF_ONE,
    OTHER_BAG,
    CONCAT_OF_TWO,
    OTHER_BAG,
    PACK_OF_ONE,
    PACK_OF_ONE,
    BAG,
    CONCAT_OF_TWO,
    PACK_OF_TWO,
    ("SP", &[0, 8, 1, 0, 8]),
    ("SP", &[2, 6, 2, 0, 1, 2, 2]),
    ("SP", &[4, 8, 1, 1, 2]),
    ("SP", &[0, 8, 0]),
];
const JOBS: [&[Record]; 6] = [
    ABOVE_A_LEAF,
    ALONE,
    BESIDE_A_CONCAT,
    AT_THE_ROOT,
    IN_COLUMNS,
    ONE_BAG_IN_BOTH_COLUMNS,
];

fn is_join_of_one(record: &Record) -> bool {
    matches!(record, ("CC" | "PK", [1]))
}

fn without_joins_of_one<'a>(records: &[Record<'a>]) -> Vec<Record<'a>> {
    let stay = records.iter().filter(|record| !is_join_of_one(record));
    stay.copied().collect()
}

/// A bag of one row under so many joins of one child.
fn under_joins_of_one(join: Record<'static>, count: usize) -> Vec<Record<'static>> {
    [&[SLOT, ("SG", &[1, 1])][..], &vec![join; count]].concat()
}

/// The state that opening leaves where all bytes were the same before.
fn opened_on(byte: u8, records: &[Record]) -> Vec<u8> {
    let mut state = vec![byte; lent::state_len()];
    lent::open(&job(records), &mut state).expect("an accepted job");
    state
}

fn refused(records: &[Record]) -> u8 {
    Scan::open(&job(records)).map_or_else(Refusal::number, |_| 0)
}

/// With the join as a pipeline the upper bag would be asked for first.
#[test]
fn above_a_leaf_it_makes_no_pipeline() {
    assert_eq!(
        answers(ABOVE_A_LEAF, &[Step, Step, Step]),
        ["read 0 2", "read 1 1", "wait"]
    );
}

#[test]
fn at_the_root_and_in_a_row_they_make_none() {
    assert_eq!(
        answers(ALONE, &[Step, Step, Deliver(0, 4), Step]),
        ["read 0 1", "wait", "out 0 4 1:0", "done"]
    );
}

/// With either of the two joins as a pipeline the reads would be of 3, 2 and 1.
#[test]
fn beside_a_concat_they_make_none() {
    assert_eq!(
        answers(BESIDE_A_CONCAT, &[Step, Step, Step, Step]),
        ["read 0 1", "read 1 3", "read 2 2", "wait"]
    );
}

#[test]
fn they_count_to_the_24_nodes() {
    for join in [CONCAT_OF_ONE, PACK_OF_ONE] {
        let mut most = under_joins_of_one(join, 23);
        most.push(("SP", &[0, 1, 1, 0, 1]));
        assert_eq!(served(&most), ["read 0 1", "wait", "out 0 1 1:0", "done"]);
        assert_eq!(refused(&under_joins_of_one(join, 24)), 3);

        let mut bags = vec![BAG; 22];
        bags.insert(0, SLOT);
        bags.extend([("CC", &[22][..]), join]);
        assert_eq!(refused(&bags), 0);
        bags.push(join);
        assert_eq!(refused(&bags), 3);
    }
    let mut a_bag_too_many = under_joins_of_one(CONCAT_OF_ONE, 23);
    a_bag_too_many.push(BAG);
    assert_eq!(refused(&a_bag_too_many), 3);
}

#[test]
fn they_are_checked_as_any_join() {
    let most = u32::MAX;
    let cases: [(u8, &[Record]); 12] = [
        (2, &[CONCAT_OF_ONE]),
        (2, &[SLOT, BAG, ("SP", &[0, 4, 0]), CONCAT_OF_ONE]),
        (2, &[SLOT, BAG, ("CC", &[])]),
        (4, &[SLOT, CONCAT_OF_ONE]),
        (4, &[SLOT, PACK_OF_ONE]),
        (4, &[SLOT, BAG, OTHER_BAG, CONCAT_OF_ONE]),
        (4, &[SLOT, BAG, CONCAT_OF_ONE, PACK_OF_ONE, CONCAT_OF_TWO]),
        (
            5,
            &[SLOT, BAG, BAG, PACK_OF_TWO, PACK_OF_ONE, BAG, CONCAT_OF_TWO],
        ),
        (5, &[SLOT, BAG, CONCAT_OF_ONE, ("SG", &[2, 3]), PACK_OF_TWO]),
        (6, &[SLOT, BAG, CONCAT_OF_ONE, ("SG", &[1, 5])]),
        (
            7,
            &[SLOT, BAG, ("SG", &[2, most]), CONCAT_OF_ONE, CONCAT_OF_TWO],
        ),
        (8, &[SLOT, BAG, CONCAT_OF_ONE, ("SP", &[0, 5, 0])]),
    ];
    for (due, records) in cases {
        assert_eq!(refused(records), due, "{records:?}");
    }
}

/// What opening leaves, then each turn with what it leaves.
fn turns_and_states(records: &[Record]) -> Vec<(String, Vec<u8>)> {
    let mut told = vec![("open".to_string(), opened_on(0, records))];
    serve(records, |turn, state| {
        told.push((shown(turn), state.to_vec()));
    });
    told
}

#[test]
fn jobs_that_differ_only_in_them_differ_only_in_the_labels() {
    for records in JOBS {
        let joined = turns_and_states(records);
        let plain = turns_and_states(&without_joins_of_one(records));
        assert_eq!(joined.len(), plain.len(), "{records:?}");
        for ((turn, state), (plain_turn, plain_state)) in joined.iter().zip(&plain) {
            assert_eq!(turn, plain_turn, "{records:?}");
            let same = state[..LABELS.start] == plain_state[..LABELS.start];
            assert!(same, "the state after {turn} of {records:?}");
        }
        for told in [joined, plain] {
            let opened = &told[0].1[LABELS];
            let stay = told.iter().all(|(_, state)| state[LABELS] == *opened);
            assert!(stay, "a call changed the labels of {records:?}");
        }
    }
}

/// The labels that opening leaves, over whatever stood there.
fn labels(records: &[Record]) -> Vec<u8> {
    let labels = opened_on(0, records)[LABELS].to_vec();
    assert_eq!(opened_on(0xA5, records)[LABELS], labels);
    labels
}

/// As many labels as there are nodes, then zeros.
fn padded(numbers: &[u8]) -> Vec<u8> {
    let mut labels = numbers.to_vec();
    labels.resize(MOST_NODES, 0);
    labels
}

#[test]
fn the_labels_are_numbers_in_job_order() {
    assert_eq!(labels(&[SLOT, BAG]), padded(&[0]));
    assert_eq!(labels(ALONE), padded(&[0]));
    assert_eq!(labels(ABOVE_A_LEAF), padded(&[0, 1, 3]));
    assert_eq!(labels(BESIDE_A_CONCAT), padded(&[0, 3, 4, 5, 6]));
    assert_eq!(labels(AT_THE_ROOT), padded(&[0, 2, 3]));
    assert_eq!(labels(IN_COLUMNS), padded(&[0, 2, 4, 5, 7]));
    assert_eq!(
        labels(ONE_BAG_IN_BOTH_COLUMNS),
        padded(&[0, 2, 3, 4, 7, 8, 9])
    );

    let mut last_two = under_joins_of_one(CONCAT_OF_ONE, 21);
    last_two.extend([OTHER_BAG, CONCAT_OF_TWO]);
    assert_eq!(labels(&last_two), padded(&[0, 22, 23]));
    let bags = [&[SLOT][..], &[BAG; 23], &[("CC", &[23])]].concat();
    assert_eq!(labels(&bags), (0..24).collect::<Vec<u8>>());
}

#[test]
fn without_joins_of_one_the_labels_are_the_places() {
    for records in JOBS {
        let plain = without_joins_of_one(records);
        let nodes = plain
            .iter()
            .filter(|(mark, _)| !["SC", "SP"].contains(mark));
        let places: Vec<u8> = (0..nodes.count() as u8).collect();
        assert_eq!(labels(&plain), padded(&places), "{plain:?}");
    }
}

#[test]
fn a_refused_opening_leaves_the_labels() {
    let mut state = opened_on(0, ABOVE_A_LEAF);
    let before = state.clone();
    for records in [&under_joins_of_one(CONCAT_OF_ONE, 24)[..], &[SLOT]] {
        assert!(lent::open(&job(records), &mut state).is_err());
        assert!(state == before, "{records:?}");
    }
}
