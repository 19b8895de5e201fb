//! States that no call left, each made by hand from a scan's own by changing a few bytes: what
//! document 01's table owes for each. docs/STATE.md has the places of the tables.

mod common;

use common::{job, Record, LABELS, ONE_BAG};
use ritsghule::{lent, Refusal, Turn};

/// Where tables begin, and how long their entries are.
const NEWS: usize = 56;
const READY: usize = 82;
const READS: usize = 277;
const READ_LEN: usize = 4;
const OUTPUTS: usize = 373;
const NODES: usize = 679;
const NODE_LEN: usize = 19;
const SPLITS: usize = 1_135;
const RUNS: usize = 9;
const RUN_LEN: usize = 8;
const PIPES: usize = 3_327;
const PIPE_LEN: usize = 5;
const STAGES: usize = 4_191;
const STAGE_LEN: usize = 6;
const INLETS: usize = 4_767;
const INLETS_LEN: usize = 47;
const PORTS: usize = 14_751;
const PORT_LEN: usize = 6;
const RINGS: usize = 17_487;
const BATCHES: usize = 18_015;
const BATCH_LEN: usize = 37;

/// A node's kinds, and the parent of the root.
const SEGMENT: u8 = 0;
const CONCAT: u8 = 1;
const PACK: u8 = 2;
const NONE: u8 = 255;

/// The places of a shared source, by its leaf, and of a shared port, by its leaf and split.
const SHARED_SOURCES: usize = 72;
fn shared_port(leaf: usize, split: usize) -> usize {
    72 + 16 * leaf + split
}

/// Two bags of four rows, everything kept.
const TWO_BAGS: &[Record] = &[
    ("SC", &[1]),
    ("SG", &[1, 4]),
    ("SG", &[2, 4]),
    ("CC", &[2]),
    ("SP", &[0, 8, 1, 0, 8]),
];

/// Two bags of four rows in two splits, so that both are shared; the first split keeps the middle
/// of each.
const SHARED_BAGS: &[Record] = &[
    ("SC", &[1]),
    ("SG", &[1, 4]),
    ("SG", &[2, 4]),
    ("CC", &[2]),
    ("SP", &[0, 8, 2, 1, 2, 5, 2]),
    ("SP", &[0, 8, 1, 0, 8]),
];

/// Two bags, of which the upper one is so long that two batches of it have more rows than 32 bits
/// hold.
const LONG: u32 = 1 << 31;
const LONG_BAGS: &[Record] = &[
    ("SC", &[1]),
    ("SG", &[1, LONG]),
    ("SG", &[2, 1]),
    ("CC", &[2]),
    ("SP", &[0, LONG + 1, 1, 0, LONG + 1]),
];

/// A bag of four rows without its third.
const TWO_RUNS: &[Record] = &[
    ("SC", &[1]),
    ("SG", &[1, 4]),
    ("SP", &[0, 4, 2, 0, 2, 3, 1]),
];

/// The state of a job after so many steps.
fn after(records: &[Record], steps: usize) -> Vec<u8> {
    let mut state = vec![0; lent::state_len()];
    lent::open(&job(records), &mut state).expect("an accepted job");
    for _ in 0..steps {
        let _ = lent::step(&mut state).expect("a step of an accepted job");
    }
    state
}

/// The number that a step on the state is refused by, 0 if it is not.
fn refused(state: &[u8]) -> u8 {
    refused_call(state, lent::step)
}

/// As `refused`, of a delivery with four rows.
fn refused_delivery(state: &[u8], read: u32) -> u8 {
    refused_call(state, |state| lent::deliver(state, read, 4))
}

/// The numbers of a step and of a delivery for read 0.
fn refusals(state: &[u8]) -> (u8, u8) {
    (refused(state), refused_delivery(state, 0))
}

/// The number, with what the call leaves: up to 12 the state as it was, above it zeros.
fn refused_call(state: &[u8], call: impl FnOnce(&mut [u8]) -> Result<Turn, Refusal>) -> u8 {
    let mut left = state.to_vec();
    let number = call(&mut left).map_or_else(Refusal::number, |_| 0);
    match number {
        0 => {}
        1..=12 => assert_eq!(left, state, "{number} changes nothing"),
        _ => assert!(left.iter().all(|&byte| byte == 0), "{number} leaves zeros"),
    }
    number
}

#[test]
fn all_zero_is_12() {
    let state = vec![0; lent::state_len()];
    assert_eq!(refused(&state), 12);
    assert_eq!(refused_delivery(&state, 0), 12);
}

/// Opening joins runs that meet. A second run that is said to start where the first ends, as none
/// that opening stores does, or before that.
#[test]
fn stored_runs_that_meet_are_12() {
    let state = after(TWO_RUNS, 0);
    let start = SPLITS + RUNS + RUN_LEN;
    assert_eq!((state[start], refused(&state)), (3, 0));
    for earlier in [2, 1] {
        let mut met = state.clone();
        met[start] = earlier;
        assert_eq!(refusals(&met), (12, 12), "a second run from row {earlier}");
    }
}

/// A job of one slot and no split, its nodes written by hand: of each the kind, width, parent,
/// segment, rows and root row of row 0.
fn storing(nodes: &[[u8; 6]]) -> Vec<u8> {
    let mut state = after(&[("SC", &[1]), ("SG", &[1, 4])], 0);
    state[1] = nodes.len() as u8;
    for (number, &[kind, width, parent, segment, rows, at]) in nodes.iter().enumerate() {
        let record = &mut state[NODES + number * NODE_LEN..][..NODE_LEN];
        record.fill(0);
        record[..4].copy_from_slice(&[kind, width, parent, segment]);
        record[7] = rows;
        record[11] = at;
        state[LABELS.start + number] = number as u8;
    }
    state
}

/// Opening leaves a join of one child out. One that is stored all the same, at the root and below
/// it; joins of two children, written alike, are just what opening stores.
#[test]
fn a_stored_join_of_one_child_is_12() {
    let first = |parent| [SEGMENT, 1, parent, 1, 4, 0];
    let concat_of_two = storing(&[
        first(2),
        [SEGMENT, 1, 2, 2, 4, 4],
        [CONCAT, 1, NONE, 0, 8, 0],
    ]);
    let pack_of_two = storing(&[first(2), [SEGMENT, 1, 2, 2, 4, 0], [PACK, 2, NONE, 0, 4, 0]]);
    for (mark, state) in [("CC", concat_of_two), ("PK", pack_of_two)] {
        let records: &[Record] = &[("SC", &[1]), ("SG", &[1, 4]), ("SG", &[2, 4]), (mark, &[2])];
        assert!(state == after(records, 0), "{mark} of two");
        assert_eq!(refusals(&state), (0, 10), "{mark} of two");
    }
    assert_eq!(refusals(&storing(&[first(NONE)])), (0, 10));
    for kind in [CONCAT, PACK] {
        let at_the_root = storing(&[first(1), [kind, 1, NONE, 0, 4, 0]]);
        assert_eq!(refusals(&at_the_root), (12, 12), "kind {kind}");
        let below_a_concat = storing(&[
            first(1),
            [kind, 1, 3, 0, 4, 0],
            [SEGMENT, 1, 3, 2, 4, 4],
            [CONCAT, 1, NONE, 0, 8, 0],
        ]);
        assert_eq!(refusals(&below_a_concat), (12, 12), "kind {kind}");
    }
}

/// The labels of three nodes, each said to be any of these numbers: equal ones, falling ones and
/// those from 24 on do not pass.
#[test]
fn labels_that_do_not_rise_below_24_are_12() {
    let state = after(TWO_BAGS, 3);
    assert_eq!(state[LABELS][..3], [0, 1, 2]);
    let numbers = [0, 1, 2, 22, 23, 24, 255];
    let twos = numbers.map(|first| numbers.map(|second| [first, second]));
    let threes = twos
        .concat()
        .into_iter()
        .flat_map(|[first, second]| numbers.map(|third| [first, second, third]));
    for labels in threes {
        let mut state = state.clone();
        state[LABELS][..3].copy_from_slice(&labels);
        let rise = labels[0] < labels[1] && labels[1] < labels[2];
        let due = if rise && labels[2] < 24 { 0 } else { 12 };
        assert_eq!(refusals(&state), (due, due), "{labels:?}");
    }
}

/// What stands behind the label of the last node: it is not looked at, a call leaves it, and 13
/// makes it 0 with the rest.
#[test]
fn behind_the_last_label_stands_anything() {
    let mut state = after(ONE_BAG, 2);
    state[LABELS][1..].fill(255);
    assert_eq!(refusals(&state), (0, 0));
    let mut left = state.clone();
    let _ = lent::deliver(&mut left, 0, 4).expect("the read in flight");
    assert_eq!(left[LABELS], state[LABELS]);
    state[READS + 1] = 0;
    assert_eq!(refused_delivery(&state, 0), 13);
}

/// The upper bag's source is said to have said More, so that it is run and not tested: with nothing
/// delivered, the Rust's source returns an error there. So it does in the step behind a delivery of
/// the lower bag.
#[test]
fn a_source_run_without_its_bytes_is_14() {
    let mut state = after(TWO_BAGS, 3);
    let lower = 0;
    assert_eq!((refused(&state), refused_delivery(&state, lower)), (0, 0));
    state[STAGES + STAGE_LEN - 1] = 1;
    let runnable_and_queued = [1, 0, 0, 1];
    state[PIPES..PIPES + 4].copy_from_slice(&runnable_and_queued);
    state[READY..READY + 2].copy_from_slice(&[1, 0]);
    assert_eq!((refused(&state), refused_delivery(&state, lower)), (14, 14));
}

/// The read has no owner, so that nobody goes on when it comes: the scan waits before the delivery,
/// and is stuck behind it.
#[test]
fn a_delivery_that_nobody_waits_for_is_13() {
    let mut state = after(ONE_BAG, 2);
    assert_eq!(refused_delivery(&state, 0), 0);
    state[READS + 1] = 0;
    assert_eq!(lent::step(&mut state.clone()), Ok(Turn::Waiting));
    assert_eq!(refused_delivery(&state, 0), 13);
}

/// The ports of two claimed leaves, swapped together with their readers.
#[test]
fn a_claimed_port_of_another_segment_is_12() {
    let mut state = after(SHARED_BAGS, 3);
    assert_eq!(refused(&state), 0);
    let (first, second) = (shared_port(0, 0), shared_port(1, 0));
    for byte in 1..3 {
        state.swap(INLETS + byte, INLETS + INLETS_LEN + byte);
    }
    for byte in 3..PORT_LEN {
        state.swap(
            PORTS + first * PORT_LEN + byte,
            PORTS + second * PORT_LEN + byte,
        );
    }
    assert_eq!(refused(&state), 12);
    assert_eq!(refused_delivery(&state, 0), 12);
}

/// A ring's head is one of its places, whether anything is in the ring or not.
#[test]
fn a_head_past_its_ring_is_12() {
    let state = after(ONE_BAG, 2);
    for (head, places) in [(NEWS, 24), (OUTPUTS, 8), (RINGS, 8), (RINGS + 2 * 71, 8)] {
        for (value, number) in [(places - 1, 0), (places, 12), (255, 12)] {
            let mut state = state.clone();
            state[head] = value;
            assert_eq!(refused(&state), number, "head {value} at {head}");
        }
    }
}

/// An output held, of one column.
fn holding(rows: u32, segment: u32, first: u32) -> Vec<u8> {
    let mut state = after(ONE_BAG, 2);
    state[OUTPUTS + 1] = 1;
    let record = OUTPUTS + 2;
    state[record + 1] = 1;
    for (place, number) in [(2, rows), (6, segment), (22, first)] {
        state[record + place..record + place + 4].copy_from_slice(&number.to_le_bytes());
    }
    state
}

#[test]
fn rows_that_no_segment_has_are_12() {
    for (rows, segment, first) in [(100, 999, 0), (1, 999, 0), (5, 1, 0), (4, 1, 1), (1, 1, 4)] {
        let number = refused(&holding(rows, segment, first));
        assert_eq!(number, 12, "{rows} rows from {first} of {segment}");
    }
    for (rows, first) in [(4, 0), (1, 3)] {
        let turn = lent::step(&mut holding(rows, 1, first)).expect("rows of the segment");
        let Turn::Output(output) = turn else {
            panic!("{turn:?} for an output held")
        };
        assert_eq!((output.rows, output.columns()[0].first), (rows, first));
    }
}

/// The source of a shared segment is gone, and its read has no owner: its ports are in order only
/// once they are closed.
#[test]
fn an_open_shared_port_without_its_source_is_12() {
    let mut state = after(SHARED_BAGS, 3);
    let source = PIPES + SHARED_SOURCES * PIPE_LEN;
    assert_eq!(state[source], 1, "the source of the first bag lives");
    state[source] = 0;
    for read in 0..2 {
        let owner = READS + read * READ_LEN + 1;
        if state[owner + 1] == SHARED_SOURCES as u8 {
            state[owner] = 0;
        }
    }
    assert_eq!(refused(&state), 12);
    for split in 0..2 {
        state[PORTS + shared_port(0, split) * PORT_LEN + 1] = 1;
    }
    assert_ne!(refused(&state), 12);
}

/// Both bags are awaited, and so many batches with these rows are said to wait in the upper bag's
/// port. Now that bag comes in. If its port is full its pipeline stops, and the scan waits for the
/// lower bag; else it writes, and the concat is woken and puts out.
fn stops_at_its_outlet(batches: usize, rows: u32) -> bool {
    let mut state = after(LONG_BAGS, 3);
    state[RINGS + 1] = batches as u8;
    for batch in 0..batches {
        let record = &mut state[BATCHES + batch * BATCH_LEN..][..BATCH_LEN];
        record.fill(0);
        record[0] = 1;
        record[1..5].copy_from_slice(&rows.to_le_bytes());
        record[5] = 1;
    }
    match lent::deliver(&mut state, 1, LONG).expect("the upper bag's read") {
        Turn::Waiting => true,
        Turn::Output(output) => {
            assert_eq!(output.rows, rows, "what waited first");
            false
        }
        other => panic!("{other:?}"),
    }
}

/// A port is full at 8 batches or at 65,536 rows, and these are summed exactly, past 32 bits too.
#[test]
fn a_port_is_full_at_so_many_batches_or_rows() {
    let stops = |(batches, rows)| stops_at_its_outlet(batches, rows);
    let room = [(7, 1), (1, 65_535), (2, 32_767), (3, 21_845), (7, 9_362)];
    assert_eq!(room.map(stops), [false; 5]);
    let full = [(8, 1), (1, 65_536), (2, 32_768), (3, 21_846), (7, 9_363)];
    assert_eq!(full.map(stops), [true; 5]);
    assert_eq!(
        [1, 2, 4, 6].map(|batches| stops((batches, LONG))),
        [true; 4]
    );
}
