//! Every refusal that a caller can cause, by number, and the state that it leaves as it was. Which
//! run of a split is at fault: runs_at_fault.rs.

mod common;

use common::{c1, job, Record};
use ritsghule::{lent, Refusal, Scan, Turn};

const OLD: u8 = 0xA5;

/// The second read of C1.
const READ_1: Turn = Turn::Read {
    read: 1,
    segment: 1,
};

fn number<T: std::fmt::Debug>(answer: Result<T, Refusal>) -> u8 {
    answer.expect_err("a refusal was due").number()
}

fn rows_out(answer: Result<Turn, Refusal>) -> u32 {
    match answer {
        Ok(Turn::Output(output)) => output.rows,
        other => panic!("an output was due, not {other:?}"),
    }
}

/// The refusal of an opening, which must leave the state as it was.
fn refused_opening(bytes: &[u8], len: usize) -> u8 {
    let mut state = vec![OLD; len];
    let refused = number(lent::open(bytes, &mut state));
    assert!(
        state.iter().all(|&byte| byte == OLD),
        "refusal {refused} changed the state"
    );
    refused
}

/// A scan of C1 with read 0 in flight; a step would make read 1.
fn one_in_flight() -> Scan {
    let mut scan = Scan::open(&c1()).unwrap();
    let _ = scan.step().unwrap();
    scan
}

#[test]
fn openings() {
    let segment: Record = ("SG", &[1, 4]);
    let slot: Record = ("SC", &[1]);
    let most = u32::MAX;
    // Counted as written, though they would join to one.
    let seventeen: Vec<u32> = [0, 40, 17]
        .into_iter()
        .chain((0..17).flat_map(|row| [row, 1]))
        .collect();
    let cases: [(u8, &[Record]); 23] = [
        (2, &[]),
        (2, &[segment]),
        (2, &[slot, ("XX", &[1])]),
        (2, &[slot, ("SG", &[1])]),
        (3, &[slot]),
        (3, &[("SC", &[0]), segment]),
        (3, &[("SC", &[4]), segment]),
        (
            3,
            &[
                slot,
                segment,
                segment,
                segment,
                segment,
                segment,
                ("PK", &[5]),
            ],
        ),
        (3, &[slot, ("SG", &[1, 40]), ("SP", &seventeen)]),
        (4, &[slot, segment, ("CC", &[0])]),
        (4, &[slot, segment, ("CC", &[2])]),
        (4, &[slot, segment, segment]),
        (5, &[slot, segment, ("SG", &[2, 3]), ("PK", &[2])]),
        (
            5,
            &[slot, segment, segment, ("PK", &[2]), segment, ("CC", &[2])],
        ),
        (6, &[slot, segment, ("SG", &[1, 5])]),
        (7, &[slot, segment, ("SG", &[2, most]), ("CC", &[2])]),
        (8, &[slot, segment, ("SP", &[3, 2, 0])]),
        (8, &[slot, segment, ("SP", &[0, 5, 0])]),
        (17, &[slot, segment, ("SP", &[0, 4, 1, 0, 0])]),
        (17, &[slot, segment, ("SP", &[0, 4, 2, 0, 2, 2, 0])]),
        (18, &[slot, segment, ("SP", &[0, 4, 2, 0, 2, 1, 1])]),
        (19, &[slot, segment, ("SP", &[0, 4, 1, 3, 2])]),
        (19, &[slot, segment, ("SP", &[0, 4, 2, 0, 2, 2, 3])]),
    ];
    for (due, records) in cases {
        assert_eq!(
            refused_opening(&job(records), lent::state_len()),
            due,
            "{records:?}"
        );
        assert_eq!(number(Scan::open(&job(records))), due, "{records:?}");
    }
}

#[test]
fn an_opening_on_a_state_too_short_is_1_before_all_else() {
    let short = lent::state_len() - 1;
    assert_eq!(refused_opening(&c1(), short), 1);
    assert_eq!(refused_opening(b"", short), 1);
    assert_eq!(refused_opening(&c1(), 0), 1);
}

#[test]
fn calls_on_a_state_too_short() {
    let whole = one_in_flight();
    let mut cut = Scan::resume(&whole.state()[..lent::state_len() - 1]);
    assert_eq!(number(cut.step()), 1);
    assert_eq!(number(cut.deliver(0, 2)), 1);
    assert_eq!(cut.state(), &whole.state()[..lent::state_len() - 1]);
    assert_eq!(number(Scan::resume([]).step()), 1);
}

#[test]
fn a_read_that_is_not_in_flight() {
    let mut scan = one_in_flight();
    assert_eq!(scan.deliver(0, 2), Ok(READ_1));
    assert_eq!(rows_out(scan.deliver(1, 3)), 3);
    let before = scan.state().to_vec();
    for (read, rows) in [(0, 2), (1, 3), (1, 9), (2, 2), (u32::MAX, 2)] {
        assert_eq!(number(scan.deliver(read, rows)), 10, "read {read}");
        assert_eq!(scan.state(), before);
    }
    assert_eq!(rows_out(scan.step()), 2);
}

#[test]
fn a_row_count_that_is_not_the_segments() {
    let mut scan = one_in_flight();
    let before = scan.state().to_vec();
    for rows in [0, 1, 3, u32::MAX] {
        assert_eq!(number(scan.deliver(0, rows)), 11, "{rows} rows");
        assert_eq!(scan.state(), before);
    }
    assert_eq!(scan.deliver(0, 2), Ok(READ_1));
}

#[test]
fn a_state_that_no_call_left() {
    for byte in [0, 0xFF] {
        let mut scan = Scan::resume(vec![byte; lent::state_len()]);
        assert_eq!(number(scan.step()), 12);
        assert_eq!(number(scan.deliver(0, 2)), 12);
        assert!(scan.state().iter().all(|&left| left == byte));
    }
}
