//! Which run of a split is at fault: the number and the index, by the safe calls and by the C function,
//! whose place for a run every other answer leaves as it was.

mod common;

use common::{c1, job, Record};
use ritsghule::{lent, Scan};

/// What stands in the state and in the place for a run before a call.
const OLD: u8 = 0xA5;
const NO_RUN: u32 = 0xA5A5_A5A5;

const SLOT: Record = ("SC", &[1]);
const FOUR_ROWS: Record = ("SG", &[1, 4]);

extern "C" {
    fn ritsghule_open(
        job: *const u8,
        job_len: usize,
        state: *mut u8,
        state_len: usize,
        run: *mut u32,
    ) -> u8;
}

/// What the C function answers, and what then stands in the place for a run. A refusal leaves the
/// state as it was.
fn opened_in_c(bytes: &[u8], state_len: usize) -> (u8, u32) {
    let mut state = vec![OLD; state_len];
    let mut run = NO_RUN;
    // SAFETY: job and state are slices with these lengths, the run is a number of its own.
    let answer = unsafe {
        ritsghule_open(
            bytes.as_ptr(),
            bytes.len(),
            state.as_mut_ptr(),
            state.len(),
            &mut run,
        )
    };
    let untouched = state.iter().all(|&byte| byte == OLD);
    assert_eq!(untouched, answer != 0, "the state after {answer}");
    (answer, run)
}

/// The number and the index of a refused opening, the same by each way to call.
fn fault(bytes: &[u8]) -> (u8, u32) {
    let owned = Scan::open(bytes).expect_err("a run is at fault");
    let mut state = vec![OLD; lent::state_len()];
    assert_eq!(lent::open(bytes, &mut state), Err(owned));
    let fault = opened_in_c(bytes, lent::state_len());
    assert_eq!((owned.number(), owned.run()), (fault.0, Some(fault.1)));
    fault
}

/// The fault of a job of one segment of 4 rows with these splits.
fn fault_of(splits: &[&[u32]]) -> (u8, u32) {
    let splits = splits.iter().map(|&fields| ("SP", fields));
    let records: Vec<Record> = [SLOT, FOUR_ROWS].into_iter().chain(splits).collect();
    fault(&job(&records))
}

#[test]
fn the_first_run_at_fault_and_its_first_fault() {
    let most = u32::MAX;
    let cases: [((u8, u32), &[u32]); 13] = [
        ((17, 0), &[0, 4, 1, 0, 0]),
        ((17, 0), &[0, 4, 1, 9, 0]),
        ((17, 1), &[0, 4, 2, 0, 2, 1, 0]),
        ((17, 1), &[0, 4, 2, 0, 2, 2, 0]),
        ((17, 2), &[0, 4, 3, 0, 1, 1, 1, 2, 0]),
        ((18, 1), &[0, 4, 2, 0, 2, 1, 1]),
        ((18, 1), &[0, 4, 2, 0, 2, 1, 9]),
        ((18, 2), &[0, 4, 3, 0, 2, 2, 1, 2, 1]),
        ((19, 0), &[0, 4, 1, 3, 2]),
        ((19, 0), &[2, 4, 1, 2, 1]),
        ((19, 0), &[0, 4, 1, most, 2]),
        ((19, 0), &[0, 4, 2, 0, 9, 1, 0]),
        ((19, 1), &[0, 4, 2, 0, 2, 2, 9]),
    ];
    for (due, split) in cases {
        assert_eq!(fault_of(&[split]), due, "{split:?}");
    }
}

/// Sixteen runs, each of which meets the next or none, with a fault at each index.
#[test]
fn the_index_is_that_of_the_run_as_written() {
    for apart in [1, 2] {
        for index in 0..16 {
            let faulty = |number: u8| {
                let mut split: Vec<u32> = vec![0, 40, 16];
                split.extend((0..16).flat_map(|run| [apart * run, 1]));
                let place = 3 + 2 * index as usize;
                match number {
                    17 => split[place + 1] = 0,
                    18 => split[place] -= apart,
                    _ => split[place + 1] = 41,
                }
                fault(&job(&[SLOT, ("SG", &[1, 40]), ("SP", &split)]))
            };
            assert_eq!(faulty(17), (17, index));
            assert_eq!(faulty(19), (19, index));
            if index > 0 {
                assert_eq!(faulty(18), (18, index));
            }
        }
    }
}

#[test]
fn splits_are_asked_in_sequence_each_from_its_own_first_run() {
    let whole: &[u32] = &[0, 4, 3, 0, 1, 1, 1, 3, 1];
    let overlapping: &[u32] = &[1, 3, 2, 0, 2, 1, 1];
    let outside: &[u32] = &[0, 5, 0];
    assert_eq!(fault_of(&[whole, overlapping]), (18, 1));
    assert_eq!(fault_of(&[whole, &[0, 4, 1, 0, 0], overlapping]), (17, 0));
    assert_eq!(fault_of(&[overlapping, outside]), (18, 1));
}

#[test]
fn what_stands_behind_the_run_is_not_read() {
    let mut bytes = job(&[SLOT, FOUR_ROWS, ("SP", &[0, 4, 1, 0, 0])]);
    bytes.push(b'X');
    assert_eq!(fault(&bytes), (17, 0));
}

/// Each has an empty run or none; what is refused before it, or not at all, leaves the place.
#[test]
fn every_other_answer_leaves_the_place_for_a_run() {
    let empty: Record = ("SP", &[0, 4, 1, 0, 0]);
    let cut_short: Record = ("SP", &[0, 4, 2, 0, 0, 1]);
    let cases: [(u8, &[Record]); 9] = [
        (0, &[SLOT, FOUR_ROWS, ("SP", &[0, 4, 2, 0, 2, 2, 1])]),
        (2, &[SLOT, FOUR_ROWS, cut_short]),
        (3, &[("SC", &[4]), FOUR_ROWS, empty]),
        (4, &[SLOT, FOUR_ROWS, FOUR_ROWS, empty]),
        (5, &[SLOT, FOUR_ROWS, ("SG", &[2, 3]), ("PK", &[2]), empty]),
        (6, &[SLOT, FOUR_ROWS, ("SG", &[1, 3]), empty]),
        (
            7,
            &[SLOT, FOUR_ROWS, ("SG", &[2, u32::MAX]), ("CC", &[2]), empty],
        ),
        (8, &[SLOT, FOUR_ROWS, ("SP", &[0, 5, 1, 0, 0])]),
        (8, &[SLOT, FOUR_ROWS, ("SP", &[3, 2, 1, 0, 0])]),
    ];
    for (due, records) in cases {
        let opened = opened_in_c(&job(records), lent::state_len());
        assert_eq!(opened, (due, NO_RUN), "{records:?}");
        if due != 0 {
            let refusal = Scan::open(&job(records)).expect_err("refused in C");
            assert_eq!((refusal.number(), refusal.run()), (due, None));
        }
    }
    let faulty = job(&[SLOT, FOUR_ROWS, empty]);
    for bytes in [c1(), faulty] {
        assert_eq!(opened_in_c(&bytes, lent::state_len() - 1), (1, NO_RUN));
    }
}
