//! The state between calls: stored, resumed, and lent with bytes to spare.

mod common;

use common::{c1, job};
use ritsghule::{lent, Scan, Turn};

/// What C1 answers after both reads were asked for.
fn rest_of_c1(scan: &mut Scan) -> [Turn; 3] {
    [scan.deliver(1, 3), scan.deliver(0, 2), scan.step()].map(Result::unwrap)
}

#[test]
fn a_stored_state_goes_on_where_it_was() {
    let mut scan = Scan::open(&c1()).unwrap();
    for _ in 0..3 {
        let _ = scan.step().unwrap();
    }
    let stored = scan.state().to_vec();
    let mut copy = scan.clone();
    let turns = rest_of_c1(&mut scan);
    assert_eq!(turns[2], Turn::Done);
    assert_ne!(scan.state(), stored);
    assert_eq!(rest_of_c1(&mut Scan::resume(&stored[..])), turns);
    assert_eq!(rest_of_c1(&mut Scan::resume(stored)), turns);
    assert_eq!(rest_of_c1(&mut copy), turns);
}

#[test]
fn a_state_is_of_the_published_length() {
    assert_eq!(Scan::open(&c1()).unwrap().state().len(), lent::state_len());
    assert_eq!(lent::state_len(), 39_351);
}

#[test]
fn runs_that_meet_are_stored_as_one() {
    let opened = |split: &[u32]| {
        let job = job(&[("SC", &[1]), ("SG", &[1, 4]), ("SP", split)]);
        Scan::open(&job).unwrap().state().to_vec()
    };
    let joined = opened(&[0, 4, 1, 0, 3]);
    assert_eq!(opened(&[0, 4, 2, 0, 2, 2, 1]), joined);
    assert_ne!(opened(&[0, 4, 2, 0, 2, 3, 1]), joined);
}

#[test]
fn bytes_past_the_published_length_stay() {
    let spare = 100;
    let mut state = vec![0xA5; lent::state_len() + spare];
    lent::open(&c1(), &mut state).unwrap();
    for _ in 0..3 {
        let _ = lent::step(&mut state).unwrap();
    }
    for (read, rows) in [(0, 2), (1, 3)] {
        let _ = lent::deliver(&mut state, read, rows).unwrap();
    }
    while lent::step(&mut state).unwrap() != Turn::Done {}
    assert_eq!(state[lent::state_len()..], vec![0xA5; spare]);
}
