//! States that no call left: a scan's own with 1 to 8 bytes changed at random. Every call on one
//! ends with an answer that document 01's table has for it, and leaves what the table says.

mod common;

use std::collections::BTreeSet;

use common::{job, Record, LABELS};
use ritsghule::{lent, Refusal, Turn};

/// Of each job so many states are changed, in so many ways each; a changed one gets at most so many
/// calls.
const STATES: usize = 2_500;
const WAYS: usize = 8;
const CALLS: usize = 4;

/// What fills the bytes past the published length, and how many there are.
const PAST: u8 = 0xA5;
const SPARE: usize = 64;

/// A read that no scan makes: its delivery comes to check 12, and no further than 10.
const NEVER_MADE: u32 = u32::MAX;

/// Rows of every segment.
const ROWS: u32 = 24;
const ONE: Record = ("SG", &[1, ROWS]);
const TWO: Record = ("SG", &[2, ROWS]);
const THREE: Record = ("SG", &[3, ROWS]);
const FOUR: Record = ("SG", &[4, ROWS]);

const ALL_OF_TWO: Record = ("SP", &[0, 48, 1, 0, 48]);
const ENDS_OF_TWO: Record = ("SP", &[0, 48, 2, 0, 20, 28, 20]);
const MIDDLE_OF_TWO: Record = ("SP", &[12, 36, 1, 4, 16]);
/// More runs than a port has places.
const SHORT_RUNS: Record = (
    "SP",
    &[
        0, 24, 10, 0, 1, 2, 1, 4, 1, 6, 1, 8, 1, 10, 1, 12, 1, 14, 1, 16, 1, 18, 1,
    ],
);

/// With joins of one child, so that the labels have gaps.
const NOTHING_SHARED: &[Record] = &[
    ("SC", &[1]),
    ONE,
    ("CC", &[1]),
    TWO,
    THREE,
    ("CC", &[1]),
    ("PK", &[1]),
    ("CC", &[3]),
    ("SP", &[0, 72, 2, 0, 28, 40, 32]),
];
const ONE_IN_BOTH_COLUMNS: &[Record] = &[
    ("SC", &[2]),
    ONE,
    TWO,
    ("CC", &[2]),
    THREE,
    ONE,
    ("CC", &[2]),
    ("PK", &[2]),
    ENDS_OF_TWO,
    ALL_OF_TWO,
    MIDDLE_OF_TWO,
];
const THREE_SLOTS_THAT_SHARE: &[Record] = &[
    ("SC", &[3]),
    ONE,
    TWO,
    ("CC", &[2]),
    ALL_OF_TWO,
    MIDDLE_OF_TWO,
    ENDS_OF_TWO,
    MIDDLE_OF_TWO,
    ALL_OF_TWO,
];
const FOUR_COLUMNS: &[Record] = &[
    ("SC", &[3]),
    ONE,
    TWO,
    THREE,
    FOUR,
    ("PK", &[4]),
    ("SP", &[0, 8, 1, 0, 8]),
    ("SP", &[8, 16, 2, 0, 1, 4, 2]),
    ("SP", &[16, 24, 1, 1, 6]),
];
const FULL_PORTS: &[Record] = &[
    ("SC", &[2]),
    ONE,
    TWO,
    ("CC", &[2]),
    SHORT_RUNS,
    SHORT_RUNS,
    ("SP", &[24, 48, 1, 0, 24]),
];

/// Numbers one after another: splitmix64.
struct Random(u64);

impl Random {
    fn next(&mut self) -> u64 {
        self.0 = self.0.wrapping_add(0x9e37_79b9_7f4a_7c15);
        let mixed = (self.0 ^ (self.0 >> 30)).wrapping_mul(0xbf58_476d_1ce4_e5b9);
        let mixed = (mixed ^ (mixed >> 27)).wrapping_mul(0x94d0_49bb_1331_11eb);
        mixed ^ (mixed >> 31)
    }

    fn below(&mut self, count: usize) -> usize {
        (self.next() % count as u64) as usize
    }

    fn coin(&mut self) -> bool {
        self.below(2) == 0
    }
}

/// A scan that goes on from state to state, and from the beginning again once it is done.
struct Live {
    job: Vec<u8>,
    state: Vec<u8>,
    in_flight: Vec<u32>,
    waits: bool,
}

impl Live {
    fn open(records: &[Record]) -> Live {
        let mut live = Live {
            job: job(records),
            state: [vec![0; lent::state_len()], vec![PAST; SPARE]].concat(),
            in_flight: Vec::new(),
            waits: false,
        };
        live.reopen();
        live
    }

    fn reopen(&mut self) {
        lent::open(&self.job, &mut self.state).expect("an accepted job");
        self.in_flight.clear();
    }

    /// A step, or at a wait the delivery of any read in flight.
    fn go_on(&mut self, random: &mut Random) {
        let answer = if self.waits {
            let place = random.below(self.in_flight.len());
            lent::deliver(&mut self.state, self.in_flight.swap_remove(place), ROWS)
        } else {
            lent::step(&mut self.state)
        };
        let turn = answer.expect("a call of an accepted job");
        self.waits = turn == Turn::Waiting;
        match turn {
            Turn::Read { read, .. } => self.in_flight.push(read),
            Turn::Output(_) | Turn::Waiting => {}
            Turn::Done => self.reopen(),
        }
    }

    /// The places of bytes that are not 0. Most blocks have none, and are passed over whole.
    fn in_use(&self) -> Vec<usize> {
        const BLOCK: usize = 64;
        let blocks = self.state[..lent::state_len()].chunks(BLOCK).enumerate();
        let used = blocks.filter(|(_, block)| **block != [0; BLOCK][..block.len()]);
        used.flat_map(|(number, _)| number * BLOCK..(number + 1) * BLOCK)
            .filter(|&place| place < lent::state_len() && self.state[place] != 0)
            .collect()
    }
}

/// A byte drawn anew at 1 to 8 places: any byte or a small one, anywhere or near one that is not 0.
fn change(state: &mut [u8], in_use: &[usize], random: &mut Random) {
    let len = lent::state_len();
    for _ in 0..=random.below(8) {
        let place = if random.coin() {
            random.below(len)
        } else {
            (in_use[random.below(in_use.len())] + random.below(4)) % len
        };
        let most = if random.coin() { 256 } else { 4 };
        state[place] = random.below(most) as u8;
    }
}

/// The numbers that came to steps, and to deliveries; 0 is no refusal.
#[derive(Default)]
struct Came {
    steps: BTreeSet<u8>,
    deliveries: BTreeSet<u8>,
}

fn number(answer: Result<Turn, Refusal>) -> u8 {
    answer.map_or_else(Refusal::number, |_| 0)
}

/// A step or a delivery: the number of its refusal.
fn any_call(state: &mut [u8], came: &mut Came, random: &mut Random) -> u8 {
    let (refused, numbers) = if random.coin() {
        (number(lent::step(state)), &mut came.steps)
    } else {
        let read = random.below(5) as u32;
        let rows = if random.coin() { ROWS } else { ROWS - 1 };
        (
            number(lent::deliver(state, read, rows)),
            &mut came.deliveries,
        )
    };
    numbers.insert(refused);
    refused
}

/// A call on a changed state, with what it leaves: the number of its refusal.
fn judged_call(state: &mut [u8], came: &mut Came, random: &mut Random) -> u8 {
    let before = state.to_vec();
    let checked = number(lent::deliver(state, NEVER_MADE, ROWS));
    assert!(
        matches!(checked, 10 | 12),
        "{checked} for a read never made"
    );
    assert!(*state == before[..], "{checked} changed the state");

    let refused = any_call(state, came, random);
    assert_eq!(refused == 12, checked == 12, "12 hangs on the call");
    let (own, past) = state.split_at(lent::state_len());
    assert!(past == [PAST; SPARE], "a byte past the state changed");
    match refused {
        0 => assert!(own[LABELS] == before[LABELS], "a label changed"),
        13 | 14 => assert!(own.iter().all(|&byte| byte == 0), "{refused} left a byte"),
        _ => assert!(*state == before[..], "{refused} changed the state"),
    }
    refused
}

/// Calls on changed states of a job.
fn try_job(records: &[Record], came: &mut Came, random: &mut Random) {
    let mut live = Live::open(records);
    for _ in 0..STATES {
        let in_use = live.in_use();
        for _ in 0..WAYS {
            let mut state = live.state.clone();
            change(&mut state, &in_use, random);
            for _ in 0..CALLS {
                if judged_call(&mut state, came, random) >= 12 {
                    break;
                }
            }
        }
        live.go_on(random);
    }
}

#[test]
fn every_call_on_a_changed_state_ends_as_the_table_says() {
    let jobs = [
        NOTHING_SHARED,
        ONE_IN_BOTH_COLUMNS,
        THREE_SLOTS_THAT_SHARE,
        FOUR_COLUMNS,
        FULL_PORTS,
    ];
    let mut random = Random(1);
    let mut came = Came::default();
    for job in jobs {
        try_job(job, &mut came, &mut random);
    }
    assert_eq!(came.steps, BTreeSet::from([0, 12, 13, 14]));
    assert_eq!(came.deliveries, BTreeSet::from([0, 10, 11, 12, 13, 14]));
}
