//! Timing a script on one side.

use std::hint::black_box;
use std::time::{Duration, Instant};

use super::script::{Kind, Script};
use crate::session::Call;
use crate::side::Side;

/// Nanoseconds for one call, by kind.
pub type Figures = [f64; Kind::ALL.len()];

type Totals = [Duration; Kind::ALL.len()];

/// The means of so many sessions. `clock` is what reading the clock adds to each stretch.
pub fn round<S: Side>(script: &Script, sessions: u32, clock: Duration) -> Figures {
    let mut totals = Totals::default();
    for _ in 0..sessions {
        in_stretches::<S>(script, clock, &mut totals);
    }
    let start = Instant::now();
    for _ in 0..sessions {
        whole::<S>(script);
    }
    totals[Kind::Session as usize] = start.elapsed();
    Kind::ALL.map(|kind| {
        let calls = f64::from(sessions) * script.count(kind) as f64;
        totals[kind as usize].as_nanos() as f64 / calls
    })
}

/// One session with a look at the clock around opening and around each stretch.
fn in_stretches<S: Side>(script: &Script, clock: Duration, totals: &mut Totals) {
    let start = Instant::now();
    let mut scan = open::<S>(script);
    totals[Kind::Open as usize] += start.elapsed().saturating_sub(clock);
    for stretch in &script.stretches {
        let start = Instant::now();
        for call in &stretch.calls {
            make(&mut scan, *call);
        }
        totals[stretch.kind as usize] += start.elapsed().saturating_sub(clock);
    }
}

/// One session without a look at the clock, from opening until its memory is given back.
pub fn whole<S: Side>(script: &Script) {
    let mut scan = open::<S>(script);
    for call in script.stretches.iter().flat_map(|stretch| &stretch.calls) {
        make(&mut scan, *call);
    }
}

fn open<S: Side>(script: &Script) -> S {
    match S::open(black_box(&script.job)) {
        Ok(scan) => scan,
        Err(refusal) => unreachable!("a job that was opened before is refused: {refusal:?}"),
    }
}

pub fn make<S: Side>(scan: &mut S, call: Call) {
    match call {
        Call::Step => drop(black_box(scan.step())),
        Call::Deliver { read, rows } => drop(black_box(scan.deliver(read, rows))),
    }
}

/// What two looks at the clock are apart when nothing happens between them.
pub fn clock_cost() -> Duration {
    let mut costs: Vec<Duration> = (0..10_001).map(|_| Instant::now().elapsed()).collect();
    costs.sort();
    costs[costs.len() / 2]
}
