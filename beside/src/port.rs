//! The port as a side. A state is lent again once its scan is dropped, so that no scan but the first waits for memory.

use std::cell::RefCell;

use ritsghule::{Refusal, lent};

use crate::answer::Answer;
use crate::session::Call;
use crate::side::{self, Side, Turn};

thread_local! {
    static SPARE: RefCell<Vec<Box<[u8]>>> = const { RefCell::new(Vec::new()) };
}

unsafe extern "C" {
    /// As bindings/c/ritsghule.h has it. The crate `ritsghule` links the library, but does not show the place for a run.
    fn ritsghule_open(job: *const u8, job_len: usize, state: *mut u8, state_len: usize, run: *mut u32) -> u8;
}

/// What stands in the place for a run before opening: no run has this index.
const NO_RUN: u32 = 0xa5a5_a5a5;

pub struct PortSide {
    state: Box<[u8]>,
}

impl PortSide {
    fn lend() -> Self {
        let spare = SPARE.with_borrow_mut(Vec::pop);
        Self { state: spare.unwrap_or_else(|| vec![0; lent::state_len()].into()) }
    }
}

impl Drop for PortSide {
    fn drop(&mut self) {
        SPARE.with_borrow_mut(|spare| spare.push(std::mem::take(&mut self.state)));
    }
}

impl Side for PortSide {
    fn open(job: &[u8]) -> Result<Self, side::Refusal> {
        let mut side = Self::lend();
        let (state, mut run) = (&mut side.state, NO_RUN);
        // SAFETY: job and state are slices with these lengths; the state's pointer and that of the run are exclusive.
        let number = unsafe { ritsghule_open(job.as_ptr(), job.len(), state.as_mut_ptr(), state.len(), &mut run) };
        opened(number, run).map(|()| side)
    }

    fn step(&mut self) -> Result<Turn, u8> {
        answer(lent::step(&mut self.state))
    }

    fn deliver(&mut self, read: u32, rows: u32) -> Result<Turn, u8> {
        answer(lent::deliver(&mut self.state, read, rows))
    }
}

/// What opening answers, given what stands in its place for a run afterwards. Where it wrote there it names a run, also beside a
/// number, 0 too, that should leave the place as it was: then the sides differ.
fn opened(number: u8, place: u32) -> Result<(), side::Refusal> {
    match (number, Some(place).filter(|run| *run != NO_RUN)) {
        (0, None) => Ok(()),
        (number, run) => Err(side::Refusal { number, run }),
    }
}

/// A call on any bytes.
pub fn ask(state: &mut [u8], call: Call) -> Answer {
    let given = match call {
        Call::Step => lent::step(state),
        Call::Deliver { read, rows } => lent::deliver(state, read, rows),
    };
    answer(given).into()
}

fn answer(given: Result<ritsghule::Turn, Refusal>) -> Result<Turn, u8> {
    given.map(turn).map_err(Refusal::number)
}

fn turn(turn: ritsghule::Turn) -> Turn {
    match turn {
        ritsghule::Turn::Read { read, segment } => Turn::Read { read, segment },
        ritsghule::Turn::Output(output) => Turn::Output {
            split: output.split,
            rows: output.rows,
            columns: output.columns().iter().map(|column| (column.segment, column.first)).collect(),
        },
        ritsghule::Turn::Waiting => Turn::Waiting,
        ritsghule::Turn::Done => Turn::Done,
    }
}

#[cfg(test)]
mod tests {
    use super::*;

    #[test]
    fn a_place_that_should_have_been_left_is_seen() {
        assert_eq!(opened(0, NO_RUN), Ok(()));
        assert_eq!(opened(8, NO_RUN), Err(8.into()));
        assert_eq!(opened(18, 1), Err(side::Refusal { number: 18, run: Some(1) }));
        for number in [0, 8] {
            assert_eq!(opened(number, 0), Err(side::Refusal { number, run: Some(0) }));
        }
    }
}
