//! Opening, step and delivery on a state that the caller lends. Nothing is allocated.
//!
//! ```
//! use ritsghule::{lent, Turn};
//!
//! let mut state = vec![0; lent::state_len()];
//! // SC 1, SG 7 2: no split, so nothing is to be read.
//! lent::open(b"SC\x01\0\0\0SG\x07\0\0\0\x02\0\0\0", &mut state)?;
//! assert_eq!(lent::step(&mut state)?, Turn::Done);
//! # Ok::<(), ritsghule::Refusal>(())
//! ```

use crate::sys;
use crate::{Refusal, Turn};

/// How many bytes a state takes. A shorter one is refused by 1; bytes past these are never changed.
#[must_use]
pub fn state_len() -> usize {
    // SAFETY: the function takes nothing and only answers.
    unsafe { sys::ritsghule_state_len() }
}

/// Opens a job on the state. Kept runs of a split that meet are taken as one; a concat or pack of one
/// child is read and counts to the 24 nodes, but makes no pipeline.
///
/// # Errors
/// 1 to 8, and 17 to 19 with the [run](Refusal::run) at fault; the state is then as it was.
pub fn open(job: &[u8], state: &mut [u8]) -> Result<(), Refusal> {
    let mut run = 0;
    // SAFETY: job and state are slices with these lengths; the state's pointer and that of the run
    // are exclusive, so that no two overlap.
    let answer = unsafe {
        sys::ritsghule_open(
            job.as_ptr(),
            job.len(),
            state.as_mut_ptr(),
            state.len(),
            &mut run,
        )
    };
    Refusal::check_opening(answer, run)
}

/// One step.
///
/// # Errors
/// 1 and 12, with the state as it was; 13 and 14, with the state all zero. A state that opening and
/// accepted calls have left never gives 12 to 14.
pub fn step(state: &mut [u8]) -> Result<Turn, Refusal> {
    // SAFETY: as in `open`; the turn is an array of its own with the length that is named.
    turn_of(|turn| unsafe {
        sys::ritsghule_step(
            state.as_mut_ptr(),
            state.len(),
            turn.as_mut_ptr(),
            turn.len(),
        )
    })
}

/// The segment of a read has come, with so many rows. An accepted delivery goes on with a step and
/// answers its turn.
///
/// # Errors
/// 1, 10, 11 and 12, with no step taken and the state as it was; 13 and 14 as for a [`step`].
pub fn deliver(state: &mut [u8], read: u32, rows: u32) -> Result<Turn, Refusal> {
    // SAFETY: as in `step`.
    turn_of(|turn| unsafe {
        sys::ritsghule_deliver(
            state.as_mut_ptr(),
            state.len(),
            read,
            rows,
            turn.as_mut_ptr(),
            turn.len(),
        )
    })
}

/// The turn that a call writes as numbers, or its refusal.
fn turn_of(call: impl FnOnce(&mut [u32; sys::TURN_LEN]) -> u8) -> Result<Turn, Refusal> {
    let mut turn = [0; sys::TURN_LEN];
    Refusal::check(call(&mut turn))?;
    Ok(Turn::from_numbers(&turn))
}
