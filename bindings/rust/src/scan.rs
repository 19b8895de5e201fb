//! A scan that owns its state.

use std::fmt;

use crate::lent;
use crate::{Refusal, Turn};

/// A scan with its state, which can be stored between calls and resumed elsewhere.
#[derive(Clone)]
pub struct Scan {
    state: Box<[u8]>,
}

impl Scan {
    /// Opens a job. Its bytes are only read. Kept runs of a split that meet are taken as one; a concat
    /// or pack of one child is read and counts to the 24 nodes, but makes no pipeline.
    ///
    /// # Errors
    /// 2 to 8 and 17 to 19, as [`lent::open`].
    pub fn open(job: &[u8]) -> Result<Scan, Refusal> {
        let mut state = vec![0; lent::state_len()].into_boxed_slice();
        lent::open(job, &mut state)?;
        Ok(Scan { state })
    }

    /// Goes on from a stored [`state`](Scan::state). Nothing is checked here: on bytes that are no
    /// state the next call gives 1 or 12.
    #[must_use]
    pub fn resume(state: impl Into<Box<[u8]>>) -> Scan {
        Scan {
            state: state.into(),
        }
    }

    /// The state between calls, to be stored.
    #[must_use]
    pub fn state(&self) -> &[u8] {
        &self.state
    }

    /// One step.
    ///
    /// # Errors
    /// As [`lent::step`].
    pub fn step(&mut self) -> Result<Turn, Refusal> {
        lent::step(&mut self.state)
    }

    /// The segment of a read has come, with so many rows. An accepted delivery goes on with a step
    /// and answers its turn.
    ///
    /// # Errors
    /// As [`lent::deliver`].
    pub fn deliver(&mut self, read: u32, rows: u32) -> Result<Turn, Refusal> {
        lent::deliver(&mut self.state, read, rows)
    }
}

impl fmt::Debug for Scan {
    fn fmt(&self, f: &mut fmt::Formatter<'_>) -> fmt::Result {
        f.debug_struct("Scan").finish_non_exhaustive()
    }
}
