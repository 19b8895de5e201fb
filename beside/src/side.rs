//! What the two sides have in common: a scan that is opened on job bytes, takes steps and deliveries, and refuses by number; a
//! refused opening may name a run besides.

/// What a step answers, and a delivery that is accepted.
#[derive(Clone, Debug, PartialEq, Eq)]
pub enum Turn {
    Read {
        read: u32,
        segment: u32,
    },
    /// For each column a segment and its first row.
    Output {
        split: u32,
        rows: u32,
        columns: Vec<(u32, u32)>,
    },
    Waiting,
    Done,
}

/// Why an opening is refused: a number of document 01's table, or 17 to 19 of document 02 with the index of the run at fault.
#[derive(Clone, Copy, Debug, PartialEq, Eq)]
pub struct Refusal {
    pub number: u8,
    pub run: Option<u32>,
}

impl From<u8> for Refusal {
    fn from(number: u8) -> Self {
        Self { number, run: None }
    }
}

/// One side. A call is refused by a number alone.
pub trait Side: Sized {
    fn open(job: &[u8]) -> Result<Self, Refusal>;
    fn step(&mut self) -> Result<Turn, u8>;
    /// An accepted delivery goes on with a step and answers its turn. A refused one takes no step.
    fn deliver(&mut self, read: u32, rows: u32) -> Result<Turn, u8>;
}
