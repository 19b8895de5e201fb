//! Which rows of a range are kept: runs, rising, with a gap between neighbours.

use std::ops::Range;

use crate::SmallVec;

/// Most masks have one run, which needs no memory of its own.
type Runs = SmallVec<[Range<usize>; 1]>;

#[derive(Clone, Debug)]
pub struct Mask {
    len: usize,
    kept: usize,
    runs: Runs,
}

impl Mask {
    /// The runs rise, have a gap between neighbours, and lie within `len` rows.
    pub fn from_runs(len: usize, runs: impl IntoIterator<Item = Range<usize>>) -> Self {
        let runs: Runs = runs.into_iter().collect();
        let kept = runs.iter().map(ExactSizeIterator::len).sum();
        Self { len, kept, runs }
    }

    pub fn new_true(len: usize) -> Self {
        Self::from_runs(len, (len > 0).then_some(0..len))
    }

    pub fn runs(&self) -> &[Range<usize>] {
        &self.runs
    }

    pub fn len(&self) -> usize {
        self.len
    }

    pub fn all_true(&self) -> bool {
        self.kept == self.len
    }

    pub fn all_false(&self) -> bool {
        self.kept == 0
    }

    /// The mask of the rows `rows` alone, counted from their start.
    pub fn slice(&self, rows: Range<usize>) -> Self {
        let clipped = self
            .runs
            .iter()
            .map(|run| run.start.max(rows.start)..run.end.min(rows.end))
            .filter(|run| !run.is_empty())
            .map(|run| run.start - rows.start..run.end - rows.start);
        Self::from_runs(rows.len(), clipped)
    }
}
