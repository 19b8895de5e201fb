//! An array without its values: how many rows it has, and where each column's rows begin.

use std::ops::Range;

use crate::VortexResult;
use crate::dtype::DType;
use crate::vortex_ensure;

/// The most columns that a job can have.
const MAX_COLUMNS: usize = 4;

/// Rows of one segment, from `first` on.
#[derive(Clone, Copy, Debug, Default, PartialEq, Eq)]
pub struct Column {
    pub segment: u32,
    pub first: u32,
}

/// A batch of rows. It is passed by value: it is small, and nothing in it is shared.
#[derive(Clone, Debug, Default)]
pub struct ArrayRef {
    rows: usize,
    width: usize,
    columns: [Column; MAX_COLUMNS],
}

impl ArrayRef {
    /// All rows of a segment.
    pub fn segment(segment: u32, rows: usize) -> Self {
        let mut array = Self::blank(rows);
        array.push_columns(&[Column { segment, first: 0 }]);
        array
    }

    /// `rows` rows without a column.
    pub(crate) fn blank(rows: usize) -> Self {
        Self { rows, ..Self::default() }
    }

    pub(crate) fn push_columns(&mut self, columns: &[Column]) {
        let width = self.width + columns.len();
        self.columns[self.width..width].copy_from_slice(columns);
        self.width = width;
    }

    pub fn columns(&self) -> &[Column] {
        &self.columns[..self.width]
    }

    pub fn len(&self) -> usize {
        self.rows
    }

    pub fn is_empty(&self) -> bool {
        self.rows == 0
    }

    pub fn dtype(&self) -> &DType {
        DType::of_width(self.width)
    }

    pub fn slice(&self, rows: Range<usize>) -> VortexResult<Self> {
        vortex_ensure!(rows.start <= rows.end && rows.end <= self.rows, "Rows {rows:?} of an array of {} rows", self.rows);
        let by = u32::try_from(rows.start)?;
        let mut array = self.clone();
        array.rows = rows.len();
        for column in &mut array.columns[..self.width] {
            column.first += by;
        }
        Ok(array)
    }
}
