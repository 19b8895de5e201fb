//! What a step or a delivery answers.

use crate::sys;

const MAX_COLUMNS: usize = 4;

/// What a step or a delivery answers. These are all the turns there are: one that is passed over
/// loses rows, so the compiler asks for each.
#[derive(Clone, Copy, Debug, PartialEq, Eq)]
#[must_use]
pub enum Turn {
    /// A segment is to be read.
    Read {
        /// The number that the delivery will name.
        read: u32,
        /// The segment.
        segment: u32,
    },
    /// Rows are to be put out.
    Output(Output),
    /// Nothing can be done before a read has come.
    Waiting,
    /// All rows are out.
    Done,
}

/// Rows of a split, next in depth: the `i`-th is, in each column, row `first + i` of its segment.
#[derive(Clone, Copy, Debug, PartialEq, Eq)]
pub struct Output {
    /// The split, counted from 0.
    pub split: u32,
    /// How many rows, at least one.
    pub rows: u32,
    count: usize,
    columns: [Column; MAX_COLUMNS],
}

/// Where a column's rows are.
#[derive(Clone, Copy, Debug, Default, PartialEq, Eq)]
pub struct Column {
    /// The segment.
    pub segment: u32,
    /// Its first row.
    pub first: u32,
}

impl Output {
    /// The columns, one to four; a state that no call left may have an output without any.
    #[must_use]
    pub fn columns(&self) -> &[Column] {
        &self.columns[..self.count]
    }

    fn from_numbers(turn: &[u32; sys::TURN_LEN]) -> Output {
        let count = turn[3] as usize;
        assert!(
            count <= MAX_COLUMNS,
            "libritsghule.a gave an output of {count} columns: it is not of this header"
        );
        let mut columns = [Column::default(); MAX_COLUMNS];
        for (column, pair) in columns
            .iter_mut()
            .zip(turn[4..].chunks_exact(2))
            .take(count)
        {
            *column = Column {
                segment: pair[0],
                first: pair[1],
            };
        }
        Output {
            split: turn[1],
            rows: turn[2],
            count,
            columns,
        }
    }
}

impl Turn {
    /// A turn from its numbers, as the header lists them.
    pub(crate) fn from_numbers(turn: &[u32; sys::TURN_LEN]) -> Turn {
        match turn[0] {
            sys::READ => Turn::Read {
                read: turn[1],
                segment: turn[2],
            },
            sys::OUTPUT => Turn::Output(Output::from_numbers(turn)),
            sys::WAITING => Turn::Waiting,
            sys::DONE => Turn::Done,
            kind => panic!("libritsghule.a gave a turn of kind {kind}: it is not of this header"),
        }
    }
}

#[cfg(test)]
mod tests {
    use super::*;

    #[test]
    fn four_columns() {
        let Turn::Output(output) =
            Turn::from_numbers(&[2, 5, 6, 4, 10, 11, 20, 21, 30, 31, 40, 41])
        else {
            panic!("an output")
        };
        assert_eq!((output.split, output.rows), (5, 6));
        let columns: Vec<_> = output
            .columns()
            .iter()
            .map(|column| (column.segment, column.first))
            .collect();
        assert_eq!(columns, [(10, 11), (20, 21), (30, 31), (40, 41)]);
    }

    #[test]
    fn a_column_that_is_not_there_is_not_shown() {
        let numbers = [2, 0, 1, 1, 7, 3, 9, 9, 9, 9, 9, 9];
        let Turn::Output(output) = Turn::from_numbers(&numbers) else {
            panic!("an output")
        };
        assert_eq!(
            output.columns(),
            [Column {
                segment: 7,
                first: 3
            }]
        );
    }

    #[test]
    #[should_panic(expected = "a turn of kind 5")]
    fn a_kind_of_another_header() {
        let _ = Turn::from_numbers(&[5; sys::TURN_LEN]);
    }

    #[test]
    #[should_panic(expected = "an output of 5 columns")]
    fn columns_of_another_header() {
        let _ = Turn::from_numbers(&[2, 0, 1, 5, 0, 0, 0, 0, 0, 0, 0, 0]);
    }
}
