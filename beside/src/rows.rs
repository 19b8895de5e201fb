//! The joined rows of a side: what it put out of each split, whatever batches it was cut into.

use std::collections::{BTreeMap, BTreeSet};
use std::fmt;

use crate::answer::Answer;
use crate::side::Turn;

/// Consecutive rows of one segment.
#[derive(Clone, Copy, Debug, PartialEq, Eq)]
pub struct Stretch {
    segment: u32,
    first: u64,
    rows: u64,
}

impl Stretch {
    /// Whether `next` goes on where this one ends.
    fn meets(&self, next: &Self) -> bool {
        self.segment == next.segment && self.first + self.rows == next.first
    }
}

impl fmt::Display for Stretch {
    fn fmt(&self, f: &mut fmt::Formatter<'_>) -> fmt::Result {
        write!(f, "{}:{}+{}", self.segment, self.first, self.rows)
    }
}

/// For each split of which rows were put out, and each column, its stretches in the order put out, none meeting the one before.
#[derive(Default)]
pub struct Joined(BTreeMap<u32, Vec<Vec<Stretch>>>);

impl Joined {
    pub fn of(answers: &[Answer]) -> Self {
        let mut joined = Self::default();
        for answer in answers {
            if let Answer::Turn(Turn::Output { split, rows: rows @ 1.., columns }) = answer {
                joined.add(*split, *rows, columns);
            }
        }
        joined
    }

    fn add(&mut self, split: u32, rows: u32, columns: &[(u32, u32)]) {
        let joined = self.0.entry(split).or_default();
        joined.resize(joined.len().max(columns.len()), Vec::new());
        for (column, &(segment, first)) in joined.iter_mut().zip(columns) {
            let stretch = Stretch { segment, first: first.into(), rows: rows.into() };
            match column.last_mut() {
                Some(last) if last.meets(&stretch) => last.rows += stretch.rows,
                _ => column.push(stretch),
            }
        }
    }

    /// The columns of a split: none where nothing of it was put out.
    pub fn split(&self, split: u32) -> &[Vec<Stretch>] {
        self.0.get(&split).map_or(&[], Vec::as_slice)
    }

    /// The splits of which the two have other rows, rising.
    pub fn differing(&self, other: &Self) -> Vec<u32> {
        let splits: BTreeSet<u32> = self.0.keys().chain(other.0.keys()).copied().collect();
        splits.into_iter().filter(|split| self.split(*split) != other.split(*split)).collect()
    }
}

#[cfg(test)]
mod tests {
    use super::*;

    /// The columns of an output.
    type Firsts<'a> = &'a [(u32, u32)];

    /// Outputs of these splits, rows and columns, with other turns between them.
    fn joined(outputs: &[(u32, u32, Firsts)]) -> Joined {
        let output = |&(split, rows, columns): &(u32, u32, Firsts)| {
            let output = Turn::Output { split, rows, columns: columns.to_vec() };
            [Answer::Turn(Turn::Waiting), Answer::Turn(output), Answer::no(10)]
        };
        Joined::of(&outputs.iter().flat_map(output).collect::<Vec<Answer>>())
    }

    /// Two columns of a split, and a split of one row.
    const WHOLE: &[(u32, u32, Firsts)] = &[(0, 5, &[(1, 0), (2, 7)]), (0, 1, &[(1, 5), (3, 0)]), (4, 1, &[(1, 0), (2, 0)])];

    fn differing(outputs: &[(u32, u32, Firsts)]) -> Vec<u32> {
        let (whole, other) = (joined(WHOLE), joined(outputs));
        assert_eq!(whole.differing(&other), other.differing(&whole));
        whole.differing(&other)
    }

    #[test]
    fn batches_cut_otherwise_are_the_same_rows() {
        let split_4: (u32, u32, Firsts) = (4, 1, &[(1, 0), (2, 0)]);
        assert_eq!(differing(WHOLE), []);
        assert_eq!(differing(&[WHOLE[2], WHOLE[0], WHOLE[1]]), []);
        let cut: [(u32, u32, Firsts); 3] = [(0, 2, &[(1, 0), (2, 7)]), (0, 3, &[(1, 2), (2, 9)]), (0, 1, &[(1, 5), (3, 0)])];
        assert_eq!(differing(&[cut[0], split_4, cut[1], cut[2]]), []);
        assert_eq!(differing(&[cut[0], (0, 0, &[(9, 9)]), cut[1], (8, 0, &[(1, 0)]), cut[2], split_4]), []);
    }

    #[test]
    fn other_rows_are_seen() {
        let last = WHOLE[2];
        // A row lost at the end, in the middle and at the start, a row twice, two batches swapped, two columns swapped.
        assert_eq!(differing(&[WHOLE[0], last]), [0]);
        assert_eq!(differing(&[(0, 4, &[(1, 0), (2, 7)]), WHOLE[1], last]), [0]);
        assert_eq!(differing(&[(0, 4, &[(1, 1), (2, 8)]), WHOLE[1], last]), [0]);
        assert_eq!(differing(&[WHOLE[0], (0, 1, &[(1, 4), (2, 11)]), WHOLE[1], last]), [0]);
        assert_eq!(differing(&[WHOLE[1], WHOLE[0], last]), [0]);
        assert_eq!(differing(&[WHOLE[0], (0, 1, &[(3, 0), (1, 5)]), last]), [0]);
        // Another row or segment in one column, a column less, a column more.
        assert_eq!(differing(&[WHOLE[0], (0, 1, &[(1, 6), (3, 0)]), last]), [0]);
        assert_eq!(differing(&[WHOLE[0], (0, 1, &[(1, 5), (3, 1)]), last]), [0]);
        assert_eq!(differing(&[WHOLE[0], (0, 1, &[(2, 5), (3, 0)]), last]), [0]);
        assert_eq!(differing(&[WHOLE[0], (0, 1, &[(1, 5)]), last]), [0]);
        assert_eq!(differing(&[WHOLE[0], WHOLE[1], (4, 1, &[(1, 0), (2, 0), (2, 0)])]), [4]);
        // Another split.
        assert_eq!(differing(&[WHOLE[0], (4, 1, &[(1, 5), (3, 0)]), last]), [0, 4]);
        assert_eq!(differing(&[WHOLE[0], WHOLE[1]]), [4]);
        assert_eq!(differing(&[WHOLE[0], WHOLE[1], last, (1, 1, &[(1, 0)])]), [1]);
    }

    #[test]
    fn no_row_is_too_far_to_be_counted() {
        let two = joined(&[(0, u32::MAX, &[(1, 0)]), (0, u32::MAX, &[(1, u32::MAX)]), (0, 1, &[(2, 0)])]);
        let shown: Vec<String> = two.split(0)[0].iter().map(Stretch::to_string).collect();
        assert_eq!(shown, ["1:0+8589934590", "2:0+1"]);
    }
}
