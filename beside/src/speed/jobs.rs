//! The jobs that are timed.

use crate::job::{Job, Run, Split};
use crate::plan::Node;

/// Rows of a segment, where nothing else is said.
const ROWS: u32 = 16;

pub fn all() -> Vec<(String, Job)> {
    let mut jobs = vec![
        ("C1".to_owned(), first_case()),
        ("23 segments, 16 splits, 3 slots".to_owned(), concat(23, 16, 3)),
        ("pack of 4 concats, 4 runs a split".to_owned(), pack()),
    ];
    let growth = [(2, 1, 1), (6, 1, 1), (12, 1, 1), (23, 1, 1), (12, 4, 1), (12, 16, 1), (12, 16, 2), (12, 16, 3)];
    jobs.extend(growth.map(|(segments, splits, slots)| {
        (format!("segments {segments}, splits {splits}, slots {slots}"), concat(segments, splits, slots))
    }));
    jobs
}

/// Case C1 of document 01.
fn first_case() -> Job {
    let plan = Node::Concat(vec![Node::Segment { segment: 1, rows: 3 }, Node::Segment { segment: 2, rows: 2 }]);
    Job { slots: 1, plan, splits: vec![split(0, 5, &[(0, 5)])] }
}

/// One concat in equal splits that keep everything.
fn concat(segments: u32, splits: u32, slots: u32) -> Job {
    let rows = segments * ROWS / splits;
    let splits = (0..splits).map(|index| split(index * rows, (index + 1) * rows, &[(0, rows)]));
    Job { slots, plan: Node::Concat(leaves(0, segments, ROWS)), splits: splits.collect() }
}

/// One concat of segments of 64 rows, in splits of all of it that keep the same runs, spread evenly.
pub fn alike(segments: u32, splits: usize, slots: u32, runs: u32) -> Job {
    const ROWS: u32 = 64;
    let rows = segments * ROWS;
    let apart = rows / runs;
    let runs: Vec<(u32, u32)> = (0..runs).map(|run| (run * apart, ROWS / 2)).collect();
    Job { slots, plan: Node::Concat(leaves(0, segments, ROWS)), splits: vec![split(0, rows, &runs); splits] }
}

/// Four columns whose segments end at different rows, in splits that keep 3 rows of each 4.
fn pack() -> Job {
    const ALL_ROWS: u32 = 48;
    let mut first = 0;
    let fields = [2, 3, 4, 6].map(|segments| {
        let field = Node::Concat(leaves(first, segments, ALL_ROWS / segments));
        first += segments;
        field
    });
    let runs = [(0, 3), (4, 3), (8, 3), (12, 3)];
    let splits = (0..3).map(|index| split(index * 16, (index + 1) * 16, &runs));
    Job { slots: 2, plan: Node::Pack(fields.into()), splits: splits.collect() }
}

fn leaves(first: u32, count: u32, rows: u32) -> Vec<Node> {
    (first..first + count).map(|segment| Node::Segment { segment, rows }).collect()
}

fn split(start: u32, end: u32, runs: &[(u32, u32)]) -> Split {
    let runs = runs.iter().map(|&(start, length)| Run { start, length });
    Split { start, end, runs: runs.collect() }
}
