//! All small jobs: every small plan, with each of a set of splits and each number of slots; and every short list of runs.

use crate::job::{Job, Run, Split};
use crate::plan::Node;

/// Which plans to go through, and how much to do with each job.
#[derive(Clone, Copy)]
pub struct Extent {
    pub nodes: usize,
    /// Leaves name the segments 1 to this.
    pub segments: usize,
    /// Unusual calls in a session.
    pub odd: usize,
}

const fn extent(nodes: usize, segments: usize, odd: usize) -> Extent {
    Extent { nodes, segments, odd }
}

/// The smaller the plans, the more is done with each.
const USUAL: [Extent; 6] = [extent(1, 3, 2), extent(2, 3, 2), extent(3, 3, 1), extent(4, 2, 1), extent(4, 3, 0), extent(5, 2, 0)];

const DEEP: [Extent; 6] = [extent(1, 3, 3), extent(2, 3, 3), extent(3, 3, 2), extent(4, 3, 1), extent(5, 2, 1), extent(5, 3, 0)];

/// The extents of a run.
pub fn extents(deep: bool) -> [Extent; 6] {
    if deep { DEEP } else { USUAL }
}

fn everything(start: u32, end: u32) -> Split {
    let whole = [(0, end - start)];
    Split::new(start, end, if start < end { &whole } else { &[] })
}

/// Every second row, from the first or the second on.
fn comb(rows: u32, from: u32) -> Split {
    let teeth: Vec<(u32, u32)> = (from..rows).step_by(2).map(|row| (row, 1)).collect();
    Split::new(0, rows, &teeth)
}

/// Every row, as a run of its own: each meets the next.
fn row_by_row(rows: u32) -> Split {
    let single: Vec<(u32, u32)> = (0..rows).map(|row| (row, 1)).collect();
    Split::new(0, rows, &single)
}

/// Splits of a plan with so many rows: none, whole, halves, overlapping, empty, with gaps, with runs that meet, each list once.
fn split_lists(rows: u32) -> Vec<Vec<Split>> {
    let half = rows / 2;
    let whole = everything(0, rows);
    let all = [
        vec![],
        vec![whole.clone()],
        vec![Split::new(0, rows, &[])],
        vec![comb(rows, 0)],
        vec![everything(0, half), everything(half, rows)],
        vec![everything(half, rows), everything(0, half)],
        vec![whole.clone(), everything(half, rows)],
        vec![everything(0, rows.min(half + 1)), everything(half, rows)],
        vec![whole.clone(), everything(half, half)],
        vec![whole.clone(), Split::new(half, rows, &[])],
        vec![Split::new(half, rows, &[]), whole.clone()],
        vec![comb(rows, 1), comb(rows, 0)],
        vec![row_by_row(rows)],
        vec![whole.clone(), row_by_row(rows)],
        vec![whole.clone(), comb(rows, 0), whole],
        (0..rows.min(4)).map(|row| everything(row, row + 1)).collect(),
    ];
    let mut lists: Vec<Vec<Split>> = Vec::new();
    for list in all {
        if !lists.contains(&list) {
            lists.push(list);
        }
    }
    lists
}

/// All jobs with this plan. One slot more than there are splits is enough.
pub fn jobs(plan: &Node) -> impl Iterator<Item = Job> + '_ {
    let rows = u32::try_from(plan.rows()).unwrap_or(u32::MAX);
    split_lists(rows).into_iter().flat_map(move |splits| {
        let most_slots = 3.min(splits.len() as u32 + 1);
        (1..=most_slots).map(move |slots| Job { slots, plan: plan.clone(), splits: splits.clone() })
    })
}

/// Rows of the plan that the lists of runs are tried on. Starts and lengths go from 0 to this.
const RUN_ROWS: u32 = 3;

/// Every list of runs with up to `most` of them, in a split of all rows and in one of fewer, alone and behind another split.
pub fn run_jobs(most: usize) -> impl Iterator<Item = Job> {
    let plan = Node::Segment { segment: 1, rows: RUN_ROWS };
    let before = [vec![], vec![row_by_row(RUN_ROWS)]];
    run_lists(most).into_iter().flat_map(move |runs| {
        let splits = [0, 1].map(|start| Split { start, end: RUN_ROWS, runs: runs.clone() });
        let lists = before.iter().flat_map(|before| splits.clone().map(|split| [&before[..], &[split]].concat()));
        lists.map(|splits| Job { slots: 1, plan: plan.clone(), splits }).collect::<Vec<Job>>()
    })
}

fn run_lists(most: usize) -> Vec<Vec<Run>> {
    let runs = || (0..=RUN_ROWS).flat_map(|start| (0..=RUN_ROWS).map(move |length| Run { start, length }));
    let mut lists = vec![Vec::new()];
    let mut longest = lists.clone();
    for _ in 0..most {
        longest = longest.iter().flat_map(|list: &Vec<Run>| runs().map(move |run| [&list[..], &[run]].concat())).collect();
        lists.extend(longest.iter().cloned());
    }
    lists
}

#[cfg(test)]
mod tests {
    use std::collections::BTreeSet;

    use super::*;

    #[test]
    fn no_list_of_splits_comes_twice() {
        // Without rows only the number of splits tells two lists apart: 0 to 3.
        assert_eq!(split_lists(0).len(), 4);
        assert_eq!(split_lists(6).len(), 16);
    }

    #[test]
    fn lists_of_runs_have_every_fault_at_every_index() {
        // 16 runs: 1 + 16 + 256 lists, each in 4 jobs.
        assert_eq!(run_jobs(2).count(), 4 * 273);
        let faults: BTreeSet<_> =
            run_jobs(3).filter_map(|job| job.split_at_fault()).map(|(_, fault)| (fault.number, fault.run)).collect();
        let due = [17, 18, 19].into_iter().flat_map(|number| (0..3).map(move |index| (number, Some(index))));
        assert_eq!(faults, due.filter(|fault| *fault != (18, Some(0))).collect());
    }
}
