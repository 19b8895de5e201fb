//! Jobs a little smaller than a given one: nodes, splits and runs left out, runs joined and moved up, rows and numbers lowered.

mod plans;
mod records;

use self::plans::{fewer_nodes, fewer_rows, renamed};
use self::records::smaller_records;
use crate::job::{Job, Run, Split};
use crate::plan::Node;

pub fn smaller_jobs(bytes: &[u8]) -> Vec<Vec<u8>> {
    let mut jobs = Vec::new();
    if let Some(job) = Job::read(bytes) {
        let ways = [fewer_splits, joined_runs, smaller_plans, moved_splits, shorter_runs, moved_runs];
        jobs.extend(ways.iter().flat_map(|way| way(&job)).map(|job| job.bytes()));
    }
    jobs.extend(smaller_records(bytes));
    jobs
}

fn without<T: Clone>(list: &[T], place: usize) -> Vec<T> {
    [&list[..place], &list[place + 1..]].concat()
}

fn fewer_splits(job: &Job) -> Vec<Job> {
    let places = 0..job.splits.len();
    places.map(|place| Job { splits: without(&job.splits, place), ..job.clone() }).collect()
}

/// Two runs that meet written as one.
fn joined_runs(job: &Job) -> Vec<Job> {
    let mut jobs = Vec::new();
    for (place, split) in job.splits.iter().enumerate() {
        for (run, two) in split.runs.windows(2).enumerate().filter(|(_, two)| two[0].meets(two[1])) {
            let mut joined = job.clone();
            let runs = &mut joined.splits[place].runs;
            runs[run].length = two[0].length.saturating_add(two[1].length);
            runs.remove(run + 1);
            jobs.push(joined);
        }
    }
    jobs
}

/// The job with another plan, its splits cut to the plan's rows, with their runs or without.
fn with_plan(job: &Job, plan: &Node, cut: fn(&Split, u32) -> Split) -> Job {
    let rows = u32::try_from(plan.rows()).unwrap_or(u32::MAX);
    let splits = job.splits.iter().map(|split| cut(split, rows)).collect();
    Job { slots: job.slots, plan: plan.clone(), splits }
}

fn cut_to(split: &Split, rows: u32) -> Split {
    let Split { start, end, runs } = cut_around(split, rows);
    let kept = end.saturating_sub(start);
    let runs = runs.into_iter().filter(|run| run.start < kept);
    let runs = runs.map(|run| Run { start: run.start, length: run.length.min(kept - run.start) });
    Split { start, end, runs: runs.collect() }
}

/// The runs stay as they are: one of them may be at fault and has to stay so.
fn cut_around(split: &Split, rows: u32) -> Split {
    Split { start: split.start.min(rows), end: split.end.min(rows), runs: split.runs.clone() }
}

fn smaller_plans(job: &Job) -> Vec<Job> {
    let plans = [fewer_nodes(&job.plan), fewer_rows(&job.plan), vec![renamed(&job.plan)]].concat();
    let ways: &[fn(&Split, u32) -> Split] = if job.split_at_fault().is_some() { &[cut_to, cut_around] } else { &[cut_to] };
    plans.iter().flat_map(|plan| ways.iter().map(|cut| with_plan(job, plan, *cut))).collect()
}

/// How much to take from a number: all of it, half of it, and so on down to 1.
pub fn lessenings(number: u32) -> impl Iterator<Item = u32> {
    std::iter::successors(Some(number), |less| Some(less / 2)).take_while(|less| *less > 0)
}

/// Splits moved to the left, their rows and runs as they are.
fn moved_splits(job: &Job) -> Vec<Job> {
    let mut jobs = Vec::new();
    for place in 0..job.splits.len() {
        for less in lessenings(job.splits[place].start) {
            let mut moved = job.clone();
            moved.splits[place].start -= less;
            moved.splits[place].end = moved.splits[place].end.saturating_sub(less);
            jobs.push(moved);
        }
    }
    jobs
}

/// The job with its split at this place changed.
fn with_split(job: &Job, place: usize, split: Split) -> Job {
    let mut changed = job.clone();
    changed.splits[place] = split;
    changed
}

/// The split with its runs from this one on moved up, so that runs that meet still do: with its end, so that runs past it still are,
/// and without.
fn moved_up(mut split: Split, from: usize, less: u32) -> [Split; 2] {
    split.runs[from..].iter_mut().for_each(|run| run.start = run.start.saturating_sub(less));
    let end = split.end.saturating_sub(less).max(split.start);
    [Split { end, ..split.clone() }, split]
}

/// A run shortened, and those behind it moved up.
fn shorter_runs(job: &Job) -> Vec<Job> {
    let mut jobs = Vec::new();
    for (place, split) in job.splits.iter().enumerate() {
        for run in 0..split.runs.len() {
            for less in lessenings(split.runs[run].length) {
                let mut shorter = split.clone();
                shorter.runs[run].length -= less;
                jobs.extend(moved_up(shorter, run + 1, less).map(|split| with_split(job, place, split)));
            }
        }
    }
    jobs
}

/// A run and those behind it moved up.
fn moved_runs(job: &Job) -> Vec<Job> {
    let mut jobs = Vec::new();
    for (place, split) in job.splits.iter().enumerate() {
        for run in 0..split.runs.len() {
            for less in lessenings(split.runs[run].start) {
                jobs.extend(moved_up(split.clone(), run, less).map(|split| with_split(job, place, split)));
            }
        }
    }
    jobs
}

#[cfg(test)]
mod tests {
    use super::*;

    fn job(runs: &[(u32, u32)]) -> Vec<u8> {
        job_of(9, Split::new(0, 9, runs))
    }

    fn job_of(rows: u32, split: Split) -> Vec<u8> {
        Job { slots: 1, plan: Node::Segment { segment: 1, rows }, splits: vec![split] }.bytes()
    }

    #[test]
    fn runs_are_joined_where_they_meet() {
        let smaller = smaller_jobs(&job(&[(0, 2), (2, 1), (4, 1), (5, 3)]));
        assert!(smaller.contains(&job(&[(0, 3), (4, 1), (5, 3)])));
        assert!(smaller.contains(&job(&[(0, 2), (2, 1), (4, 4)])));
        assert!(!smaller.contains(&job(&[(0, 2), (2, 2), (5, 3)])));
    }

    #[test]
    fn runs_that_meet_still_do_where_one_is_shortened() {
        let smaller = smaller_jobs(&job(&[(0, 4), (4, 1), (6, 1)]));
        assert!(smaller.contains(&job(&[(0, 2), (2, 1), (4, 1)])));
    }

    #[test]
    fn runs_that_meet_still_do_where_they_are_moved_up() {
        let smaller = smaller_jobs(&job(&[(0, 1), (3, 1), (4, 1)]));
        assert!(smaller.contains(&job_of(9, Split::new(0, 8, &[(0, 1), (2, 1), (3, 1)]))));
    }

    #[test]
    fn a_run_at_fault_stays_so_where_rows_are_fewer() {
        let smaller_has = |runs: &[(u32, u32)]| smaller_jobs(&job(runs)).contains(&job_of(5, Split::new(0, 5, runs)));
        assert!(smaller_has(&[(0, 1), (0, 20)]));
        assert!(!smaller_has(&[(0, 1), (1, 8)]));
    }

    #[test]
    fn no_run_is_empty_where_a_split_is_cut() {
        let split = Split::new(1, 9, &[(0, 2), (2, 3), (5, 3)]);
        assert_eq!(cut_to(&split, 5), Split::new(1, 5, &[(0, 2), (2, 2)]));
        assert_eq!(cut_to(&split, 3), Split::new(1, 3, &[(0, 2)]));
    }
}
