//! Jobs with runs at fault: accepted ones of which a run, or two of one split, is made empty, starts before the end of the run
//! before, or passes the split's end.

use crate::job::{Job, Run, Split};
use crate::random::Random;

/// The job with a fault or two, if it has a run at all. The more runs a split has, the more often it is taken.
pub fn spoiled(mut job: Job, random: &mut Random) -> Job {
    let splits_of_runs: Vec<usize> = (0..).zip(&job.splits).flat_map(|(place, split)| vec![place; split.runs.len()]).collect();
    if !splits_of_runs.is_empty() {
        let split = &mut job.splits[random.pick(&splits_of_runs)];
        for _ in 0..random.pick(&[1, 1, 2]) {
            let place = random.place(split.runs.len());
            split.runs[place] = spoiled_run(split, place, random);
        }
    }
    job
}

/// The run at this place with one fault, or with several of which one is asked first.
fn spoiled_run(split: &Split, place: usize, random: &mut Random) -> Run {
    let Run { start, length } = split.runs[place];
    let early = match place.checked_sub(1) {
        Some(before) => random.between(0, split.runs[before].end().saturating_sub(1)) as u32,
        None => start,
    };
    let rows = split.end - split.start;
    let long = (rows - start.min(rows)).saturating_add(random.pick(&[1, 2]));
    let ways = [
        (start, 0),
        (early, 0),
        (rows.saturating_add(1), 0),
        (early, length),
        (early, length),
        (early, long),
        (early, u32::MAX),
        (start, long),
        (start, u32::MAX),
        (u32::MAX, length),
    ];
    let (start, length) = random.pick(&ways);
    Run { start, length }
}

#[cfg(test)]
mod tests {
    use std::collections::BTreeMap;

    use super::*;
    use crate::generate;

    #[test]
    fn each_fault_comes_at_each_index_and_behind_runs_that_meet() {
        let mut behind: BTreeMap<(u8, u32), bool> = BTreeMap::new();
        for stream in 0..10_000 {
            let mut random = Random::new(1, stream);
            let job = spoiled(generate::job(&mut random), &mut random);
            let Some((split, refusal)) = job.split_at_fault() else { continue };
            let index = refusal.run.expect("a fault of a run");
            *behind.entry((refusal.number, index)).or_default() |= job.splits[split].meetings_before(index) > 0;
        }
        let first = [(17, 0), (17, 1), (18, 1), (19, 0), (19, 1)].map(|fault| (fault, false));
        let further = (2..16).flat_map(|index| [17, 18, 19].map(|number| ((number, index), true)));
        assert_eq!(behind, first.into_iter().chain(further).collect());
    }
}
