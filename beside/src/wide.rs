//! Row counts for wide jobs: those by which a port is just full, alone or together with others, or just not.

use crate::job::WIDE_ROWS;
use crate::random::Random;

/// Rows of a plan: one short of being wide, just wide, or some times as many.
pub fn plan_rows(random: &mut Random) -> u64 {
    let times = WIDE_ROWS * random.between(2, 6);
    let near = random.between(times - 2, times + 2);
    let any = random.between(WIDE_ROWS, 8 * WIDE_ROWS);
    random.pick(&[WIDE_ROWS - 1, WIDE_ROWS, WIDE_ROWS + 1, near, near, any, any, any])
}

/// Rows of a segment or a run: few, or about what fills a port.
fn telling(random: &mut Random) -> u64 {
    let any = random.between(1, WIDE_ROWS);
    random.pick(&[1, 2, WIDE_ROWS / 2, WIDE_ROWS - 2, WIDE_ROWS - 1, WIDE_ROWS, WIDE_ROWS + 1, any])
}

/// The rows as a sum of `count` numbers: one of them is what the others leave over.
pub fn parts(rows: u64, count: u64, random: &mut Random) -> Vec<u64> {
    let mut left = rows;
    let mut parts = Vec::new();
    for _ in 1..count {
        parts.push(telling(random).min(left));
        left -= parts[parts.len() - 1];
    }
    parts.insert(random.place(count as usize), left);
    parts
}

/// Long runs and a few short ones, with short gaps.
pub fn long_runs(rows: u64, random: &mut Random) -> Vec<(u64, u64)> {
    let most = random.pick(&[2, 3, 5, 16]);
    let mut runs = Vec::new();
    let mut start = random.between(0, 2);
    while start < rows && runs.len() < most {
        let length = telling(random).min(rows - start);
        runs.push((start, length));
        start += length + random.between(1, 2);
    }
    runs
}

#[cfg(test)]
mod tests {
    use super::*;
    use crate::generate::wide_job;
    use crate::job::{Job, Split};
    use crate::plan::Node;

    /// Whether this holds of a node of the plan.
    fn some_node(plan: &Node, holds: fn(&Node) -> bool) -> bool {
        plan.nodes().into_iter().any(holds)
    }

    /// Two neighbours that come to so many rows only together.
    fn neighbours_have(node: &Node, rows: u64) -> bool {
        let together = |two: &[Node]| two[0].rows() > 0 && two[1].rows() > 0 && two[0].rows() + two[1].rows() == rows;
        matches!(node, Node::Concat(children) if children.windows(2).any(together))
    }

    /// Rows of the first piece of each field.
    fn fronts(node: &Node) -> Vec<u64> {
        let fields = if let Node::Pack(fields) = node { &fields[..] } else { &[] };
        fields.iter().filter_map(|field| field.pieces().first().map(|piece| piece.rows)).collect()
    }

    /// A field's front fills a port, and that of another takes less of it.
    fn takes_part_of_a_front(node: &Node) -> bool {
        let fronts = fronts(node);
        let longest = fronts.iter().max().is_some_and(|rows| *rows >= WIDE_ROWS);
        longest && fronts.iter().any(|rows| *rows < WIDE_ROWS)
    }

    /// A run just fills a port, and another comes after it.
    fn goes_on_after_a_long_run(split: &Split) -> bool {
        let before = split.runs.split_last().map_or(&[][..], |(_, before)| before);
        before.iter().any(|run| u64::from(run.length).abs_diff(WIDE_ROWS) < 2)
    }

    fn keeps_a_long_run_only(split: &Split) -> bool {
        split.runs.len() == 1 && u64::from(split.runs[0].length) >= WIDE_ROWS
    }

    type Aim = (&'static str, fn(&Job) -> bool);

    #[test]
    fn ports_are_just_full_or_just_not() {
        let aims: [Aim; 9] = [
            ("wide", Job::is_wide),
            ("one row short", |job| job.plan.rows() == 65_535),
            ("just wide", |job| job.plan.rows() == 65_536),
            ("wide, several splits in several slots", |job| job.is_wide() && job.slots > 1 && job.splits.len() > 1),
            ("two that just fill a port", |job| some_node(&job.plan, |node| neighbours_have(node, 65_536))),
            ("two that just do not", |job| some_node(&job.plan, |node| neighbours_have(node, 65_535))),
            ("a part of a front", |job| some_node(&job.plan, takes_part_of_a_front)),
            ("a split of one long run", |job| job.splits.iter().any(keeps_a_long_run_only)),
            ("a split of several runs", |job| job.splits.iter().any(goes_on_after_a_long_run)),
        ];
        let jobs: Vec<Job> = (0..1000).map(|stream| wide_job(&mut Random::new(1, stream))).collect();
        for (aim, holds) in aims {
            let count = jobs.iter().filter(|job| holds(job)).count();
            assert!(count > 50, "{aim}: {count} of 1000 jobs");
        }
        for rows in [1, 2, 65_535, 65_536, 65_537] {
            let count = jobs.iter().filter(|job| job.plan.leaves().iter().any(|leaf| leaf.1 == rows)).count();
            assert!(count > 50, "segments of {rows} rows: {count} of 1000 jobs");
        }
    }
}
