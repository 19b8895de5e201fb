//! Random jobs that are accepted: shared segments, several slots, ports that fill by batches or by rows, up to every limit.

use crate::job::{Job, Split};
use crate::plan::Node;
use crate::random::Random;
use crate::wide;

const MOST_ROWS: u64 = u32::MAX as u64;

/// Whether ports are made to fill, and how.
#[derive(Clone, Copy, PartialEq, Eq)]
enum Filled {
    /// As it comes.
    Any,
    /// By many short runs.
    ByBatches,
    /// By segments and runs of many rows.
    ByRows,
}

/// What kind of job to make.
struct Taste {
    nodes: u64,
    rows: u64,
    width: u64,
    /// In a hundred: a segment of the right rows named again, a join where a segment would do, a pack where several columns are
    /// joined.
    again: u64,
    joins: u64,
    packs: u64,
    filled: Filled,
}

impl Taste {
    fn any(random: &mut Random) -> Self {
        let width = random.pick(&[1, 1, 1, 2, 3, 4]);
        let few = random.between(width + 1, 9);
        let nodes = random.pick(&[24, few, few, 16]);
        let rows = match random.between(0, 5) {
            0 => random.between(0, 4),
            1 => random.between(4, 16),
            2 => 12 * random.between(1, 8),
            3 => random.between(16, 100),
            4 => MOST_ROWS >> random.between(0, 32),
            _ => random.between(0, MOST_ROWS),
        };
        let (again, joins) = (random.pick(&[0, 40, 90]), random.pick(&[20, 60, 95]));
        Self { nodes, rows, width, again, joins, packs: 50, filled: Filled::Any }
    }

    fn crowded(random: &mut Random) -> Self {
        let width = random.pick(&[1, 1, 2, 3]);
        let nodes = random.between(width + 1, 24);
        let uneven = random.between(18, 90);
        let rows = random.pick(&[24, 36, 48, uneven]);
        let (again, joins) = (random.pick(&[0, 50, 90, 100]), random.pick(&[50, 80, 95]));
        Self { nodes, rows, width, again, joins, packs: 50, filled: Filled::ByBatches }
    }

    fn wide(random: &mut Random) -> Self {
        let width = random.pick(&[1, 2, 2, 3]);
        let nodes = random.between(2 * width + 1, 16);
        let rows = wide::plan_rows(random);
        let (again, joins) = (random.pick(&[0, 0, 50]), random.pick(&[50, 80, 95]));
        Self { nodes, rows, width, again, joins, packs: 75, filled: Filled::ByRows }
    }
}

pub fn job(random: &mut Random) -> Job {
    let taste = if random.chance(40) { Taste::crowded(random) } else { Taste::any(random) };
    job_of(&taste, random)
}

/// A job that is wide, or one row short of it.
pub fn wide_job(random: &mut Random) -> Job {
    let taste = Taste::wide(random);
    job_of(&taste, random)
}

fn job_of(taste: &Taste, random: &mut Random) -> Job {
    let highest_segment = random.pick(&[30, 60, MOST_ROWS]);
    let mut grower = Grower { taste, highest_segment, segments: Vec::new(), random };
    let plan = grower.node(taste.rows, taste.width, taste.nodes);
    let splits = splits(taste, random);
    Job { slots: random.between(1, 3) as u32, plan, splits }
}

/// Grows a tree downwards, from the rows, width and number of nodes that it may have.
struct Grower<'a> {
    taste: &'a Taste,
    highest_segment: u64,
    /// Each segment with its rows.
    segments: Vec<(u32, u32)>,
    random: &'a mut Random,
}

/// The fewest nodes that a node of this width can have below it and with it.
fn fewest(width: u64) -> u64 {
    if width == 1 { 1 } else { width + 1 }
}

impl Grower<'_> {
    fn node(&mut self, rows: u64, width: u64, nodes: u64) -> Node {
        let below = nodes - 1;
        if width == 1 && (below == 0 || !self.random.chance(self.taste.joins)) {
            return self.segment(rows as u32);
        }
        let room = below / fewest(width);
        if room == 0 || self.random.chance(if width == 1 { 15 } else { self.taste.packs }) {
            let widths = self.widths(width, below);
            let fields: Vec<(u64, u64)> = widths.into_iter().map(|width| (rows, width)).collect();
            Node::Pack(self.children(&fields, below))
        } else {
            let most = if self.random.chance(25) { room } else { room.min(4) };
            let count = self.random.between(1, most);
            let parts: Vec<(u64, u64)> = self.parts(rows, count).into_iter().map(|rows| (rows, width)).collect();
            Node::Concat(self.children(&parts, below))
        }
    }

    /// Children of these rows and widths, with `nodes` nodes or fewer together.
    fn children(&mut self, wanted: &[(u64, u64)], nodes: u64) -> Vec<Node> {
        let mut shares: Vec<u64> = wanted.iter().map(|(_, width)| fewest(*width)).collect();
        for _ in shares.iter().sum::<u64>()..nodes {
            let lucky = self.random.place(shares.len());
            shares[lucky] += 1;
        }
        let children = wanted.iter().zip(shares);
        children.map(|(&(rows, width), nodes)| self.node(rows, width, nodes)).collect()
    }

    /// The width as a sum of fields that `nodes` nodes can hold.
    fn widths(&mut self, width: u64, nodes: u64) -> Vec<u64> {
        let mut widths = Vec::new();
        let mut left = width;
        while left > 0 {
            widths.push(self.random.between(1, left));
            left -= widths[widths.len() - 1];
        }
        let fits = widths.iter().map(|width| fewest(*width)).sum::<u64>() <= nodes;
        if fits { widths } else { vec![1; width as usize] }
    }

    /// The rows as a sum of `count` numbers, often equal, some of them 0; where ports fill by rows, often such as do.
    fn parts(&mut self, rows: u64, count: u64) -> Vec<u64> {
        if self.taste.filled == Filled::ByRows && self.random.chance(80) {
            return wide::parts(rows, count, self.random);
        }
        let even = rows / count;
        let cuts: Vec<u64> = if self.random.chance(60) {
            (1..count).map(|part| part * even).collect()
        } else {
            self.random.rising(count - 1, rows)
        };
        let ends = cuts.iter().copied().chain([rows]);
        let starts = [0].into_iter().chain(cuts.iter().copied());
        ends.zip(starts).map(|(end, start)| end - start).collect()
    }

    fn segment(&mut self, rows: u32) -> Node {
        let alike: Vec<u32> = self.segments.iter().filter(|known| known.1 == rows).map(|known| known.0).collect();
        if !alike.is_empty() && self.random.chance(self.taste.again) {
            return Node::Segment { segment: self.random.pick(&alike), rows };
        }
        loop {
            let segment = self.random.between(0, self.highest_segment) as u32;
            if self.segments.iter().all(|known| known.0 != segment) {
                self.segments.push((segment, rows));
                return Node::Segment { segment, rows };
            }
        }
    }
}

fn splits(taste: &Taste, random: &mut Random) -> Vec<Split> {
    let any = random.between(0, 16);
    let count = random.pick(&[1, 2, 3, 5, any, 16]) as usize;
    let cuts = random.rising(2 * count as u64, taste.rows);
    // Splits with gaps between them are short: there ports seldom fill by rows.
    let ways: &[u8] = if taste.filled == Filled::ByRows { &[0, 2, 3] } else { &[0, 1, 2, 3] };
    let mut bounds: Vec<(u64, u64)> = match random.pick(ways) {
        0 => vec![(0, taste.rows); count],
        // With gaps between them; one after another; overlapping.
        1 => cuts.chunks_exact(2).map(|pair| (pair[0], pair[1])).collect(),
        2 => cuts.windows(2).map(|pair| (pair[0], pair[1])).take(count).collect(),
        _ => cuts.iter().copied().zip(cuts[count..].iter().copied()).collect(),
    };
    if random.chance(30) {
        random.shuffle(&mut bounds);
    }
    let bounds = bounds.into_iter();
    bounds.map(|(start, end)| split(start, end, taste, random)).collect()
}

fn split(start: u64, end: u64, taste: &Taste, random: &mut Random) -> Split {
    let rows = end - start;
    let kind = random.between(0, if taste.filled == Filled::ByBatches { 30 } else { 9 });
    let runs = match kind {
        0 => Vec::new(),
        _ if rows == 0 => Vec::new(),
        1..=3 => vec![(0, rows)],
        4 | 5 => scattered(rows, random),
        _ if taste.filled == Filled::ByRows => wide::long_runs(rows, random),
        _ => short_runs(rows, random),
    };
    let runs = if random.chance(30) { meeting(runs, random) } else { runs };
    let runs: Vec<(u32, u32)> = runs.into_iter().map(|(start, length)| (start as u32, length as u32)).collect();
    Split::new(start as u32, end as u32, &runs)
}

/// Runs anywhere in the split: between each two of an even number of different rows.
fn scattered(rows: u64, random: &mut Random) -> Vec<(u64, u64)> {
    let count = random.between(1, 16);
    let mut bounds = random.rising(2 * count, rows);
    bounds.dedup();
    bounds.chunks_exact(2).map(|pair| (pair[0], pair[1] - pair[0])).collect()
}

/// Short runs with short gaps, as many as are allowed.
fn short_runs(rows: u64, random: &mut Random) -> Vec<(u64, u64)> {
    let (longest, widest) = (random.pick(&[1, 1, 1, 2, 5]), random.pick(&[1, 1, 1, 2, 5]));
    let mut runs = Vec::new();
    let mut start = random.between(0, 2);
    while start < rows && runs.len() < 16 {
        let length = random.between(1, longest).min(rows - start);
        runs.push((start, length));
        start += length + random.between(1, widest);
    }
    runs
}

/// The same starts, with runs lengthened up to the next one: all but the last, or some.
fn meeting(mut runs: Vec<(u64, u64)>, random: &mut Random) -> Vec<(u64, u64)> {
    let lengthened = random.pick(&[30, 70, 100]);
    for next in 1..runs.len() {
        if random.chance(lengthened) {
            runs[next - 1].1 = runs[next].0 - runs[next - 1].0;
        }
    }
    runs
}

#[cfg(test)]
mod tests {
    use super::*;
    use crate::job::Run;

    fn meet(runs: &[Run]) -> bool {
        runs.windows(2).all(|two| two[0].meets(two[1]))
    }

    /// Whether two runs meet where one piece of the plan's rows ends and the next begins.
    fn meet_at_a_border(job: &Job, split: &Split) -> bool {
        let ends = job.plan.pieces().into_iter().scan(0, |end, piece| {
            *end += piece.rows;
            Some(*end)
        });
        let ends: Vec<u64> = ends.collect();
        let at_an_end = |run: &Run| ends.contains(&(u64::from(split.start) + u64::from(run.start)));
        split.runs.windows(2).any(|two| meet(two) && at_an_end(&two[1]))
    }

    type Way = (&'static str, fn(&Job, &Split) -> bool);

    /// Whether this holds of a node of the plan.
    fn some_node(job: &Job, holds: impl Fn(&Node) -> bool) -> bool {
        job.plan.nodes().into_iter().any(holds)
    }

    /// A concat of one child whose child is a pack of one, or the other way round.
    fn is_mixed_row(node: &Node) -> bool {
        let is_pack = |node: &Node| matches!(node, Node::Pack(_));
        matches!(node.children(), [child] if child.joins_of_one() > 0 && is_pack(node) != is_pack(child))
    }

    /// Whether such a join is a child of this one of several.
    fn is_over_join_of_one(node: &Node) -> bool {
        node.children().len() > 1 && node.children().iter().any(|child| child.joins_of_one() > 0)
    }

    fn is_over_shared_segment(job: &Job, node: &Node) -> bool {
        let twice = |name: u32| job.plan.leaves().iter().filter(|leaf| leaf.0 == name).count() > 1;
        matches!(node.children(), [Node::Segment { segment, .. }] if twice(*segment))
    }

    type JoinWay = (&'static str, fn(&Job) -> bool);

    #[test]
    fn joins_of_one_child_come_in_many_ways() {
        let ways: [JoinWay; 7] = [
            ("at the root", |job| job.plan.joins_of_one() > 0),
            ("three in a row", |job| some_node(job, |node| node.joins_of_one() > 2)),
            ("concat and pack in a row", |job| some_node(job, is_mixed_row)),
            ("below a concat", |job| some_node(job, |node| matches!(node, Node::Concat(_)) && is_over_join_of_one(node))),
            ("below a pack", |job| some_node(job, |node| matches!(node, Node::Pack(_)) && is_over_join_of_one(node))),
            ("over several", |job| some_node(job, |node| node.joins_of_one() == 1 && node.children()[0].children().len() > 1)),
            ("over a segment of two leaves", |job| some_node(job, |node| is_over_shared_segment(job, node))),
        ];
        for make in [job, wide_job] {
            let jobs: Vec<Job> = (0..1000).map(|stream| make(&mut Random::new(1, stream))).collect();
            for (way, holds) in ways {
                let count = jobs.iter().filter(|job| holds(job)).count();
                assert!(count > 20, "{way}: {count} of 1000 jobs");
            }
        }
        let at_limit = |job: &Job| job.plan.nodes().len() == 24 && some_node(job, |node| node.joins_of_one() > 0);
        let count = (0..1000).filter(|stream| at_limit(&job(&mut Random::new(1, *stream)))).count();
        assert!(count > 20, "24 nodes: {count} of 1000 jobs");
    }

    #[test]
    fn runs_meet_in_many_ways() {
        let ways: [Way; 5] = [
            ("some meet", |_, split| split.has_meeting_runs()),
            ("some meet, some do not", |_, split| split.has_meeting_runs() && !meet(&split.runs)),
            ("four in a row", |_, split| split.runs.windows(4).any(meet)),
            ("all of sixteen", |_, split| split.runs.len() == 16 && meet(&split.runs)),
            ("at a border", meet_at_a_border),
        ];
        let jobs: Vec<Job> = (0..1000).map(|stream| job(&mut Random::new(1, stream))).collect();
        for (way, holds) in ways {
            let count = jobs.iter().filter(|job| job.splits.iter().any(|split| holds(job, split))).count();
            assert!(count > 20, "{way}: {count} of 1000 jobs");
        }
    }
}
