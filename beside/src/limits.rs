//! Jobs at a limit or one past it, and jobs with a fault that one refusal names.

use crate::random::Random;
use crate::records::{CONCAT, PACK, Record, SEGMENT, SLOTS, SPLIT, bytes_of};

const HIGHEST: u32 = u32::MAX;

/// Each makes the nodes and splits of a job, near one limit.
const NEAR: [fn(&mut Random) -> Vec<Record>; 11] =
    [nodes, fields, packs, children, roots, splits, runs, faulty_runs, rows, row_counts, bounds];

pub fn at_limit(random: &mut Random) -> Vec<u8> {
    let past = random.pick(&[0, 4, 256, HIGHEST]);
    let slots = if random.chance(8) { past } else { random.between(1, 3) as u32 };
    let mut list = vec![Record::new(SLOTS, &[slots])];
    list.extend(random.pick(&NEAR)(random));
    if random.chance(15) {
        // A second fault, to see which one is named.
        let faults = [split(1, 0, &[]), split(0, 1, &[0, 0]), split(0, HIGHEST, &[]), Record::new(SLOTS, &[9])];
        list.push(faults[random.place(faults.len())].clone());
    }
    bytes_of(&list)
}

fn segment(segment: u32, rows: u32) -> Record {
    Record::new(SEGMENT, &[segment, rows])
}

fn segments(count: u32, rows: u32) -> Vec<Record> {
    (0..count).map(|name| segment(name, rows)).collect()
}

fn join(random: &mut Random, children: u32) -> Record {
    Record::new(random.pick(&[CONCAT, PACK]), &[children])
}

/// Runs as starts and lengths.
fn split(start: u32, end: u32, runs: &[u32]) -> Record {
    let fields = [&[start, end, runs.len() as u32 / 2], runs].concat();
    Record { mark: SPLIT, fields }
}

/// 23 to 25 nodes: segments and a concat of them all, with joins of one child among them or none.
fn nodes(random: &mut Random) -> Vec<Record> {
    let joined = random.between(22, 24) as u32;
    let leaves = if random.chance(50) { joined } else { random.between(1, joined.into()) as u32 };
    let mut list = segments(leaves, 2);
    list.push(Record::new(CONCAT, &[leaves]));
    for _ in leaves..joined {
        list.insert(1 + random.place(list.len()), join(random, 1));
    }
    list.push(split(0, 2, &[0, 2]));
    list
}

/// A pack of 3 to 6 columns, its last field sometimes of other rows.
fn fields(random: &mut Random) -> Vec<Record> {
    let count = random.between(3, 6) as u32;
    let last = segment(99, random.pick(&[2, 2, 3]));
    [segments(count - 1, 2), vec![last, Record::new(PACK, &[count]), split(0, 2, &[0, 2])]].concat()
}

/// Two packs joined: too many columns, or unequal width.
fn packs(random: &mut Random) -> Vec<Record> {
    let mut list = Vec::new();
    for _ in 0..2 {
        let width = random.between(1, 4) as u32;
        list.extend(segments(width, 2));
        list.push(Record::new(PACK, &[width]));
    }
    list.extend([join(random, 2), split(0, 2, &[0, 2])]);
    list
}

/// A join of no children, of all that are there, or of one more.
fn children(random: &mut Random) -> Vec<Record> {
    let leaves = random.between(0, 3) as u32;
    let count = random.pick(&[0, leaves, leaves + 1, HIGHEST]);
    [segments(leaves, 4), vec![join(random, count)]].concat()
}

/// No root, one or several, and perhaps a split.
fn roots(random: &mut Random) -> Vec<Record> {
    let count = random.between(0, 3) as u32;
    let end = split(random.pick(&[0, 9]), random.pick(&[0, 4]), &[]);
    [segments(count, 4), random.chance(50).then_some(end).into_iter().collect()].concat()
}

/// 15 to 17 splits.
fn splits(random: &mut Random) -> Vec<Record> {
    let count = random.between(15, 17) as u32;
    let single = (0..count).map(|row| split(row, row + 1, &[0, 1]));
    [segment(1, 17)].into_iter().chain(single).collect()
}

/// 15 to 17 runs, each of which meets the next, or none.
fn runs(random: &mut Random) -> Vec<Record> {
    let count = random.between(15, 17) as u32;
    let apart = random.pick(&[1, 2]);
    let runs: Vec<u32> = (0..count).flat_map(|run| [apart * run, 1]).collect();
    vec![segment(1, 40), split(random.pick(&[0, 1, 41]), 40, &runs)]
}

/// 1 to 17 runs, often 16, each of which meets the next, or none; one of them is changed, most often to one at fault.
fn faulty_runs(random: &mut Random) -> Vec<Record> {
    let any = random.between(1, 17) as u32;
    let count = random.pick(&[any, 16]);
    let apart = random.pick(&[1, 2]);
    let mut runs: Vec<u32> = (0..count).flat_map(|run| [apart * run, 1]).collect();
    let place = 2 * random.place(count as usize);
    runs[place] = random.pick(&[runs[place], runs[place], runs[place].saturating_sub(1), 0, 40, HIGHEST]);
    runs[place + 1] = random.pick(&[0, 1, 2, 40, 41, HIGHEST]);
    vec![segment(1, 40), split(random.pick(&[0, 0, 1, 41]), 40, &runs)]
}

/// Rows around 4,294,967,295, sometimes with unequal width as well.
fn rows(random: &mut Random) -> Vec<Record> {
    let rows = random.pick(&[1, 2, 1 << 31, HIGHEST - 1, HIGHEST]);
    let left = HIGHEST - rows;
    let second = random.pick(&[left, left.saturating_add(1), 0, rows]);
    let mut list = vec![segment(1, rows), segment(2, second)];
    if random.chance(20) {
        list.extend([Record::new(PACK, &[2]), segment(3, second)]);
    }
    let end = rows.saturating_add(random.pick(&[0, second]));
    let split = split(0, end, &[random.pick(&[0, end / 2]), 1, end.saturating_sub(1), 1]);
    list.extend([Record::new(CONCAT, &[2]), split]);
    list
}

/// One segment at two leaves, with one row count or two.
fn row_counts(random: &mut Random) -> Vec<Record> {
    let rows = random.pick(&[0, 1, 4, HIGHEST]);
    let other = random.pick(&[rows, rows.saturating_add(1), rows ^ 1]);
    vec![segment(7, rows), segment(7, other), join(random, 2), split(0, 1, &[0, 1])]
}

/// A split around the plan's rows, with runs around the split's; runs that meet or overlap.
fn bounds(random: &mut Random) -> Vec<Record> {
    let rows = random.pick(&[0, 6, 6, HIGHEST]);
    let places = [0, 1, rows / 2, rows.saturating_sub(1), rows, rows.saturating_add(1)];
    let (start, end) = (random.pick(&places), random.pick(&places));
    let inside = end.saturating_sub(start);
    let starts = [0, 1, 2, inside.saturating_sub(1), inside, HIGHEST];
    let lengths = [0, 1, 1, 2, inside, inside.saturating_add(1), HIGHEST];
    let count = random.between(0, 3);
    let mut runs: Vec<u32> = (0..count).flat_map(|_| [random.pick(&starts), random.pick(&lengths)]).collect();
    if runs.len() >= 4 && random.chance(50) {
        // The second run starts before, at or after the end of the first.
        runs[2] = runs[0].wrapping_add(runs[1]).wrapping_add(random.pick(&[0, 1, HIGHEST]));
    }
    vec![segment(1, rows), split(start, end, &runs)]
}

#[cfg(test)]
mod tests {
    use super::*;
    use crate::records::take_while;
    use crate::rust::RustSide;
    use crate::side::Side;

    /// How many nodes the job's records have, and how many of them are joins of one child.
    fn counted(job: &[u8]) -> (usize, usize) {
        let (list, _) = take_while(job, |_| true);
        let joins = list.iter().filter(|record| [CONCAT, PACK].contains(&record.mark));
        let segments = list.iter().filter(|record| record.mark == SEGMENT).count();
        (segments + joins.clone().count(), joins.filter(|record| record.fields == [1]).count())
    }

    #[test]
    fn joins_of_one_child_count_to_the_24() {
        let jobs: Vec<Vec<u8>> = (0..5000).map(|stream| at_limit(&mut Random::new(1, stream))).collect();
        let of_nodes = |nodes| jobs.iter().filter(move |job| matches!(counted(job), (count, 1..) if count == nodes));
        let opened = |nodes| of_nodes(nodes).filter(|job| RustSide::open(job).is_ok()).count();
        let counts = [opened(23), opened(24), of_nodes(25).count()];
        assert!(counts.iter().all(|count| *count > 20), "{counts:?}");
        assert!(of_nodes(25).all(|job| RustSide::open(job).is_err_and(|refusal| refusal == 3.into())));
    }
}
