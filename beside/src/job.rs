//! A job as a tree with splits, to and from its bytes. Nothing is refused here but what is no tree at all.

use crate::plan::Node;
use crate::records::{self, CONCAT, PACK, Record, SEGMENT, SLOTS, SPLIT};
use crate::side::Refusal;

/// A job whose plan has so many rows, or more, is wide: at so many rows a port is full, though it has fewer than 8 batches.
pub const WIDE_ROWS: u64 = 65_536;

#[derive(Clone, Copy, Debug, PartialEq, Eq)]
pub struct Run {
    /// Counted from the split's start.
    pub start: u32,
    pub length: u32,
}

#[derive(Clone, Debug, PartialEq, Eq)]
pub struct Split {
    pub start: u32,
    pub end: u32,
    pub runs: Vec<Run>,
}

#[derive(Clone, Debug, PartialEq, Eq)]
pub struct Job {
    pub slots: u32,
    pub plan: Node,
    pub splits: Vec<Split>,
}

impl Run {
    pub fn end(self) -> u64 {
        u64::from(self.start) + u64::from(self.length)
    }

    /// Whether `next` starts where this one ends.
    pub fn meets(self, next: Self) -> bool {
        self.end() == u64::from(next.start)
    }
}

impl Split {
    /// Each run as its start and length.
    pub fn new(start: u32, end: u32, runs: &[(u32, u32)]) -> Self {
        let runs = runs.iter().map(|&(start, length)| Run { start, length });
        Self { start, end, runs: runs.collect() }
    }

    /// Whether a run starts where the one before ends.
    pub fn has_meeting_runs(&self) -> bool {
        self.runs.windows(2).any(|two| two[0].meets(two[1]))
    }

    /// How often two of the runs before this one meet.
    pub fn meetings_before(&self, index: u32) -> usize {
        let before = &self.runs[..self.runs.len().min(index as usize)];
        before.windows(2).filter(|two| two[0].meets(two[1])).count()
    }

    /// How its first run at fault is refused, by document 02: 17 if it is empty, else 18 if it starts before the end of the run
    /// before, else 19 if it passes the split's end. The split itself is not asked.
    pub fn run_at_fault(&self) -> Option<Refusal> {
        let rows = u64::from(self.end.saturating_sub(self.start));
        let before = [0].into_iter().chain(self.runs.iter().map(|run| run.end()));
        (0..).zip(self.runs.iter().zip(before)).find_map(|(index, (run, before))| {
            let asked = [(17, run.length == 0), (18, u64::from(run.start) < before), (19, run.end() > rows)];
            let fault = asked.iter().find(|(_, at_fault)| *at_fault);
            fault.map(|(number, _)| Refusal { number: *number, run: Some(index) })
        })
    }

    fn record(&self) -> Record {
        let mut fields = vec![self.start, self.end, self.runs.len() as u32];
        fields.extend(self.runs.iter().flat_map(|run| [run.start, run.length]));
        Record { mark: SPLIT, fields }
    }

    fn of(record: &Record) -> Option<Self> {
        let [start, end, _, runs @ ..] = &record.fields[..] else { return None };
        let runs = runs.chunks_exact(2).map(|run| Run { start: run[0], length: run[1] });
        Some(Self { start: *start, end: *end, runs: runs.collect() })
    }
}

impl Job {
    pub fn bytes(&self) -> Vec<u8> {
        records::bytes_of(&self.records())
    }

    /// Whether its ports can fill by rows. The Rust's do not, so that its turns may then be others.
    pub fn is_wide(&self) -> bool {
        self.plan.rows() >= WIDE_ROWS
    }

    /// The first split with a run at fault, and how it is refused.
    pub fn split_at_fault(&self) -> Option<(usize, Refusal)> {
        self.splits.iter().enumerate().find_map(|(place, split)| Some((place, split.run_at_fault()?)))
    }

    fn records(&self) -> Vec<Record> {
        let mut list = vec![Record::new(SLOTS, &[self.slots])];
        add_node(&self.plan, &mut list);
        list.extend(self.splits.iter().map(Split::record));
        list
    }

    /// The job that these bytes write down: slots, then one tree, then splits, and nothing else.
    pub fn read(bytes: &[u8]) -> Option<Self> {
        let (records, rest) = records::take_while(bytes, |record| !record.is_call());
        let (front, rest_of) = records.split_first()?;
        if !rest.is_empty() || front.mark != SLOTS {
            return None;
        }
        let nodes = rest_of.iter().take_while(|record| record.mark != SPLIT);
        let plan = read_plan(nodes)?;
        let splits = rest_of.iter().skip_while(|record| record.mark != SPLIT);
        let splits = splits.map(|record| Split::of(record).filter(|_| record.mark == SPLIT));
        Some(Self { slots: front.fields[0], plan, splits: splits.collect::<Option<_>>()? })
    }
}

fn add_node(node: &Node, list: &mut Vec<Record>) {
    for child in node.children() {
        add_node(child, list);
    }
    let children = node.children().len() as u32;
    list.push(match node {
        Node::Segment { segment, rows } => Record::new(SEGMENT, &[*segment, *rows]),
        Node::Concat(_) => Record::new(CONCAT, &[children]),
        Node::Pack(_) => Record::new(PACK, &[children]),
    });
}

/// Children stand before parents: a node takes the newest parentless ones.
fn read_plan<'a>(nodes: impl Iterator<Item = &'a Record>) -> Option<Node> {
    let mut parentless: Vec<Node> = Vec::new();
    for record in nodes {
        let node = if record.mark == SEGMENT {
            Node::Segment { segment: record.fields[0], rows: record.fields[1] }
        } else {
            let count = record.fields[0] as usize;
            let oldest = parentless.len().checked_sub(count).filter(|_| count > 0)?;
            let children = parentless.split_off(oldest);
            match record.mark {
                CONCAT => Node::Concat(children),
                PACK => Node::Pack(children),
                _ => return None,
            }
        };
        parentless.push(node);
    }
    let root = parentless.pop()?;
    parentless.is_empty().then_some(root)
}

#[cfg(test)]
mod tests {
    use super::*;
    use crate::generate;
    use crate::random::Random;

    #[test]
    fn a_job_is_read_back() {
        for stream in 0..200 {
            let job = generate::job(&mut Random::new(1, stream));
            assert_eq!(Job::read(&job.bytes()).as_ref(), Some(&job));
        }
    }

    #[test]
    fn a_job_is_wide_from_65536_rows_on() {
        let segment = |segment, rows| Node::Segment { segment, rows };
        let is_wide = |plan| Job { slots: 1, plan, splits: Vec::new() }.is_wide();
        assert!(!is_wide(segment(1, 65_535)) && is_wide(segment(1, 65_536)));
        assert!(is_wide(Node::Concat(vec![segment(1, 65_535), segment(2, 1)])));
        assert!(!is_wide(Node::Pack(vec![segment(1, 65_535), segment(2, 65_535)])));
    }

    #[test]
    fn the_first_run_at_fault() {
        let fault = |start, end, runs: &[(u32, u32)]| {
            let refusal = Split::new(start, end, runs).run_at_fault();
            refusal.map(|refusal| (refusal.number, refusal.run))
        };
        assert_eq!(fault(0, 4, &[(0, 1), (1, 1), (3, 1)]), None);
        assert_eq!(fault(0, 4, &[(0, 1), (1, 1), (2, 0)]), Some((17, Some(2))));
        assert_eq!(fault(0, 4, &[(0, 2), (1, 9), (4, 0)]), Some((18, Some(1))));
        assert_eq!(fault(2, 4, &[(0, 2), (2, 1)]), Some((19, Some(1))));
        assert_eq!(fault(0, 4, &[(u32::MAX, 2), (0, 0)]), Some((19, Some(0))));
    }

    #[test]
    fn what_is_no_tree_is_no_job() {
        let two_roots = b"SC\x01\0\0\0SG\x01\0\0\0\x01\0\0\0SG\x02\0\0\0\x01\0\0\0";
        let no_children = b"SC\x01\0\0\0CC\x01\0\0\0";
        let cut_short = b"SC\x01\0\0\0SG\x01\0\0\0\x01\0\0";
        for bytes in [&two_roots[..], no_children, cut_short, b""] {
            assert_eq!(Job::read(bytes), None);
        }
    }
}
