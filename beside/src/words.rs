//! A session in words: its job as a tree, its calls, and what each side answers.

mod wide;

use std::fmt::Write;

use crate::answer::Answer;
use crate::callers::replay;
use crate::job::{Job, Split};
use crate::plan::Node;
use crate::records;
use crate::session::{Call, Session};
use crate::side::Side;
use crate::talk::{Subject, Talk};

const FIRST: &str = "Rust";
const SECOND: &str = "port";

/// A session played on both sides.
pub struct Shown {
    pub text: String,
    /// The sides are alike and demand 3 holds on both.
    pub sound: bool,
}

pub fn show<A: Side, B: Side>(session: &Session) -> Shown {
    let subject = Subject::new(session.job.clone());
    let apart = subject.is_wide().then(|| replay::<A, B>(&subject, &session.calls)).filter(Talk::opened);
    match apart {
        Some(talk) => wide::show(&subject, session, &talk),
        None => show_turns(&subject, session, &session.play::<A>(), &session.play::<B>()),
    }
}

/// Both sides' answers to the same calls.
fn show_turns(subject: &Subject, session: &Session, first: &[Answer], second: &[Answer]) -> Shown {
    let difference = (0..first.len().max(second.len())).find(|&at| first.get(at) != second.get(at));
    let mark = difference.map(|at| (at + 1, "first difference"));
    let mut text = job_in_words(subject);
    text += "\ncalls and answers\n";
    text += &table(&lines(session, first, second), mark);
    let alike = match difference {
        None => Ok("the answers are alike".to_string()),
        Some(_) => Err("the answers differ where it is marked".to_string()),
    };
    let demand = [(FIRST, first), (SECOND, second)].map(|(name, answers)| verdict(name, subject, &session.calls, answers));
    judged(text, [alike].into_iter().chain(demand), session)
}

/// The text with the verdicts and the bytes below it.
fn judged(mut text: String, verdicts: impl Iterator<Item = Result<String, String>>, session: &Session) -> Shown {
    let mut sound = true;
    text.push('\n');
    for verdict in verdicts {
        sound &= verdict.is_ok();
        let (Ok(line) | Err(line)) = verdict;
        text += &format!("{line}\n");
    }
    text += &format!("bytes: {}\n", hex(&session.bytes()));
    Shown { text, sound }
}

/// Demand 3 of one side's answers.
fn verdict(name: &str, subject: &Subject, calls: &[Call], answers: &[Answer]) -> Result<String, String> {
    if answers[0] != Answer::Open {
        return Ok(format!("demand 3, {name}: says nothing of a refused job"));
    }
    let demand = subject.demand().ok_or(format!("{name}: opened what is no job"))?;
    match demand.check(calls, answers).first() {
        None => Ok(format!("demand 3, {name}: holds")),
        Some(broken) => Err(format!("demand 3, {name}: broken at call {}: {}", broken.at, broken.fact)),
    }
}

fn job_in_words(subject: &Subject) -> String {
    match &subject.job {
        Some(job) => tree_in_words(job),
        None => records_in_words(&subject.bytes),
    }
}

fn tree_in_words(job: &Job) -> String {
    let mut text = format!("job, {}\n", counted(job.slots.into(), "slot"));
    node_in_words(&job.plan, 1, &mut text);
    for (number, split) in job.splits.iter().enumerate() {
        text += &format!("  split {number}: {}\n", split_in_words(split));
    }
    text
}

fn counted(count: u64, what: &str) -> String {
    format!("{count} {what}{}", if count == 1 { "" } else { "s" })
}

fn node_in_words(node: &Node, depth: usize, text: &mut String) {
    let rows = counted(node.rows(), "row");
    let line = match node {
        Node::Segment { segment, .. } => format!("segment {segment}, {rows}"),
        Node::Concat(_) => format!("concat, {rows}"),
        Node::Pack(_) => format!("pack, {rows}"),
    };
    *text += &format!("{:1$}{line}\n", "", 2 * depth);
    for child in node.children() {
        node_in_words(child, depth + 1, text);
    }
}

fn split_in_words(split: &Split) -> String {
    let mut line = format!("rows {}..{}, keeps", split.start, split.end);
    if split.runs.is_empty() {
        line += " nothing";
    }
    for run in &split.runs {
        line += &format!(" {}+{}", run.start, run.length);
    }
    line
}

/// Bytes that are no tree: the records as they stand.
fn records_in_words(bytes: &[u8]) -> String {
    let (list, rest) = records::take_while(bytes, |_| true);
    let mut text = "job (not a tree), record by record:\n".to_string();
    for record in list {
        text += &format!("  {}", String::from_utf8_lossy(&record.mark));
        for field in record.fields {
            text += &format!(" {field}");
        }
        text.push('\n');
    }
    if !rest.is_empty() {
        text += &format!("  no record: {}\n", hex(rest));
    }
    text
}

fn hex(bytes: &[u8]) -> String {
    let mut text = String::new();
    for byte in bytes {
        let _ = write!(text, "{byte:02x}");
    }
    text
}

fn call_in_words(call: &Call) -> String {
    match call {
        Call::Step => "step".to_string(),
        Call::Deliver { read, rows } => format!("deliver read {read}, {}", counted((*rows).into(), "row")),
    }
}

/// A head; then, for the opening and each call, what it is, and both answers.
fn lines(session: &Session, first: &[Answer], second: &[Answer]) -> Vec<[String; 3]> {
    let calls = session.calls.iter().map(call_in_words);
    let rest = (!session.rest.is_empty()).then(|| format!("no call: {}", hex(&session.rest)));
    let asked = ["open".to_string()].into_iter().chain(calls).chain(rest);
    let answer = |answers: &[Answer], at: usize| answers.get(at).map(ToString::to_string).unwrap_or_default();
    let lines = asked.enumerate().map(|(at, call)| [call, answer(first, at), answer(second, at)]);
    let head = ["", FIRST, SECOND].map(str::to_string);
    [head].into_iter().chain(lines.take(first.len().max(second.len()))).collect()
}

/// The lines in columns, one of them with a mark.
fn table<const COLUMNS: usize>(lines: &[[String; COLUMNS]], mark: Option<(usize, &str)>) -> String {
    let widths: [usize; COLUMNS] = std::array::from_fn(|column| lines.iter().map(|line| line[column].len()).max().unwrap_or(0));
    let mut text = String::new();
    for (at, line) in lines.iter().enumerate() {
        let mut row = String::from(" ");
        for (cell, width) in line.iter().zip(widths) {
            row += &format!(" {cell:width$} ");
        }
        if let Some((_, what)) = mark.filter(|(marked, _)| *marked == at) {
            row += &format!(" <-- {what}");
        }
        text += &format!("{}\n", row.trim_end());
    }
    text
}

#[cfg(test)]
mod tests {
    use super::*;
    use crate::callers::Prompt;
    use crate::talk::talk;
    use crate::testing::{self, Plain, Wrong};

    #[test]
    fn the_first_difference_is_marked() {
        let job = b"SC\x01\0\0\0SG\x05\0\0\0\x02\0\0\0SP\0\0\0\0\x02\0\0\0\x01\0\0\0\0\0\0\0\x02\0\0\0";
        let subject = Subject::new(job.to_vec());
        let session = talk::<Plain, Plain>(&subject, &mut Prompt).session(&subject);
        assert!(show::<Plain, Plain>(&session).sound);
        let shown = show::<Plain, Wrong<{ testing::INVENTED_ROWS }>>(&session);
        assert!(!shown.sound);
        let marked: Vec<&str> = shown.text.lines().filter(|line| line.ends_with("<-- first difference")).collect();
        assert_eq!(marked, ["  deliver read 0, 2 rows  out 0 2 5:0  out 0 3 5:0  <-- first difference"]);
        assert!(shown.text.starts_with("job, 1 slot\n  segment 5, 2 rows\n  split 0: rows 0..2, keeps 0+2\n"));
    }
}
