//! A session on a wide job: each side's calls and answers by themselves, and the joined rows where they differ.

use super::{FIRST, SECOND, Shown, call_in_words, hex, job_in_words, judged, table, verdict};
use crate::job::WIDE_ROWS;
use crate::rows::{Joined, Stretch};
use crate::session::Session;
use crate::talk::{Part, Subject, Talk};
use crate::tally::grouped;

/// Answers that are shown of a side that neither breaks demand 3 nor comes to Done.
const ANSWERS_SHOWN: usize = 50;

pub fn show(subject: &Subject, session: &Session, talk: &Talk) -> Shown {
    let sides = [(FIRST, &talk.first), (SECOND, &talk.second)];
    let rows = talk.parts().map(|part| Joined::of(&part.answers));
    let differing = rows[0].differing(&rows[1]);
    let mut text = job_in_words(subject);
    let wide = grouped(WIDE_ROWS);
    text += &format!("wide, {wide} rows or more: each side is asked by itself, its own reads delivered, and goes on to Done\n");
    if !session.rest.is_empty() {
        text += &format!("no call, and not asked: {}\n", hex(&session.rest));
    }
    for (name, part) in sides {
        text += &format!("\n{name}\n{}", part_in_words(subject, part));
    }
    if !differing.is_empty() {
        text += &format!("\njoined rows, as segment:first+rows\n{}", rows_in_words(&rows, &differing));
    }
    let turns = if talk.alike() { "are alike" } else { "differ, as they may on a wide job" };
    let demand = sides.map(|(name, part)| verdict(name, subject, &part.calls, &part.answers));
    let verdicts = [Ok(format!("the turns {turns}")), rows_verdict(&sides, &differing)];
    judged(text, verdicts.into_iter().chain(demand), session)
}

/// Its calls and answers, up to the first that breaks demand 3.
fn part_in_words(subject: &Subject, part: &Part) -> String {
    let broken = subject.demand().and_then(|demand| demand.check(&part.calls, &part.answers).into_iter().next());
    let asked = ["open".to_string()].into_iter().chain(part.calls.iter().map(call_in_words));
    let lines: Vec<[String; 2]> = asked.zip(&part.answers).map(|(call, answer)| [call, answer.to_string()]).collect();
    let shown = match &broken {
        Some(broken) => broken.at + 1,
        None if part.comes_to_done() => lines.len(),
        None => lines.len().min(ANSWERS_SHOWN),
    };
    let mut text = table(&lines[..shown], broken.map(|broken| (broken.at, "breaks demand 3")));
    if shown < lines.len() {
        text += &format!("  and {} more\n", grouped((lines.len() - shown) as u64));
    }
    text
}

/// The rows of both sides, for each column of these splits.
fn rows_in_words(rows: &[Joined; 2], splits: &[u32]) -> String {
    let mut text = String::new();
    for split in splits {
        let columns = rows.iter().map(|rows| rows.split(*split).len()).max().unwrap_or(0);
        for column in 0..columns {
            text += &format!("  split {split}, column {column}\n");
            for (name, rows) in [FIRST, SECOND].iter().zip(rows) {
                let stretches = rows.split(*split).get(column).map_or(&[][..], Vec::as_slice);
                let stretches: Vec<String> = stretches.iter().map(Stretch::to_string).collect();
                text += format!("    {name} {}", stretches.join(" ")).trim_end();
                text.push('\n');
            }
        }
    }
    text
}

fn rows_verdict(sides: &[(&str, &Part)], differing: &[u32]) -> Result<String, String> {
    if let Some((name, part)) = sides.iter().find(|(_, part)| !part.comes_to_done()) {
        let calls = grouped(part.calls.len() as u64);
        return Err(format!("{name} does not come to Done in {calls} calls, so that the joined rows cannot be compared"));
    }
    if differing.is_empty() {
        return Ok("the joined rows are alike".to_string());
    }
    let splits: Vec<String> = differing.iter().map(u32::to_string).collect();
    Err(format!("the joined rows differ in split {}", splits.join(", ")))
}

#[cfg(test)]
mod tests {
    use super::*;
    use crate::answer::Answer;
    use crate::draw::draw;
    use crate::fault::fault;
    use crate::job::{Job, Split};
    use crate::plan::Node;
    use crate::side::{Side, Turn};
    use crate::testing::{self, Plain, Wrong};
    use crate::words;

    /// A pack of a segment of 65,536 rows and itself, of which a split keeps some, without calls.
    fn session(kept: u32) -> Session {
        let plan = Node::Pack(vec![Node::Segment { segment: 5, rows: 65_536 }; 2]);
        Session::new(Job { slots: 1, plan, splits: vec![Split::new(0, 9, &[(0, kept)])] }.bytes(), Vec::new())
    }

    #[test]
    fn other_turns_are_shown_side_by_side() {
        let shown = words::show::<Plain, Wrong<{ testing::CUTS_IN_TWO }>>(&session(2));
        assert!(shown.sound);
        let due = "\
job, 1 slot
  pack, 65536 rows
    segment 5, 65536 rows
    segment 5, 65536 rows
  split 0: rows 0..9, keeps 0+2
wide, 65,536 rows or more: each side is asked by itself, its own reads delivered, and goes on to Done

Rust
  open                        open
  step                        read 0 5
  step                        wait
  deliver read 0, 65536 rows  out 0 2 5:0 5:0
  step                        done

port
  open                        open
  step                        read 0 5
  step                        wait
  deliver read 0, 65536 rows  out 0 1 5:0 5:0
  step                        out 0 1 5:1 5:1
  step                        done

the turns differ, as they may on a wide job
the joined rows are alike
demand 3, Rust: holds
demand 3, port: holds
bytes: ";
        assert!(shown.text.starts_with(due), "{}", shown.text);
    }

    #[test]
    fn other_rows_are_shown_and_where_demand_3_is_broken() {
        let shown = words::show::<Plain, Wrong<{ testing::LOSES_A_ROW }>>(&session(3));
        assert!(!shown.sound);
        let due = "
  deliver read 0, 65536 rows  out 0 2 5:0 5:0
  step                        done             <-- breaks demand 3

joined rows, as segment:first+rows
  split 0, column 0
    Rust 5:0+3
    port 5:0+2
  split 0, column 1
    Rust 5:0+3
    port 5:0+2

the turns differ, as they may on a wide job
the joined rows differ in split 0
demand 3, Rust: holds
demand 3, port: broken at call 4: Done, but rows of split 0 are missing
";
        assert!(shown.text.contains(due), "{}", shown.text);
    }

    #[test]
    fn what_follows_a_broken_fact_is_left_out() {
        let text = words::show::<Wrong<{ testing::INVENTED_ROWS }>, Plain>(&session(3)).text;
        assert!(text.contains("  out 0 4 5:0 5:0  <-- breaks demand 3\n  and 1 more\n\nport\n"), "{text}");
    }

    #[test]
    fn splits_with_other_rows_are_named() {
        let done = Part { calls: Vec::new(), answers: vec![Answer::Open, Answer::Turn(Turn::Done)] };
        let verdict = rows_verdict(&[(FIRST, &done), (SECOND, &done)], &[1, 4]);
        assert_eq!(verdict, Err("the joined rows differ in split 1, 4".to_string()));
    }

    #[test]
    fn a_side_without_end_is_cut_short() {
        let splits = vec![Split::new(0, 65_536, &[(0, 65_536)])];
        let job = Job { slots: 1, plan: Node::Segment { segment: 5, rows: 65_536 }, splits };
        let session = Session { rest: b"ST?".to_vec(), ..Session::new(job.bytes(), Vec::new()) };
        let text = words::show::<Plain, Wrong<{ testing::ROW_BY_ROW }>>(&session).text;
        assert!(text.contains("\nno call, and not asked: 53543f\n"), "{text}");
        assert!(text.contains("\n  and 3,951 more\n"), "{text}");
        assert!(
            text.contains("\nport does not come to Done in 4,000 calls, so that the joined rows cannot be compared\n"),
            "{text}"
        );
    }

    /// Every session is shown as sound or not, as it is at fault or not.
    fn shown_as_found<A: Side, B: Side>() {
        for (subject, talk) in (0..1000).map(|number| draw::<A, B>(6, number)).filter(|(subject, _)| subject.is_wide()) {
            let shown = words::show::<A, B>(&talk.session(&subject));
            assert_eq!(shown.sound, fault(&subject, &talk).is_none(), "{}", shown.text);
        }
    }

    #[test]
    fn what_is_at_fault_is_shown_so() {
        shown_as_found::<Plain, Wrong<{ testing::SPLITS_BACKWARDS }>>();
        shown_as_found::<Plain, Wrong<{ testing::INVENTED_ROWS }>>();
        shown_as_found::<Wrong<{ testing::READS_TWICE }>, Plain>();
        shown_as_found::<Plain, Wrong<{ testing::NAMES_NO_RUN }>>();
        shown_as_found::<Wrong<{ testing::ROW_BY_ROW }>, Wrong<{ testing::CUTS_IN_TWO }>>();
    }
}
