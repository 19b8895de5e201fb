//! What came up in the sessions that were run, so that a summary shows what was compared.

use std::collections::BTreeMap;

use crate::answer::Answer;
use crate::job::{Job, Split, WIDE_ROWS};
use crate::session::Call;
use crate::side::{Refusal, Turn};
use crate::talk::{Subject, Talk};

/// A port holds so many batches.
const PORT_CAPACITY: usize = 8;

/// How often each answer came, and how many turns were those of deliveries.
#[derive(Default)]
pub struct Answers {
    pub opened: u64,
    reads: u64,
    outputs: u64,
    waits: u64,
    dones: u64,
    deliveries: u64,
    refusals: BTreeMap<u8, u64>,
}

impl Answers {
    /// The answer to an opening or to a call.
    fn add(&mut self, answer: &Answer) {
        *self.counter(answer) += 1;
    }

    pub fn add_call(&mut self, call: Call, answer: &Answer) {
        self.deliveries += u64::from(call != Call::Step && matches!(answer, Answer::Turn(_)));
        self.add(answer);
    }

    fn counter(&mut self, answer: &Answer) -> &mut u64 {
        match answer {
            Answer::Open => &mut self.opened,
            Answer::No(refusal) => self.refusals.entry(refusal.number).or_default(),
            Answer::Turn(Turn::Read { .. }) => &mut self.reads,
            Answer::Turn(Turn::Output { .. }) => &mut self.outputs,
            Answer::Turn(Turn::Waiting) => &mut self.waits,
            Answer::Turn(Turn::Done) => &mut self.dones,
        }
    }

    /// Two lines, each with its end.
    pub fn lines(&self) -> String {
        format!(
            "turns      {} Read, {} Output, {} Waiting, {} Done; {} of them in answer to a delivery\nrefusals   {}\n",
            grouped(self.reads),
            grouped(self.outputs),
            grouped(self.waits),
            grouped(self.dones),
            grouped(self.deliveries),
            listed(&self.refusals)
        )
    }
}

/// Openings that were refused for a run.
#[derive(Default)]
struct RunFaults {
    /// How often each index came.
    indexes: BTreeMap<u32, u64>,
    /// How often runs before it, in its split, meet: joined they would give it another index.
    behind_meeting: u64,
}

impl RunFaults {
    fn add(&mut self, index: u32, job: Option<&Job>) {
        *self.indexes.entry(index).or_default() += 1;
        let split = job.and_then(|job| Some(&job.splits[job.split_at_fault()?.0]));
        self.behind_meeting += u64::from(split.is_some_and(|split| split.meetings_before(index) > 0));
    }

    /// One line with its end.
    fn line(&self) -> String {
        format!("at fault   run {}; behind runs that meet {}\n", listed(&self.indexes), grouped(self.behind_meeting))
    }
}

/// Sessions opened on plans of as many rows as fill a port, and on those of one row less.
#[derive(Default)]
struct Wide {
    sessions: u64,
    /// How often the turns of the two sides differ.
    other_turns: u64,
    one_row_less: u64,
}

impl Wide {
    fn add(&mut self, job: &Job, talk: &Talk) {
        self.sessions += u64::from(job.is_wide());
        self.other_turns += u64::from(job.is_wide() && !talk.alike());
        self.one_row_less += u64::from(job.plan.rows() + 1 == WIDE_ROWS);
    }

    /// One line with its end.
    fn line(&self) -> String {
        format!(
            "wide       {} sessions on plans of {} rows or more, {} with other turns; one row less {}\n",
            grouped(self.sessions),
            grouped(WIDE_ROWS),
            grouped(self.other_turns),
            grouped(self.one_row_less)
        )
    }
}

/// Sessions opened on jobs with a join of one child.
#[derive(Default)]
struct JoinsOfOne {
    sessions: u64,
    /// How often one of them is the child of another.
    in_a_row: u64,
}

impl JoinsOfOne {
    fn add(&mut self, job: &Job) {
        let longest = job.plan.nodes().iter().map(|node| node.joins_of_one()).max().unwrap_or(0);
        self.sessions += u64::from(longest > 0);
        self.in_a_row += u64::from(longest > 1);
    }

    /// One line with its end.
    fn line(&self) -> String {
        format!(
            "of one     {} sessions with a join of one child; two in a row {}\n",
            grouped(self.sessions),
            grouped(self.in_a_row)
        )
    }
}

/// Each number with how often it came.
fn listed<N: ToString>(counts: &BTreeMap<N, u64>) -> String {
    let counts: Vec<String> =
        counts.iter().map(|(number, count)| format!("{}: {}", number.to_string(), grouped(*count))).collect();
    counts.join(", ")
}

#[derive(Default)]
pub struct Tally {
    pub sessions: u64,
    pub done: u64,
    pub calls: u64,
    answers: Answers,
    shared: u64,
    several_slots: u64,
    full_ports: u64,
    meeting_runs: u64,
    joins_of_one: JoinsOfOne,
    wide: Wide,
    run_faults: RunFaults,
}

impl Tally {
    pub fn add(&mut self, subject: &Subject, talk: &Talk) {
        self.sessions += 1;
        self.calls += talk.first.calls.len() as u64;
        let opening = talk.first.opening();
        self.answers.add(opening);
        let answered: Vec<(Call, &Answer)> = talk.first.answered().collect();
        for (call, answer) in &answered {
            self.answers.add_call(*call, answer);
        }
        if let Answer::No(Refusal { run: Some(index), .. }) = opening {
            self.run_faults.add(*index, subject.job.as_ref());
        }
        if *opening != Answer::Open {
            return;
        }
        self.done += u64::from(talk.first.comes_to_done());
        self.full_ports += u64::from(fills_a_port(&answered));
        if let Some(job) = &subject.job {
            self.several_slots += u64::from(job.slots > 1 && job.splits.len() > 1);
            self.shared += u64::from(names_a_segment_twice(&job.plan.leaves()));
            self.meeting_runs += u64::from(job.splits.iter().any(Split::has_meeting_runs));
            self.joins_of_one.add(job);
            self.wide.add(job, talk);
        }
    }

    /// Some lines, each with its end.
    pub fn lines(&self) -> String {
        let opened = self.answers.opened;
        let refused = self.sessions - opened;
        [
            format!("sessions   {} opened, {} refused, {} came to Done\n", grouped(opened), grouped(refused), grouped(self.done)),
            format!(
                "with       one segment at two leaves {}, several splits in several slots {}, a port that fills {}, runs that meet {}\n",
                grouped(self.shared),
                grouped(self.several_slots),
                grouped(self.full_ports),
                grouped(self.meeting_runs)
            ),
            self.joins_of_one.line(),
            self.wide.line(),
            self.answers.lines(),
            self.run_faults.line(),
        ]
        .concat()
    }
}

#[cfg(test)]
impl Answers {
    /// Those of these refusals that never came.
    pub fn missing(&self, numbers: impl Iterator<Item = u8>) -> Vec<u8> {
        numbers.filter(|number| !self.refusals.contains_key(number)).collect()
    }
}

#[cfg(test)]
impl Tally {
    /// What never came up.
    pub fn missing(&self) -> Vec<String> {
        let counts = [
            (self.answers.opened, "open"),
            (self.done, "a session that came to Done"),
            (self.shared, "a segment at two leaves"),
            (self.several_slots, "several slots"),
            (self.full_ports, "a full port"),
            (self.meeting_runs, "runs that meet"),
            (self.joins_of_one.sessions, "a join of one child"),
            (self.joins_of_one.in_a_row, "two joins of one child in a row"),
            (self.wide.sessions, "a wide job"),
            (self.wide.one_row_less, "a job that is one row short of being wide"),
            (self.answers.deliveries, "an accepted delivery"),
            (self.run_faults.behind_meeting, "a run at fault behind runs that meet"),
        ];
        let missing = counts.iter().filter(|(count, _)| *count == 0).map(|(_, what)| (*what).to_owned());
        let indexes = (0..16).filter(|index| !self.run_faults.indexes.contains_key(index)).map(|index| format!("run {index}"));
        let numbers = (2..=8).chain(10..=11).chain(17..=19);
        missing.chain(indexes).chain(self.answers.missing(numbers).iter().map(u8::to_string)).collect()
    }
}

/// More outputs of one split, with no delivery between them, than a port holds: its slot's port was full in between.
fn fills_a_port(answered: &[(Call, &Answer)]) -> bool {
    let split_of = |answer: &Answer| match answer {
        Answer::Turn(Turn::Output { split, .. }) => Some(*split),
        _ => None,
    };
    let goes_on = |one: &(Call, &Answer), two: &(Call, &Answer)| {
        two.0 == Call::Step && split_of(one.1).is_some() && split_of(one.1) == split_of(two.1)
    };
    answered.chunk_by(goes_on).any(|outputs| outputs.len() > PORT_CAPACITY)
}

fn names_a_segment_twice(leaves: &[(u32, u32)]) -> bool {
    let twice = |place: usize| leaves[..place].iter().any(|leaf| leaf.0 == leaves[place].0);
    (0..leaves.len()).any(twice)
}

/// 1234567 as 1,234,567.
pub fn grouped(number: u64) -> String {
    let digits = number.to_string();
    let mut text = String::new();
    for (place, digit) in digits.chars().enumerate() {
        if place > 0 && (digits.len() - place).is_multiple_of(3) {
            text.push(',');
        }
        text.push(digit);
    }
    text
}

#[cfg(test)]
mod tests {
    use super::*;
    use crate::plan::Node;
    use crate::talk::Part;

    #[test]
    fn digits_stand_in_groups_of_three() {
        assert_eq!([0, 999, 1000, 1234567].map(grouped), ["0", "999", "1,000", "1,234,567"]);
    }

    #[test]
    fn turns_of_deliveries_are_counted_too() {
        let mut answers = Answers::default();
        answers.add_call(Call::Step, &Answer::Turn(Turn::Waiting));
        answers.add_call(Call::CHECK, &Answer::no(10));
        answers.add_call(Call::CHECK, &Answer::Turn(Turn::Done));
        let lines = "turns      0 Read, 0 Output, 1 Waiting, 1 Done; 1 of them in answer to a delivery\nrefusals   10: 1\n";
        assert_eq!(answers.lines(), lines);
    }

    #[test]
    fn runs_at_fault_are_counted_by_their_index() {
        let mut faults = RunFaults::default();
        let job = |runs: &[(u32, u32)]| Job {
            slots: 1,
            plan: Node::Segment { segment: 1, rows: 9 },
            splits: vec![Split::new(0, 9, runs)],
        };
        faults.add(2, Some(&job(&[(0, 1), (1, 1), (5, 0)])));
        faults.add(2, Some(&job(&[(0, 1), (2, 1), (3, 0)])));
        faults.add(10, None);
        assert_eq!(faults.line(), "at fault   run 2: 2, 10: 1; behind runs that meet 1\n");
    }

    #[test]
    fn joins_of_one_child_are_counted_with_those_in_a_row() {
        let mut joins = JoinsOfOne::default();
        let leaf = || Node::Segment { segment: 1, rows: 4 };
        let alone = || Node::Concat(vec![leaf()]);
        for plan in [
            leaf(),
            Node::Concat(vec![leaf(), leaf()]),
            alone(),
            Node::Pack(vec![leaf(), alone()]),
            Node::Concat(vec![Node::Pack(vec![alone(), alone()])]),
            Node::Concat(vec![leaf(), Node::Pack(vec![alone()])]),
            Node::Pack(vec![Node::Pack(vec![alone()])]),
        ] {
            joins.add(&Job { slots: 1, plan, splits: Vec::new() });
        }
        assert_eq!(joins.line(), "of one     5 sessions with a join of one child; two in a row 2\n");
    }

    #[test]
    fn wide_jobs_are_counted_with_those_of_other_turns() {
        let mut wide = Wide::default();
        let part = |turn| Part { calls: vec![Call::Step], answers: vec![Answer::Open, Answer::Turn(turn)] };
        let alike = Talk { first: part(Turn::Done), second: part(Turn::Done) };
        let apart = Talk { second: part(Turn::Waiting), ..alike.clone() };
        let job = |rows| Job { slots: 1, plan: Node::Segment { segment: 1, rows }, splits: Vec::new() };
        for (rows, talk) in [(65_534, &alike), (65_535, &apart), (65_536, &alike), (65_536, &apart), (65_537, &alike)] {
            wide.add(&job(rows), talk);
        }
        let line = "wide       3 sessions on plans of 65,536 rows or more, 1 with other turns; one row less 1\n";
        assert_eq!(wide.line(), line);
    }

    #[test]
    fn nine_outputs_in_a_row_fill_a_port() {
        let [first, second] = [0, 1].map(|split| Answer::Turn(Turn::Output { split, rows: 1, columns: Vec::new() }));
        let steps = |count, answer| vec![(Call::Step, answer); count];
        let delivery = || vec![(Call::CHECK, &second)];
        assert!(!fills_a_port(&[steps(8, &first), steps(8, &second)].concat()));
        assert!(fills_a_port(&[steps(3, &first), steps(9, &second)].concat()));
        assert!(fills_a_port(&[delivery(), steps(8, &second)].concat()));
        assert!(!fills_a_port(&[steps(8, &second), delivery(), steps(7, &second)].concat()));
        assert!(!fills_a_port(&steps(20, &Answer::Turn(Turn::Waiting))));
    }
}
