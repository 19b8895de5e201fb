//! What can be wrong with a talk: the sides differ, or one of them breaks demand 3. On a wide job it is the joined rows that may
//! not differ, and each side has to come to Done.

use crate::answer::Answer;
use crate::demand::{Broken, Demand};
use crate::rows::Joined;
use crate::session::Session;
use crate::talk::{Part, Subject, Talk};

/// Whose fault it is.
#[derive(Clone, Copy, Debug, PartialEq, Eq)]
pub enum Whose {
    Both,
    First,
    Second,
}

#[derive(Clone, Debug, PartialEq, Eq)]
pub enum Fault {
    /// The openings differ.
    Openings,
    /// Both sides opened what is no job.
    NoJob,
    /// The answers differ, and the job is not wide.
    Answers,
    /// The joined rows differ, and the job is wide.
    Rows,
    /// On a wide job it is one side's, else both sides'.
    Broken(Whose, Broken),
    /// The job is wide, and a side does not come to Done.
    NoDone(Whose),
}

impl Fault {
    /// Whether the two are faults of one kind, so that a smaller session shows the same thing.
    pub fn is_like(&self, other: &Fault) -> bool {
        match (self, other) {
            (Fault::Broken(whose, one), Fault::Broken(others, two)) => {
                whose == others && std::mem::discriminant(&one.fact) == std::mem::discriminant(&two.fact)
            }
            _ => self == other,
        }
    }
}

/// A session at fault.
#[derive(Clone, Debug)]
pub struct Finding {
    pub session: Session,
    pub talk: Talk,
    pub fault: Fault,
}

/// The fault of a talk, if it has one. Where all answers to the same calls are alike, demand 3 holds of both sides or of none.
pub fn fault(subject: &Subject, talk: &Talk) -> Option<Fault> {
    let opening = talk.first.opening();
    if opening != talk.second.opening() {
        return Some(Fault::Openings);
    }
    if *opening != Answer::Open {
        return None;
    }
    match subject.demand() {
        Some(demand) if subject.is_wide() => fault_apart(demand, talk),
        _ if !talk.alike() => Some(Fault::Answers),
        Some(demand) => first_broken(demand, &talk.first).map(|broken| Fault::Broken(Whose::Both, broken)),
        None => Some(Fault::NoJob),
    }
}

/// The fault of a talk about a wide job. The joined rows are compared where both sides come to Done; demand 3 is asked of each.
fn fault_apart(demand: &Demand, talk: &Talk) -> Option<Fault> {
    let sides = [(Whose::First, &talk.first), (Whose::Second, &talk.second)];
    let no_done = sides.iter().find(|(_, part)| !part.comes_to_done()).map(|(whose, _)| Fault::NoDone(*whose));
    if no_done.is_none() && rows_differ(talk) {
        return Some(Fault::Rows);
    }
    let broken = |(whose, part)| first_broken(demand, part).map(|broken| Fault::Broken(whose, broken));
    sides.into_iter().find_map(broken).or(no_done)
}

fn rows_differ(talk: &Talk) -> bool {
    let [first, second] = talk.parts().map(|part| Joined::of(&part.answers));
    !first.differing(&second).is_empty()
}

fn first_broken(demand: &Demand, part: &Part) -> Option<Broken> {
    demand.check(&part.calls, &part.answers).into_iter().next()
}

/// The talk up to its fault, if it has one. On a wide job it is left whole, so that it can be held again.
pub fn finding(subject: &Subject, mut talk: Talk) -> Option<Finding> {
    let fault = fault(subject, &talk)?;
    if let Fault::Broken(Whose::Both, broken) = &fault {
        talk.cut(broken.at);
    }
    Some(Finding { session: talk.session(subject), talk, fault })
}

#[cfg(test)]
mod tests {
    use super::*;
    use crate::demand::Fact;
    use crate::generate;
    use crate::random::Random;
    use crate::side::Side;
    use crate::talk::talk;
    use crate::testing::{self, Plain, Wrong};
    use crate::whims::Whims;

    /// The faults of 200 sessions, all of them on wide jobs or none.
    fn faults<A: Side, B: Side>(wide: bool) -> Vec<Fault> {
        let job = if wide { generate::wide_job } else { generate::job };
        let drawn = (0..).map(|stream| {
            let mut random = Random::new(9, stream);
            (Subject::new(job(&mut random).bytes()), random)
        });
        let drawn = drawn.filter(|(subject, _)| subject.is_wide() == wide).take(200);
        drawn.filter_map(|(subject, random)| fault(&subject, &talk::<A, B>(&subject, &mut Whims::new(random)))).collect()
    }

    fn other_turns<const SLIP: u8>() {
        let narrow = faults::<Plain, Wrong<SLIP>>(false);
        assert!(narrow.len() > 20 && narrow.iter().all(|fault| *fault == Fault::Answers), "{SLIP}: {narrow:?}");
        assert_eq!([faults::<Plain, Wrong<SLIP>>(true), faults::<Wrong<SLIP>, Plain>(true)], [[], []], "{SLIP}");
    }

    #[test]
    fn other_turns_are_a_fault_unless_the_job_is_wide() {
        assert_eq!([faults::<Plain, Plain>(false), faults::<Plain, Plain>(true)], [[], []]);
        other_turns::<{ testing::CUTS_IN_TWO }>();
        other_turns::<{ testing::READS_BACKWARDS }>();
        other_turns::<{ testing::SPLITS_BACKWARDS }>();
    }

    /// Whether such a side has this fault on wide jobs, as the first and as the second.
    fn found<const SLIP: u8>(due: impl Fn(Whose) -> Fault) {
        let first = faults::<Wrong<SLIP>, Plain>(true);
        let second = faults::<Plain, Wrong<SLIP>>(true);
        assert!(first.iter().any(|fault| fault.is_like(&due(Whose::First))), "{SLIP}: {first:?}");
        assert!(second.iter().any(|fault| fault.is_like(&due(Whose::Second))), "{SLIP}: {second:?}");
    }

    #[test]
    fn other_rows_are_found_on_wide_jobs() {
        found::<{ testing::INVENTED_ROWS }>(|_| Fault::Rows);
        found::<{ testing::LOSES_A_ROW }>(|_| Fault::Rows);
        found::<{ testing::NEXT_ROW }>(|_| Fault::Rows);
        found::<{ testing::ANOTHER_SPLIT }>(|_| Fault::Rows);
        found::<{ testing::FIRST_SPLIT_ONLY }>(|_| Fault::Rows);
        found::<{ testing::NEVER_DONE }>(|_| Fault::Rows);
    }

    #[test]
    fn a_side_that_breaks_demand_3_is_found_on_wide_jobs() {
        let broken = |fact: Fact| move |whose| Fault::Broken(whose, Broken { at: 0, fact: fact.clone() });
        found::<{ testing::REFUSES_DELIVERIES }>(broken(Fact::Refused(0)));
        found::<{ testing::REFUSES_A_STEP }>(broken(Fact::Refused(0)));
        found::<{ testing::READS_TWICE }>(broken(Fact::SegmentReadTwice(0)));
        found::<{ testing::BEFORE_DELIVERY }>(broken(Fact::SegmentNotDelivered(0)));
        found::<{ testing::LATE_BY_A_TURN }>(broken(Fact::WaitingForNothing));
        found::<{ testing::WAITS_FOR_NOTHING }>(broken(Fact::WaitingForNothing));
        found::<{ testing::OTHER_REFUSAL }>(broken(Fact::NotRefused { due: 0, given: Answer::Open }));
    }

    #[test]
    fn a_side_that_does_not_come_to_done_is_found_on_wide_jobs() {
        type RowByRow = Wrong<{ testing::ROW_BY_ROW }>;
        found::<{ testing::ROW_BY_ROW }>(Fault::NoDone);
        assert!(faults::<RowByRow, RowByRow>(true).contains(&Fault::NoDone(Whose::First)));
    }

    #[test]
    fn openings_that_differ_are_found() {
        let job = b"SC\x01\0\0\0SG\x05\0\0\0\0\0\x01\0SP\0\0\0\0\x02\0\0\0\x01\0\0\0\0\0\0\0\0\0\0\0";
        let subject = Subject::new(job.to_vec());
        assert!(subject.is_wide());
        let whims = || Whims::new(Random::new(1, 1));
        assert_eq!(fault(&subject, &talk::<Plain, Plain>(&subject, &mut whims())), None);
        let talk = talk::<Plain, Wrong<{ testing::NAMES_NO_RUN }>>(&subject, &mut whims());
        assert_eq!(fault(&subject, &talk), Some(Fault::Openings));
    }

    #[test]
    fn faults_of_other_sides_and_facts_are_not_alike() {
        let broken = |whose, at, fact| Fault::Broken(whose, Broken { at, fact });
        let one = broken(Whose::First, 1, Fact::Refused(10));
        assert!(one.is_like(&broken(Whose::First, 2, Fact::Refused(13))));
        for other in [
            broken(Whose::Second, 1, Fact::Refused(10)),
            broken(Whose::Both, 1, Fact::Refused(10)),
            broken(Whose::First, 1, Fact::NoRows),
            Fault::NoDone(Whose::First),
        ] {
            assert!(!one.is_like(&other), "{other:?}");
        }
        assert!(!Fault::Answers.is_like(&Fault::Rows) && !Fault::Answers.is_like(&Fault::Openings));
        assert!(!Fault::NoDone(Whose::First).is_like(&Fault::NoDone(Whose::Second)));
    }
}
