//! Why a call was not answered.

use std::error::Error;
use std::fmt;
use std::num::NonZeroU8;
use std::ops::RangeInclusive;

/// docs/REFUSALS.md, the one place that says what a number means; copied, so that the crate's folder
/// is whole by itself.
const TABLE: &str = include_str!("../REFUSALS.md");

/// The numbers that come with a run at fault.
const OF_A_RUN: RangeInclusive<u8> = 17..=19;

/// The number of a refusal, put into words by [`meaning`](Refusal::meaning), and the run at fault
/// where the number is that of a run.
#[derive(Clone, Copy, PartialEq, Eq, Hash)]
pub struct Refusal {
    number: NonZeroU8,
    run: Option<u32>,
}

impl Refusal {
    /// What the C function of a step or a delivery answers: 0, or the number of a refusal.
    pub(crate) fn check(answer: u8) -> Result<(), Refusal> {
        Refusal::check_with(answer, None)
    }

    /// What the C function of opening answers, and what then stands in its place for a run.
    pub(crate) fn check_opening(answer: u8, place: u32) -> Result<(), Refusal> {
        Refusal::check_with(answer, OF_A_RUN.contains(&answer).then_some(place))
    }

    fn check_with(answer: u8, run: Option<u32>) -> Result<(), Refusal> {
        NonZeroU8::new(answer).map_or(Ok(()), |number| Err(Refusal { number, run }))
    }

    /// The number: 1 to 8, 10 to 14, or 17 to 19.
    #[must_use]
    pub fn number(self) -> u8 {
        self.number.get()
    }

    /// For 17, 18 and 19 the index of the run at fault: its place in its split as the job has it,
    /// counted from 0, with runs that meet counted one by one. None for every other number.
    #[must_use]
    pub fn run(self) -> Option<u32> {
        self.run
    }

    /// What the number means.
    #[must_use]
    pub fn meaning(self) -> &'static str {
        TABLE
            .lines()
            .find_map(|line| self.meaning_in(line))
            .unwrap_or("a number that docs/REFUSALS.md does not have")
    }

    /// The second cell of a table row whose first is this number.
    fn meaning_in(self, line: &'static str) -> Option<&'static str> {
        let mut cells = line.split('|').map(str::trim).skip(1);
        let number: u8 = cells.next()?.parse().ok()?;
        if number == self.number() {
            cells.next()
        } else {
            None
        }
    }
}

/// The number, its meaning and the run at fault, if there is one.
fn in_words(refusal: Refusal, f: &mut fmt::Formatter<'_>) -> fmt::Result {
    write!(f, "{}: {}", refusal.number(), refusal.meaning())?;
    refusal.run().map_or(Ok(()), |run| {
        write!(f, " (run {run} of its split, counted from 0)")
    })
}

impl fmt::Display for Refusal {
    fn fmt(&self, f: &mut fmt::Formatter<'_>) -> fmt::Result {
        write!(f, "refusal ")?;
        in_words(*self, f)
    }
}

impl fmt::Debug for Refusal {
    fn fmt(&self, f: &mut fmt::Formatter<'_>) -> fmt::Result {
        write!(f, "Refusal(")?;
        in_words(*self, f)?;
        write!(f, ")")
    }
}

impl Error for Refusal {}

#[cfg(test)]
mod tests {
    use super::*;

    fn refusal(number: u8) -> Refusal {
        Refusal::check(number).expect_err("a number other than 0 refuses")
    }

    fn refused_opening(number: u8, place: u32) -> Refusal {
        Refusal::check_opening(number, place).expect_err("a number other than 0 refuses")
    }

    #[test]
    fn zero_is_no_refusal() {
        assert_eq!(Refusal::check(0), Ok(()));
        assert_eq!(Refusal::check_opening(0, 7), Ok(()));
    }

    #[test]
    fn every_number_has_a_meaning_of_its_own() {
        let meanings: std::collections::HashSet<_> = (1..=14)
            .chain(OF_A_RUN)
            .map(|number| refusal(number).meaning())
            .collect();
        assert_eq!(meanings.len(), 17);
        assert!(!meanings.contains(refusal(99).meaning()));
    }

    #[test]
    fn only_the_numbers_of_a_run_have_one() {
        for number in 1..=u8::MAX {
            let run = (17..=19).contains(&number).then_some(7);
            assert_eq!(refused_opening(number, 7).run(), run, "{number}");
        }
        assert_ne!(refused_opening(18, 0), refused_opening(18, 1));
        assert_eq!(refused_opening(8, 0), refused_opening(8, 1));
    }

    #[test]
    fn in_words() {
        assert_eq!(
            refusal(11).to_string(),
            "refusal 11: the row count is not the segment's"
        );
        assert_eq!(
            refusal(99).to_string(),
            "refusal 99: a number that docs/REFUSALS.md does not have"
        );
        assert_eq!(
            format!("{:?}", refusal(11)),
            "Refusal(11: the row count is not the segment's)"
        );
    }

    #[test]
    fn the_run_at_fault_is_named() {
        let words = "19: a kept run passes the split's end (run 15 of its split, counted from 0)";
        let past = refused_opening(19, 15);
        assert_eq!(past.to_string(), format!("refusal {words}"));
        assert_eq!(format!("{past:?}"), format!("Refusal({words})"));
    }
}
