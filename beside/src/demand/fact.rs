//! The facts of demand 3, as they are named where they do not hold.

use std::fmt;

use crate::answer::Answer;

/// A fact of the demand that does not hold.
#[derive(Clone, Debug, PartialEq, Eq)]
pub enum Fact {
    Refused(u8),
    WaitingForNothing,
    UnknownSegment(u32),
    SegmentReadTwice(u32),
    ReadNumberAgain(u32),
    NotRefused { due: u8, given: Answer },
    UnknownSplit(u32),
    NoRows,
    SegmentNotDelivered(u32),
    NotNextKeptRows(u32),
    DoneTooEarly(usize),
    NoDoneWithin(u64),
}

impl fmt::Display for Fact {
    fn fmt(&self, f: &mut fmt::Formatter<'_>) -> fmt::Result {
        match self {
            Fact::Refused(number) => write!(f, "refused by {number} where a turn is due"),
            Fact::WaitingForNothing => write!(f, "Waiting without a read in flight"),
            Fact::UnknownSegment(segment) => write!(f, "segment {segment} is not in the job"),
            Fact::SegmentReadTwice(segment) => write!(f, "segment {segment} is read twice"),
            Fact::ReadNumberAgain(read) => write!(f, "two reads have the number {read}"),
            Fact::NotRefused { due, given } => {
                write!(f, "a delivery is answered `{given}` where refusal {due} is due")
            }
            Fact::UnknownSplit(split) => write!(f, "there is no split {split}"),
            Fact::NoRows => write!(f, "an output without rows"),
            Fact::SegmentNotDelivered(segment) => {
                write!(f, "rows of segment {segment}, which no delivery has brought")
            }
            Fact::NotNextKeptRows(split) => {
                write!(f, "the rows put out are no front part of the kept rows of split {split}")
            }
            Fact::DoneTooEarly(split) => write!(f, "Done, but rows of split {split} are missing"),
            Fact::NoDoneWithin(steps) => write!(f, "no Done within 2D + K + 1 = {steps} steps"),
        }
    }
}
