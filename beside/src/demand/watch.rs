//! One session watched call by call, against what the demand says of its job.

use super::fact::Fact;
use super::{Broken, Demand};
use crate::answer::Answer;
use crate::plan::Piece;
use crate::session::Call;
use crate::side::Turn;

/// A read told, and whether it was delivered since.
struct Read {
    number: u32,
    segment: u32,
    delivered: bool,
}

/// What was seen so far.
pub struct Watch<'a> {
    demand: &'a Demand,
    /// The answer that is looked at.
    at: usize,
    pub broken: Vec<Broken>,
    reads: Vec<Read>,
    /// For each split the next kept row: the piece, and the row of it.
    next: Vec<(usize, u64)>,
    steps: u64,
    done: bool,
    waiting: bool,
    /// A delivery was accepted between each Waiting and the next step.
    served: bool,
}

impl<'a> Watch<'a> {
    pub fn new(demand: &'a Demand) -> Self {
        let next = vec![(0, 0); demand.kept.len()];
        let (broken, reads) = (Vec::new(), Vec::new());
        Self { demand, at: 0, broken, reads, next, steps: 0, done: false, waiting: false, served: true }
    }

    pub fn see(&mut self, call: Call, answer: &Answer) {
        self.at += 1;
        match call {
            Call::Step => self.step(answer),
            Call::Deliver { read, rows } => match self.delivery(read, rows) {
                Ok(()) => self.step(answer),
                Err(due) => self.holds(*answer == Answer::no(due), Fact::NotRefused { due, given: answer.clone() }),
            },
        }
    }

    fn holds(&mut self, holds: bool, fact: Fact) {
        if !holds {
            self.broken.push(Broken { at: self.at, fact });
        }
    }

    /// A plain step, or the one that an accepted delivery goes on with.
    fn step(&mut self, answer: &Answer) {
        self.served &= !self.waiting;
        self.waiting = false;
        self.steps += 1;
        match answer {
            Answer::Turn(Turn::Read { read, segment }) => self.read(*read, *segment),
            Answer::Turn(Turn::Output { split, rows, columns }) => {
                let put_out = self.output(*split, *rows, columns);
                put_out.unwrap_or_else(|fact| self.holds(false, fact));
            }
            Answer::Turn(Turn::Waiting) => self.wait(),
            Answer::Turn(Turn::Done) => self.finish(),
            Answer::No(refusal) => self.holds(false, Fact::Refused(refusal.number)),
            Answer::Open => unreachable!("no call is answered so"),
        }
        let most = self.demand.most_steps;
        let late = self.served && !self.done && self.steps == most;
        self.holds(!late, Fact::NoDoneWithin(most));
    }

    fn read(&mut self, number: u32, segment: u32) {
        let known = self.demand.rows_of.contains_key(&segment);
        let again = self.reads.iter().any(|read| read.segment == segment);
        let number_again = self.reads.iter().any(|read| read.number == number);
        self.holds(known, Fact::UnknownSegment(segment));
        self.holds(!again, Fact::SegmentReadTwice(segment));
        self.holds(!number_again, Fact::ReadNumberAgain(number));
        self.reads.push(Read { number, segment, delivered: false });
    }

    fn wait(&mut self) {
        self.waiting = true;
        let in_flight = self.reads.iter().any(|read| !read.delivered);
        self.holds(in_flight, Fact::WaitingForNothing);
    }

    fn finish(&mut self) {
        self.done = true;
        let ends = self.demand.kept.iter().map(Vec::len);
        let missing = self.next.iter().zip(ends).position(|(next, end)| next.0 < end);
        self.holds(missing.is_none(), Fact::DoneTooEarly(missing.unwrap_or(0)));
    }

    fn output(&mut self, split: u32, rows: u32, columns: &[(u32, u32)]) -> Result<(), Fact> {
        let kept = self.demand.kept.get(split as usize).ok_or(Fact::UnknownSplit(split))?;
        if rows == 0 {
            return Err(Fact::NoRows);
        }
        let came = |segment| self.reads.iter().any(|read| read.segment == segment && read.delivered);
        if let Some((segment, _)) = columns.iter().find(|(segment, _)| !came(*segment)) {
            return Err(Fact::SegmentNotDelivered(*segment));
        }
        let next = &mut self.next[split as usize];
        let mut out = 0;
        while out < u64::from(rows) {
            let piece = kept.get(next.0).ok_or(Fact::NotNextKeptRows(split))?;
            if !is_at(piece, next.1, columns, out) {
                return Err(Fact::NotNextKeptRows(split));
            }
            let together = (piece.rows - next.1).min(u64::from(rows) - out);
            out += together;
            next.1 += together;
            if next.1 == piece.rows {
                *next = (next.0 + 1, 0);
            }
        }
        Ok(())
    }

    /// Accepts the delivery, or says by which number it is to be refused.
    fn delivery(&mut self, number: u32, rows: u32) -> Result<(), u8> {
        let in_flight = self.reads.iter_mut().find(|read| read.number == number && !read.delivered);
        let read = in_flight.ok_or(10)?;
        if self.demand.rows_of.get(&read.segment) != Some(&rows) {
            return Err(11);
        }
        read.delivered = true;
        self.waiting = false;
        Ok(())
    }
}

/// Whether row `row` of the piece is row `out` of an output with these columns.
fn is_at(piece: &Piece, row: u64, columns: &[(u32, u32)], out: u64) -> bool {
    let put_out = columns.iter().map(|&(segment, first)| (segment, u64::from(first) + out));
    put_out.eq(piece.columns.iter().map(|&(segment, first)| (segment, first + row)))
}
