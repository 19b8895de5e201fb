//! For tests: a plain side that keeps demand 3, sides that keep it in other turns, and sides that go wrong in one way each.

use std::cmp::Reverse;
use std::collections::BTreeMap;

use crate::job::{Job, Split};
use crate::plan::{Piece, cut};
use crate::side::{Refusal, Side, Turn};

/// Tells all reads, waits for them all, then puts out split after split.
#[derive(Clone)]
pub struct Plain {
    rows_of: BTreeMap<u32, u32>,
    /// The segments that are needed, each once, and whether it was delivered.
    needed: Vec<(u32, bool)>,
    told: usize,
    /// What is put out, in sequence.
    outputs: Vec<(u32, Piece)>,
    put_out: usize,
}

impl Side for Plain {
    fn open(job: &[u8]) -> Result<Self, Refusal> {
        let job = Job::read(job).ok_or(2)?;
        if !(1..=3).contains(&job.slots) {
            return Err(3.into());
        }
        let leaves = job.plan.leaves();
        let rows_of: BTreeMap<u32, u32> = leaves.iter().copied().collect();
        if leaves.iter().any(|(segment, rows)| rows_of[segment] != *rows) {
            return Err(6.into());
        }
        for split in &job.splits {
            if !is_inside(split, job.plan.rows()) {
                return Err(8.into());
            }
            split.run_at_fault().map_or(Ok(()), Err)?;
        }
        let all = job.plan.pieces();
        let mut outputs = Vec::new();
        for (number, split) in (0..).zip(&job.splits) {
            for run in &split.runs {
                let start = u64::from(split.start) + u64::from(run.start);
                let pieces = cut(&all, start, run.length.into());
                outputs.extend(pieces.into_iter().map(|piece| (number, piece)));
            }
        }
        let mut needed: Vec<(u32, bool)> = Vec::new();
        for (segment, _) in outputs.iter().flat_map(|(_, piece)| &piece.columns) {
            if needed.iter().all(|known| known.0 != *segment) {
                needed.push((*segment, false));
            }
        }
        Ok(Self { rows_of, needed, told: 0, outputs, put_out: 0 })
    }

    fn step(&mut self) -> Result<Turn, u8> {
        if let Some((segment, _)) = self.needed.get(self.told) {
            self.told += 1;
            return Ok(Turn::Read { read: self.told as u32 - 1, segment: *segment });
        }
        if self.needed.iter().any(|(_, delivered)| !delivered) {
            return Ok(Turn::Waiting);
        }
        Ok(self.output().unwrap_or(Turn::Done))
    }

    fn deliver(&mut self, read: u32, rows: u32) -> Result<Turn, u8> {
        self.accept(read, rows)?;
        self.step()
    }
}

/// Whether the split lies inside the plan's rows.
fn is_inside(split: &Split, rows: u64) -> bool {
    split.start <= split.end && u64::from(split.end) <= rows
}

impl Plain {
    fn accept(&mut self, read: u32, rows: u32) -> Result<(), u8> {
        let told = self.told;
        let place = Some(read as usize).filter(|place| *place < told);
        let (segment, delivered) = place.and_then(|place| self.needed.get_mut(place)).ok_or(10)?;
        if *delivered {
            return Err(10);
        }
        if self.rows_of[segment] != rows {
            return Err(11);
        }
        *delivered = true;
        Ok(())
    }

    fn output(&mut self) -> Option<Turn> {
        let (split, piece) = self.outputs.get(self.put_out)?;
        self.put_out += 1;
        let columns = piece.columns.iter().map(|&(segment, first)| (segment, first as u32));
        Some(Turn::Output { split: *split, rows: piece.rows as u32, columns: columns.collect() })
    }

    /// Each output of two rows or more as two.
    fn cut_in_two(&mut self) {
        let halves = |(split, piece): &(u32, Piece)| {
            let front = piece.rows / 2;
            let parts = [piece.part(0, front), piece.part(front, piece.rows - front)];
            parts.map(|part| (*split, part)).into_iter().filter(|(_, part)| part.rows > 0)
        };
        self.outputs = self.outputs.iter().flat_map(halves).collect();
    }

    /// The last output again, without its first row.
    fn put_back(&mut self) {
        self.put_out -= 1;
        let piece = &mut self.outputs[self.put_out].1;
        *piece = piece.part(1, piece.rows - 1);
    }
}

pub const REFUSES_A_STEP: u8 = 0;
pub const WAITS_FOR_NOTHING: u8 = 1;
pub const READS_ANOTHER_SEGMENT: u8 = 2;
pub const READS_TWICE: u8 = 3;
pub const ONE_READ_NUMBER: u8 = 4;
pub const ANOTHER_SPLIT: u8 = 5;
pub const NO_ROWS: u8 = 6;
pub const BEFORE_DELIVERY: u8 = 7;
pub const INVENTED_ROWS: u8 = 8;
pub const NEXT_ROW: u8 = 9;
pub const FIRST_SPLIT_ONLY: u8 = 10;
pub const NEVER_DONE: u8 = 11;
pub const REFUSES_DELIVERIES: u8 = 12;
pub const TAKES_ANY_DELIVERY: u8 = 13;
pub const OTHER_REFUSAL: u8 = 14;
pub const LATE_BY_A_TURN: u8 = 15;
pub const LAST_SPLIT_OF_TWO: u8 = 16;
pub const STEPS_WHEN_REFUSED: u8 = 17;
pub const KEEPS_NO_STEP: u8 = 18;
pub const LONG_BEFORE_EARLY: u8 = 19;
pub const JOINED_INDEX: u8 = 20;
pub const EMPTY_RUNS_FIRST: u8 = 21;
pub const INDEX_OF_THE_JOB: u8 = 22;
pub const NAMES_NO_RUN: u8 = 23;
pub const LOSES_A_ROW: u8 = 24;
/// From here on the rows are right, in other turns.
pub const ROW_BY_ROW: u8 = 25;
pub const CUTS_IN_TWO: u8 = 26;
pub const READS_BACKWARDS: u8 = 27;
pub const SPLITS_BACKWARDS: u8 = 28;

/// The plain side with one thing wrong, or otherwise.
pub struct Wrong<const SLIP: u8> {
    plain: Plain,
    last: Option<Turn>,
}

impl<const SLIP: u8> Side for Wrong<SLIP> {
    fn open(job: &[u8]) -> Result<Self, Refusal> {
        let mut plain = Plain::open(job).map_err(|refusal| slipped_refusal(SLIP, job, refusal))?;
        match SLIP {
            CUTS_IN_TWO => plain.cut_in_two(),
            READS_BACKWARDS => plain.needed.reverse(),
            SPLITS_BACKWARDS => plain.outputs.sort_by_key(|(split, _)| Reverse(*split)),
            _ => {}
        }
        Ok(Self { plain, last: None })
    }

    fn step(&mut self) -> Result<Turn, u8> {
        if SLIP == BEFORE_DELIVERY && self.plain.told == self.plain.needed.len() {
            return Ok(self.plain.output().unwrap_or(Turn::Done));
        }
        let turn = self.plain.step()?;
        let slipped = self.slipped(&turn);
        self.last = Some(turn.clone());
        slipped.unwrap_or(Ok(turn))
    }

    fn deliver(&mut self, read: u32, rows: u32) -> Result<Turn, u8> {
        match (SLIP, self.plain.accept(read, rows)) {
            (REFUSES_DELIVERIES, Ok(())) => Err(10),
            (OTHER_REFUSAL, Err(number)) => Err(21 - number),
            (STEPS_WHEN_REFUSED, Err(number)) => self.step().and(Err(number)),
            (KEEPS_NO_STEP, Ok(())) => self.plain.clone().step(),
            (TAKES_ANY_DELIVERY, _) | (_, Ok(())) => self.step(),
            (_, Err(number)) => Err(number),
        }
    }
}

/// What is answered in place of a refusal that names a run, if it is the one that goes wrong.
fn slipped_refusal(slip: u8, job: &[u8], refusal: Refusal) -> Refusal {
    let (Some(job), Some(index)) = (Job::read(job), refusal.run) else { return refusal };
    let (place, _) = job.split_at_fault().expect("a split with the run at fault");
    let split = &job.splits[place];
    let with = |number, run| Refusal { number, run };
    let empty = split.runs.iter().position(|run| run.length == 0);
    let long = split.runs[index as usize].end() > u64::from(split.end - split.start);
    match slip {
        LONG_BEFORE_EARLY if refusal.number == 18 && long => with(19, refusal.run),
        JOINED_INDEX => with(refusal.number, Some(index - split.meetings_before(index) as u32)),
        EMPTY_RUNS_FIRST => empty.map_or(refusal, |empty| with(17, Some(empty as u32))),
        INDEX_OF_THE_JOB => {
            let before: usize = job.splits[..place].iter().map(|split| split.runs.len()).sum();
            with(refusal.number, Some(before as u32 + index))
        }
        NAMES_NO_RUN => with(refusal.number, None),
        _ => refusal,
    }
}

impl<const SLIP: u8> Wrong<SLIP> {
    /// What is answered in place of this turn, if it is the one that goes wrong.
    fn slipped(&mut self, turn: &Turn) -> Option<Result<Turn, u8>> {
        let read = |read: u32, segment: u32| Some(Ok(Turn::Read { read, segment }));
        match (SLIP, turn) {
            (REFUSES_A_STEP, Turn::Waiting) => Some(Err(13)),
            (WAITS_FOR_NOTHING, Turn::Done) => Some(Ok(Turn::Waiting)),
            (READS_ANOTHER_SEGMENT, Turn::Read { read: number, segment }) => read(*number, segment ^ 1 << 20),
            (READS_TWICE, Turn::Waiting) => read(u32::MAX, self.plain.needed[0].0),
            (ONE_READ_NUMBER, Turn::Read { segment, .. }) => read(0, *segment),
            (NEVER_DONE, Turn::Done) => self.last.clone().filter(|last| *last != Turn::Done).map(Ok),
            (LATE_BY_A_TURN, Turn::Output { .. }) if self.last == Some(Turn::Waiting) => {
                self.plain.put_out -= 1;
                Some(Ok(Turn::Waiting))
            }
            (ROW_BY_ROW, Turn::Output { split, rows: 2.., columns }) => {
                self.plain.put_back();
                Some(Ok(Turn::Output { split: *split, rows: 1, columns: columns.clone() }))
            }
            (_, Turn::Output { split, rows, columns }) => self.slipped_output(*split, *rows, columns).map(Ok),
            _ => None,
        }
    }

    fn slipped_output(&self, split: u32, rows: u32, columns: &[(u32, u32)]) -> Option<Turn> {
        let columns = columns.to_vec();
        match SLIP {
            ANOTHER_SPLIT => Some(Turn::Output { split: split + 16, rows, columns }),
            NO_ROWS => Some(Turn::Output { split, rows: 0, columns }),
            LOSES_A_ROW if rows > 1 => Some(Turn::Output { split, rows: rows - 1, columns }),
            INVENTED_ROWS => Some(Turn::Output { split, rows: rows.wrapping_add(1), columns }),
            LAST_SPLIT_OF_TWO if split > 0 => Some(Turn::Output { split, rows: rows.wrapping_add(1), columns }),
            NEXT_ROW => {
                let columns = columns.into_iter().map(|(segment, first)| (segment, first.wrapping_add(1)));
                Some(Turn::Output { split, rows, columns: columns.collect() })
            }
            FIRST_SPLIT_ONLY if split > 0 => Some(Turn::Done),
            _ => None,
        }
    }
}
