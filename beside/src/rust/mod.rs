//! The real scheduler as a side.

mod fields;
mod job;
mod refusal;
#[cfg(test)]
mod tests;

use vortex_layout::ArrayRef;
use vortex_layout::VortexError;
use vortex_layout::VortexSession;
use vortex_layout::buffer::BufferHandle;
use vortex_layout::plan::physical::pipeline::{self, ReadId, ReadRequest, Scan};

use crate::side::{Refusal, Side, Turn};

pub struct RustSide {
    /// None once the scan has failed: a state all zero.
    scan: Option<Scan>,
    /// Each segment with its row count.
    segments: Vec<(u32, u32)>,
    /// By number: the Rust numbers its reads from 0, in the order of the Read turns.
    reads: Vec<Read>,
}

struct Read {
    id: ReadId,
    rows: u32,
    delivered: bool,
}

impl Side for RustSide {
    fn open(job: &[u8]) -> Result<Self, Refusal> {
        let job = job::read(job)?;
        let scan = Scan::try_new(VortexSession, job.plan, job.splits).map_err(|_| refusal::SPLIT_RANGE)?;
        Ok(Self { scan: Some(scan.with_max_active(job.slots)), segments: job.segments, reads: Vec::new() })
    }

    fn step(&mut self) -> Result<Turn, u8> {
        let scan = self.scan.as_mut().ok_or(refusal::STATE)?;
        Ok(match scan.step().map_err(|error| self.fail(&error))? {
            pipeline::Turn::Read(request) => self.read(request),
            pipeline::Turn::Output(split, batch) => output(split, &batch),
            pipeline::Turn::Waiting => Turn::Waiting,
            pipeline::Turn::Done => Turn::Done,
        })
    }

    /// Its pair of calls: a delivery and, where that is accepted, a step.
    fn deliver(&mut self, read: u32, rows: u32) -> Result<Turn, u8> {
        self.accept(read, rows)?;
        self.step()
    }
}

impl RustSide {
    fn accept(&mut self, read: u32, rows: u32) -> Result<(), u8> {
        let scan = self.scan.as_mut().ok_or(refusal::STATE)?;
        let read = self.reads.get_mut(read as usize).ok_or(refusal::NOT_IN_FLIGHT)?;
        if !read.delivered && read.rows != rows {
            return Err(refusal::WRONG_ROWS);
        }
        scan.deliver(read.id, BufferHandle).map_err(|_| refusal::NOT_IN_FLIGHT)?;
        read.delivered = true;
        Ok(())
    }

    fn read(&mut self, request: ReadRequest) -> Turn {
        let (read, segment) = (self.reads.len() as u32, *request.segment_id);
        debug_assert_eq!(format!("{:?}", request.id), format!("ReadId({read})"));
        let rows = self.segments.iter().find(|(known, _)| *known == segment).map_or(0, |(_, rows)| *rows);
        self.reads.push(Read { id: request.id, rows, delivered: false });
        Turn::Read { read, segment }
    }

    fn fail(&mut self, error: &VortexError) -> u8 {
        self.scan = None;
        if error.message().starts_with("Scan is stuck") { refusal::STUCK } else { refusal::ERROR }
    }
}

fn output(split: usize, batch: &ArrayRef) -> Turn {
    Turn::Output {
        split: split as u32,
        rows: batch.len() as u32,
        columns: batch.columns().iter().map(|column| (column.segment, column.first)).collect(),
    }
}
