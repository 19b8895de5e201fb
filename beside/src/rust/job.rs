//! Job bytes as the real scheduler's plan and splits, with checks 2 to 8 and 17 to 19. The Rust is given joined runs, and no join of
//! one child.
//!
//! A record is read whole before its other checks, and it is checked whole before the next one is read.

use std::ops::Range;

use vortex_layout::plan::physical::pipeline::Split;
use vortex_layout::plan::physical::{ConcatPlan, PackPlan, PlanRef, SegmentScanPlan};
use vortex_layout::{Mask, VortexResult, dtype::DType, registry::ReadContext};

use super::fields::Fields;
use super::refusal;
use crate::side::Refusal;

const MAX_SLOTS: u32 = 3;
const MAX_NODES: usize = 24;
const MAX_COLUMNS: usize = 4;
const MAX_SPLITS: usize = 16;
const MAX_RUNS: u32 = 16;

pub struct Job {
    pub slots: usize,
    pub plan: PlanRef,
    pub splits: Vec<Split>,
    /// Each segment with its row count.
    pub segments: Vec<(u32, u32)>,
}

pub fn read(bytes: &[u8]) -> Result<Job, Refusal> {
    let mut fields = Fields::new(bytes);
    let slots = slots(&mut fields)?;
    let mut job = Records::default();
    while !fields.at_end() {
        match &fields.mark()? {
            b"SG" => job.segment(&mut fields)?,
            b"CC" => job.concat(&mut fields)?,
            b"PK" => job.pack(&mut fields)?,
            b"SP" => job.split(&mut fields)?,
            _ => return Err(refusal::RECORD.into()),
        }
    }
    Ok(Job { slots, plan: job.root()?.clone(), splits: job.splits, segments: job.segments })
}

fn slots(fields: &mut Fields) -> Result<usize, u8> {
    if &fields.mark()? != b"SC" {
        return Err(refusal::RECORD);
    }
    match fields.number()? {
        slots @ 1..=MAX_SLOTS => Ok(slots as usize),
        _ => Err(refusal::LIMIT),
    }
}

/// What the records read so far came to.
#[derive(Default)]
struct Records {
    nodes: usize,
    /// Oldest first.
    parentless: Vec<PlanRef>,
    segments: Vec<(u32, u32)>,
    splits: Vec<Split>,
}

impl Records {
    fn segment(&mut self, fields: &mut Fields) -> Result<(), u8> {
        let (segment, rows) = (fields.number()?, fields.number()?);
        self.node()?;
        match self.segments.iter().find(|(known, _)| *known == segment) {
            Some((_, known)) if *known != rows => return Err(refusal::TWO_ROW_COUNTS),
            Some(_) => {}
            None => self.segments.push((segment, rows)),
        }
        let plan = SegmentScanPlan::new(DType::of_width(1).clone(), rows.into(), segment.into(), ReadContext, None);
        self.parentless.push(plan.into_plan());
        Ok(())
    }

    fn concat(&mut self, fields: &mut Fields) -> Result<(), u8> {
        let count = fields.number()?;
        self.node()?;
        let children = self.children(count)?;
        let dtype = children[0].dtype().clone();
        if children.iter().any(|child| *child.dtype() != dtype) {
            return Err(refusal::UNEQUAL);
        }
        if children.iter().map(PlanRef::row_count).sum::<u64>() > u32::MAX.into() {
            return Err(refusal::TOO_MANY_ROWS);
        }
        self.join(children, |children| ConcatPlan::try_new(dtype, children))
    }

    fn pack(&mut self, fields: &mut Fields) -> Result<(), u8> {
        let count = fields.number()?;
        self.node()?;
        let children = self.children(count)?;
        if children.iter().map(|child| child.dtype().width()).sum::<usize>() > MAX_COLUMNS {
            return Err(refusal::LIMIT);
        }
        if children.iter().any(|child| child.row_count() != children[0].row_count()) {
            return Err(refusal::UNEQUAL);
        }
        self.join(children, PackPlan::try_new)
    }

    /// Counts a node whose record was read whole.
    fn node(&mut self) -> Result<(), u8> {
        if !self.splits.is_empty() {
            return Err(refusal::RECORD);
        }
        if self.nodes == MAX_NODES {
            return Err(refusal::LIMIT);
        }
        self.nodes += 1;
        Ok(())
    }

    /// Takes the newest parentless nodes, at least one.
    fn children(&mut self, count: u32) -> Result<Vec<PlanRef>, u8> {
        match self.parentless.len().checked_sub(count as usize) {
            Some(oldest) if count > 0 => Ok(self.parentless.split_off(oldest)),
            _ => Err(refusal::TREE),
        }
    }

    fn join<P: Into<PlanRef>>(
        &mut self,
        children: Vec<PlanRef>,
        plan_of: impl FnOnce(Vec<PlanRef>) -> VortexResult<P>,
    ) -> Result<(), u8> {
        let plan = only_child_or(children, plan_of).map_err(|_| refusal::ERROR)?;
        self.parentless.push(plan);
        Ok(())
    }

    fn split(&mut self, fields: &mut Fields) -> Result<(), Refusal> {
        let (start, end, count) = (fields.number()?, fields.number()?, fields.number()?);
        if !fields.has_numbers(2 * u64::from(count)) {
            return Err(refusal::RECORD.into());
        }
        if self.nodes == 0 || self.splits.len() == MAX_SPLITS || count > MAX_RUNS {
            return Err(refusal::LIMIT.into());
        }
        let rows = self.root()?.row_count();
        if start > end || u64::from(end) > rows {
            return Err(refusal::SPLIT_RANGE.into());
        }
        let len = (end - start) as usize;
        let runs = runs(fields, count, len)?;
        self.splits.push(Split { rows: start.into()..end.into(), mask: Mask::from_runs(len, runs) });
        Ok(())
    }

    /// The one node that has no parent once all nodes are there.
    fn root(&self) -> Result<&PlanRef, u8> {
        match self.parentless.as_slice() {
            [] => Err(refusal::LIMIT),
            [root] => Ok(root),
            _ => Err(refusal::TREE),
        }
    }
}

/// The plan that the Rust is given for a concat or pack of these children. By document 02 one of a single child "stands for that child
/// and makes no pipeline", so that the child itself is given.
fn only_child_or<P: Into<PlanRef>>(
    children: Vec<PlanRef>,
    plan_of: impl FnOnce(Vec<PlanRef>) -> VortexResult<P>,
) -> VortexResult<PlanRef> {
    match <[PlanRef; 1]>::try_from(children) {
        Ok([child]) => Ok(child),
        Err(children) => plan_of(children).map(Into::into),
    }
}

/// The kept runs of a split of `len` rows. A run that starts where the one before ends is joined to it; one at fault is named by its
/// index among those written.
fn runs(fields: &mut Fields, count: u32, len: usize) -> Result<Vec<Range<usize>>, Refusal> {
    let mut runs: Vec<Range<usize>> = Vec::with_capacity(count as usize);
    for index in 0..count {
        let (start, rows) = (fields.number()? as usize, fields.number()? as usize);
        let end = start + rows;
        let at_fault = |number| Err(Refusal { number, run: Some(index) });
        match runs.last_mut() {
            _ if rows == 0 => return at_fault(refusal::EMPTY_RUN),
            Some(before) if start < before.end => return at_fault(refusal::EARLY_RUN),
            _ if end > len => return at_fault(refusal::LONG_RUN),
            Some(before) if before.end == start => before.end = end,
            _ => runs.push(start..end),
        }
    }
    Ok(runs)
}
