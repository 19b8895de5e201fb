//! Reading one segment, and cutting the kept runs out of it, as document 01 says: a batch for each run.

use std::ops::Range;

use crate::plan::physical::SegmentScanPlan;
use crate::plan::physical::operator::{Cx, Input, Operator, Source, SourceBlocked, SourceReady, Step};
use crate::segments::SegmentId;
use crate::vortex_err;
use crate::{ArrayRef, Mask, VortexResult};

/// The runs that a reader keeps of a whole segment, and how many of them are cut.
struct Cut {
    /// The segment's row that the mask starts at.
    start: usize,
    kept: Mask,
    next: usize,
}

impl Cut {
    fn new(rows: Range<usize>, filter: Option<Mask>) -> Self {
        Self { start: rows.start, kept: filter.unwrap_or_else(|| Mask::new_true(rows.len())), next: 0 }
    }

    /// Cuts the next run: More before the last, Final for the last, then End.
    fn step(&mut self, segment: &ArrayRef) -> VortexResult<Step> {
        let runs = self.kept.runs();
        let Some(run) = runs.get(self.next) else {
            return Ok(Step::End);
        };
        self.next += 1;
        let batch = segment.slice(self.start + run.start..self.start + run.end)?;
        Ok(if self.next == runs.len() { Step::Final(batch) } else { Step::More(batch) })
    }
}

/// Reads a segment and emits what is kept of it.
pub(crate) struct ScanSource {
    rows: usize,
    /// The segment, until its read was asked for.
    unread: Option<SegmentId>,
    /// The whole segment, once it came.
    whole: Option<ArrayRef>,
    cut: Cut,
}

impl ScanSource {
    pub(crate) fn new(plan: SegmentScanPlan, slice: Option<Range<usize>>, filter: Option<Mask>) -> Self {
        let rows = plan.row_count() as usize;
        Self { rows, unread: Some(plan.segment_id()), whole: None, cut: Cut::new(slice.unwrap_or(0..rows), filter) }
    }
}

impl Source for ScanSource {
    fn ready(&mut self, cx: &mut Cx<'_>) -> VortexResult<SourceReady> {
        if let Some(segment) = self.unread.take() {
            cx.request_read(segment);
            return Ok(SourceReady::Blocked(SourceBlocked::Io));
        }
        Ok(if self.whole.is_some() || cx.has_bytes() {
            SourceReady::Ready
        } else {
            SourceReady::Blocked(SourceBlocked::Io)
        })
    }
}

impl Operator for ScanSource {
    fn compute(&mut self, _input: Input, cx: &mut Cx<'_>) -> VortexResult<Step> {
        let whole = match &mut self.whole {
            Some(whole) => whole,
            none => {
                let (segment, _) =
                    cx.take_segment().ok_or_else(|| vortex_err!("Segment source ran before its read came"))?;
                none.insert(ArrayRef::segment(*segment, self.rows))
            }
        };
        self.cut.step(whole)
    }
}

/// Cuts the runs of one reader out of a shared segment, which comes as one batch.
pub(crate) struct SelectStage {
    whole: Option<ArrayRef>,
    cut: Cut,
}

impl SelectStage {
    /// One of the two is given: where the whole segment is kept, nothing is cut.
    pub(crate) fn new(slice: Option<Range<usize>>, filter: Option<Mask>) -> Self {
        Self { whole: None, cut: Cut::new(slice.unwrap_or_default(), filter) }
    }
}

impl Operator for SelectStage {
    fn compute(&mut self, input: Input, _cx: &mut Cx<'_>) -> VortexResult<Step> {
        match input {
            Input::Batch(batch) => self.whole = Some(batch),
            Input::None => {}
            Input::End => return Ok(Step::End),
        }
        match &self.whole {
            Some(whole) => self.cut.step(whole),
            None => Ok(Step::End),
        }
    }
}
