//! The kinds of plan.

mod concat;
mod eval;
mod pack;
mod segment_scan;

pub use concat::ConcatPlan;
pub use eval::{Eval, EvalPlan};
pub use pack::PackPlan;
pub use segment_scan::{SegmentScan, SegmentScanPlan};
