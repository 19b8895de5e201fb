//! Plans that compile to pipelines: the real ones that a job needs, and our own for what the listed source leaves out.

mod children;
mod display;
pub mod operator;
mod operators;
mod optimizer;
pub mod pipeline;
mod plans;
mod selection;
mod typed;
mod vtable;

pub type PlanId = crate::registry::Id;

pub use children::PlanChildren;
use children::check_child_count;
pub use plans::{ConcatPlan, Eval, EvalPlan, PackPlan, SegmentScan, SegmentScanPlan};
use typed::PlanByPtr;
pub use typed::{Plan, PlanParts, PlanRef};
pub use vtable::PlanVTable;
