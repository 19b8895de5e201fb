//! Rewriting a plan, which nothing here does.

use super::{Plan, PlanRef, PlanVTable};
use crate::VortexResult;

pub(super) trait PlanParentReduceRule<V: PlanVTable> {
    type Parent: PlanVTable;

    fn reduce_parent(
        &self,
        child: &Plan<V>,
        parent: &Plan<Self::Parent>,
        index: usize,
    ) -> VortexResult<Option<PlanRef>>;
}
