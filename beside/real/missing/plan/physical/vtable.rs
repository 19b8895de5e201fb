//! What a kind of plan can do. Only compiling and reach matter to a scan.

use std::borrow::Cow;
use std::fmt;
use std::ops::Range;

use super::pipeline::{Chain, Compiler, Reach};
use super::{Plan, PlanChildren, PlanId};
use crate::segments::SegmentId;
use crate::vortex_bail;
use crate::{Mask, SerializeMetadata, VortexResult};

pub trait PlanVTable: 'static + Clone + fmt::Debug + Send + Sync + Sized {
    type PlanData: 'static + Clone + fmt::Debug + Send + Sync;
    type Metadata: SerializeMetadata;

    fn id(&self) -> PlanId;

    /// A chain that produces the rows of `rows` that `mask` keeps, or nothing where it keeps none.
    fn compile(
        plan: &Plan<Self>,
        _rows: Range<u64>,
        _mask: &Mask,
        _compiler: &mut Compiler<'_>,
    ) -> VortexResult<Option<Chain>> {
        vortex_bail!("{} is not compiled here", plan.vtable().id())
    }

    /// Visits each segment under the plan that has some of `rows`, with the scanned rows it is read for.
    fn reach(
        plan: &Plan<Self>,
        _rows: Range<u64>,
        _at: &Reach,
        _visit: &mut dyn FnMut(SegmentId, Range<u64>),
    ) -> VortexResult<()> {
        vortex_bail!("{} is not compiled here", plan.vtable().id())
    }

    fn metadata(_plan: &Plan<Self>) -> Option<Self::Metadata> {
        None
    }

    fn with_children(plan: &Plan<Self>, _children: &PlanChildren, _data: &mut Self::PlanData) -> VortexResult<()> {
        vortex_bail!("{} keeps its children here", plan.vtable().id())
    }

    fn child_name(_plan: &Plan<Self>, index: usize) -> Cow<'_, str> {
        Cow::Owned(index.to_string())
    }

    fn fmt(_plan: &Plan<Self>, _formatter: &mut fmt::Formatter<'_>) -> fmt::Result {
        Ok(())
    }
}
