//! The pack plan: a row joins the fields' rows. Lowered as document 01 says.

use std::ops::Range;

use crate::dtype::{DType, StructFields};
use crate::plan::physical::operators::PackSource;
use crate::plan::physical::pipeline::{Chain, Compiler, Reach};
use crate::plan::physical::{Plan, PlanId, PlanParts, PlanRef, PlanVTable};
use crate::registry::CachedId;
use crate::segments::SegmentId;
use crate::{EmptyMetadata, Mask, VortexResult};
use crate::{vortex_ensure, vortex_err};

#[derive(Clone, Debug)]
pub struct Pack;

#[derive(Clone, Debug)]
pub struct PackData {
    fields: StructFields,
}

pub type PackPlan = Plan<Pack>;

impl PackPlan {
    /// A pack of the fields, which have equally many rows.
    pub fn try_new(fields: Vec<PlanRef>) -> VortexResult<Self> {
        let row_count = fields.first().map_or(0, PlanRef::row_count);
        vortex_ensure!(fields.iter().all(|field| field.row_count() == row_count), "Pack fields of unequal rows");
        let width = fields.iter().map(|field| field.dtype().width()).sum();
        Ok(PlanParts {
            vtable: Pack,
            dtype: DType::of_width(width).clone(),
            row_count,
            data: PackData { fields: fields.iter().map(|field| field.dtype().clone()).collect() },
            children: fields.into(),
        }
        .into_typed())
    }
}

impl PlanVTable for Pack {
    type PlanData = PackData;
    type Metadata = EmptyMetadata;

    fn id(&self) -> PlanId {
        static ID: CachedId = CachedId::new("vortex.plan.pack");
        *ID
    }

    fn compile(
        plan: &Plan<Self>,
        rows: Range<u64>,
        mask: &Mask,
        compiler: &mut Compiler<'_>,
    ) -> VortexResult<Option<Chain>> {
        if mask.all_false() {
            return Ok(None);
        }
        let mut chains = Vec::with_capacity(plan.children().len());
        for field in plan.children().iter() {
            let chain = compiler.compile(&field?, rows.clone(), mask)?;
            chains.push(chain.ok_or_else(|| vortex_err!("Pack field without the rows kept"))?);
        }
        let source = PackSource::new(plan.data().fields.clone(), false, chains.len());
        Ok(Some(compiler.join(chains, source)))
    }

    fn reach(
        plan: &Plan<Self>,
        rows: Range<u64>,
        at: &Reach,
        visit: &mut dyn FnMut(SegmentId, Range<u64>),
    ) -> VortexResult<()> {
        for field in plan.children().iter() {
            field?.reach(rows.clone(), at, visit)?;
        }
        Ok(())
    }
}
