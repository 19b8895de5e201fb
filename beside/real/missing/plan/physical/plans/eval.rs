//! Evaluating an expression: named by a rule of the concat plan, and in no job.

use crate::dtype::DType;
use crate::plan::physical::{Plan, PlanId, PlanParts, PlanRef, PlanVTable};
use crate::registry::CachedId;
use crate::{EmptyMetadata, VortexResult};

#[derive(Clone, Debug)]
pub struct Eval;

#[derive(Clone, Debug)]
pub struct Expression(DType);

impl Expression {
    pub fn dtype(&self) -> &DType {
        &self.0
    }
}

pub type EvalPlan = Plan<Eval>;

impl EvalPlan {
    pub fn try_new(expression: Expression, child: PlanRef) -> VortexResult<Self> {
        Ok(PlanParts {
            vtable: Eval,
            dtype: expression.dtype().clone(),
            row_count: child.row_count(),
            children: vec![child].into(),
            data: expression,
        }
        .into_typed())
    }

    pub fn expression(&self) -> &Expression {
        self.data()
    }
}

impl PlanVTable for Eval {
    type PlanData = Expression;
    type Metadata = EmptyMetadata;

    fn id(&self) -> PlanId {
        static ID: CachedId = CachedId::new("vortex.plan.eval");
        *ID
    }
}
