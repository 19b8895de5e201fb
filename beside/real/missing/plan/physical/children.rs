//! The children of a plan.

use super::PlanRef;
use crate::VortexResult;
use crate::vortex_ensure;

#[derive(Clone, Debug, Default)]
pub struct PlanChildren(Vec<PlanRef>);

impl PlanChildren {
    pub fn len(&self) -> usize {
        self.0.len()
    }

    pub fn get(&self, index: usize) -> VortexResult<Option<PlanRef>> {
        Ok(self.0.get(index).cloned())
    }

    pub fn iter(&self) -> impl Iterator<Item = VortexResult<PlanRef>> + '_ {
        self.0.iter().cloned().map(Ok)
    }
}

impl From<Vec<PlanRef>> for PlanChildren {
    fn from(children: Vec<PlanRef>) -> Self {
        Self(children)
    }
}

pub(super) fn check_child_count(plan: &str, children: &PlanChildren, count: usize) -> VortexResult<()> {
    vortex_ensure!(children.len() == count, "{plan} with {} children, not {count}", children.len());
    Ok(())
}
