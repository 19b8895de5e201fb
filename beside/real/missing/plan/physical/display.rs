//! Showing a plan as a tree, which nothing here does.

use super::PlanRef;

pub struct PlanTreeDisplay<'a>(&'a PlanRef);

impl<'a> PlanTreeDisplay<'a> {
    pub fn new(plan: &'a PlanRef) -> Self {
        Self(plan)
    }

    pub fn default_display(plan: &'a PlanRef) -> Self {
        Self(plan)
    }
}
