//! Plans.

pub mod physical;
