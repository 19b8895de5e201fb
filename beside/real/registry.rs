//! Names of plans.

use std::fmt;
use std::ops::Deref;

#[derive(Clone, Copy, Debug, PartialEq, Eq)]
pub struct Id(&'static str);

impl fmt::Display for Id {
    fn fmt(&self, formatter: &mut fmt::Formatter<'_>) -> fmt::Result {
        formatter.write_str(self.0)
    }
}

pub struct CachedId(Id);

impl CachedId {
    pub const fn new(name: &'static str) -> Self {
        Self(Id(name))
    }
}

impl Deref for CachedId {
    type Target = Id;

    fn deref(&self) -> &Id {
        &self.0
    }
}

/// What decoding a segment needs. Nothing is decoded here.
#[derive(Clone, Debug)]
pub struct ReadContext;
