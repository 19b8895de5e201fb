//! The type of an array: how many columns it has.

use std::fmt;
use std::sync::Arc;

#[derive(Clone, Debug, PartialEq, Eq)]
pub struct DType {
    width: usize,
}

static BY_WIDTH: [DType; 5] =
    [DType { width: 0 }, DType { width: 1 }, DType { width: 2 }, DType { width: 3 }, DType { width: 4 }];

impl DType {
    /// The type of so many columns, 0 to 4.
    pub fn of_width(width: usize) -> &'static Self {
        &BY_WIDTH[width]
    }

    pub fn width(&self) -> usize {
        self.width
    }
}

impl fmt::Display for DType {
    fn fmt(&self, formatter: &mut fmt::Formatter<'_>) -> fmt::Result {
        write!(formatter, "{} columns", self.width)
    }
}

/// The types of a pack's fields.
#[derive(Clone, Debug)]
pub struct StructFields(Arc<[DType]>);

impl StructFields {
    pub fn fields(&self) -> impl Iterator<Item = DType> + '_ {
        self.0.iter().cloned()
    }
}

impl FromIterator<DType> for StructFields {
    fn from_iter<I: IntoIterator<Item = DType>>(fields: I) -> Self {
        Self(fields.into_iter().collect())
    }
}

#[derive(Clone, Copy, Debug)]
pub enum Nullability {
    NonNullable,
    Nullable,
}
