//! Which rows of an array hold a value. No plan here has any that does not.

use crate::ArrayRef;

pub enum Validity {
    NonNullable,
    AllValid,
    Array(ArrayRef),
}
