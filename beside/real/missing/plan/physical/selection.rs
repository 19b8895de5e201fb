//! Cutting a mask to a child's rows.

use std::ops::Range;

use crate::Mask;

/// The rows `rows` of the mask, or nothing where it keeps none of them. The rows are never narrowed to those kept.
pub(super) fn selected_slice(mask: &Mask, rows: Range<usize>) -> Option<(Range<usize>, Mask)> {
    let slice = mask.slice(rows.clone());
    (!slice.all_false()).then_some((rows, slice))
}
