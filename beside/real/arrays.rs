//! Arrays made of others.

use crate::ArrayRef;
use crate::VortexResult;
use crate::dtype::{DType, StructFields};
use crate::validity::Validity;

pub trait IntoArray {
    fn into_array(self) -> ArrayRef;
}

/// Fields side by side.
pub struct StructArray(ArrayRef);

impl StructArray {
    /// # Safety
    ///
    /// As in the real crate, each array has `len` rows. Here nothing unsafe follows if not.
    pub unsafe fn new_unchecked(arrays: Vec<ArrayRef>, _fields: StructFields, len: usize, _validity: Validity) -> Self {
        let mut all = ArrayRef::blank(len);
        for array in &arrays {
            all.push_columns(array.columns());
        }
        Self(all)
    }

    pub fn try_new_with_dtype(arrays: Vec<ArrayRef>, fields: StructFields, len: usize, validity: Validity) -> VortexResult<Self> {
        // SAFETY: nothing unsafe follows.
        Ok(unsafe { Self::new_unchecked(arrays, fields, len, validity) })
    }
}

impl IntoArray for StructArray {
    fn into_array(self) -> ArrayRef {
        self.0
    }
}

/// Rows one after another. Here no array can be that: `take_rows` always finds its rows in one batch.
pub struct ChunkedArray;

impl ChunkedArray {
    /// # Safety
    ///
    /// As in the real crate. Here it is never reached.
    pub unsafe fn new_unchecked(_pieces: impl IntoIterator<Item = ArrayRef>, _dtype: DType) -> Self {
        unreachable!("rows of several batches in one array")
    }

    pub fn try_new(_pieces: Vec<ArrayRef>, _dtype: DType) -> VortexResult<Self> {
        unreachable!("rows of several batches in one array")
    }
}

impl IntoArray for ChunkedArray {
    fn into_array(self) -> ArrayRef {
        unreachable!("rows of several batches in one array")
    }
}

pub struct Canonical(ArrayRef);

impl Canonical {
    pub fn empty(_dtype: &DType) -> Self {
        Self(ArrayRef::default())
    }
}

impl IntoArray for Canonical {
    fn into_array(self) -> ArrayRef {
        self.0
    }
}
