//! The scheduler of vortex-layout 0.90.0 itself: build.rs lays its files out as one tree, with our own in the places that the listed source leaves out.
//!
//! What those files import from other crates stands here at the root, as little as they use of it, and each of those crates is another name for this one.

// The real files hold more than the scan of a job uses, and the stand-ins less than a whole crate would.
#![allow(dead_code, unused_imports, unexpected_cfgs, clippy::len_without_is_empty)]

extern crate self as parking_lot;
extern crate self as rustc_hash;
extern crate self as smallvec;
extern crate self as vortex_array;
extern crate self as vortex_buffer;
extern crate self as vortex_error;
extern crate self as vortex_mask;
extern crate self as vortex_session;

mod array;
pub mod arrays;
pub mod buffer;
pub mod dtype;
mod error;
mod hash;
mod mask;
mod metadata;
mod mutex;
pub mod registry;
mod session;
mod small_vec;
pub mod validity;

pub use array::{ArrayRef, Column};
pub use arrays::{Canonical, IntoArray};
pub use buffer::ByteBuffer;
pub use error::{VortexError, VortexExpect, VortexResult};
pub use hash::FxHashMap;
pub use mask::Mask;
pub use metadata::{EmptyMetadata, SerializeMetadata};
pub use mutex::Mutex;
pub use session::{ExecutionCtx, VortexSession, VortexSessionExecute};
pub use small_vec::SmallVec;

include!(concat!(env!("OUT_DIR"), "/tree.rs"));
