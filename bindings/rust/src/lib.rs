//! The depth-ordered scan: rows of stored segments come out in depth order, in whatever order the
//! store answers.
//!
//! [`Scan::open`] takes a job. [`Scan::step`] says what to do next: a segment is to be read, rows are
//! to be put out, a read has to come first, or all is done. [`Scan::deliver`] tells that a read has
//! come, and goes on with a step. The segments' bytes stay with the caller.
//!
//! ```
//! use ritsghule::{Refusal, Scan, Turn};
//!
//! # fn main() -> Result<(), Refusal> {
//! // SC 1, SG 7 2, SP 0 2 1 0 2: one slot, segment 7 of 2 rows, one split that keeps both.
//! let job = b"SC\x01\0\0\0SG\x07\0\0\0\x02\0\0\0SP\0\0\0\0\x02\0\0\0\x01\0\0\0\0\0\0\0\x02\0\0\0";
//! let mut scan = Scan::open(job)?;
//! assert_eq!(scan.step()?, Turn::Read { read: 0, segment: 7 });
//! assert_eq!(scan.step()?, Turn::Waiting);
//! let Turn::Output(output) = scan.deliver(0, 2)? else { panic!("rows come out") };
//! assert_eq!((output.split, output.rows), (0, 2));
//! assert_eq!((output.columns()[0].segment, output.columns()[0].first), (7, 0));
//! assert_eq!(scan.step()?, Turn::Done);
//! # Ok(())
//! # }
//! ```
//!
//! A call that cannot be answered gives a [`Refusal`], and says why:
//!
//! ```
//! let refusal = ritsghule::Scan::open(b"").unwrap_err();
//! assert_eq!(refusal.number(), 2);
//! assert!(refusal.to_string().starts_with("refusal 2: the job is cut short"));
//! ```
//!
//! Where a kept run is at fault, it tells which:
//!
//! ```
//! // SC 1, SG 7 2, SP 0 2 2 0 1 0 2: the second run starts before the end of the first.
//! let job = b"SC\x01\0\0\0SG\x07\0\0\0\x02\0\0\0SP\0\0\0\0\x02\0\0\0\x02\0\0\0\
//!             \0\0\0\0\x01\0\0\0\0\0\0\0\x02\0\0\0";
//! let refusal = ritsghule::Scan::open(job).unwrap_err();
//! assert_eq!((refusal.number(), refusal.run()), (18, Some(1)));
//! ```
//!
//! [`Scan`] owns its state. Callers with memory of their own use [`lent`], which allocates nothing.

pub mod lent;
mod refusal;
mod scan;
mod sys;
mod turn;

pub use refusal::Refusal;
pub use scan::Scan;
pub use turn::{Column, Output, Turn};
