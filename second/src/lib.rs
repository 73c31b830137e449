//! A second, independent reading of document 01, and of the two rules since
//! added to it: the day of a DTM and of a stamp must be in its month, and the
//! length of a leaf is that of its text with the escapes resolved.
//!
//! A message is looked at in three steps: [`check`] tests its frame,
//! [`judge()`] walks the listed segments for the first fault, and [`look_up`],
//! [`reply()`] and [`file()`] answer from a message whose frame holds.
//!
//! The modules from the bottom up; each names only those before it:
//!
//! - [`refusal`]: the numbers of the refusals
//! - [`fault`]: the place of a fault, its reason and its condition code
//! - [`separators`]: the five separators, and the header that names them
//! - [`escape`]: the five escapes, resolved, and a text's resolved length
//! - [`calendar`]: which days a month has
//! - [`types`]: the simple types, their limits and forms, and the day of a DTM
//! - [`profile`]: the listed segments, fields and leaves, the lists, the
//!   succession
//! - [`parts`]: a segment taken apart, field by field and leaf by leaf
//! - [`frame`]: the eight checks of the frame, and the segments of a message
//!   that passes them
//! - [`lookup`]: where the leaf at an asked place stands
//! - [`mod@judge`]: the first fault of a message
//! - [`mod@reply`]: the acknowledgement of a message
//! - [`slip`]: a group's slip, filed in a book and read from it
//! - [`mod@strike`]: a message without what the profile does not list
//! - [`calls`]: all of these asked and answered in lines of text

#![forbid(unsafe_code)]
#![warn(missing_docs)]

pub mod calendar;
pub mod calls;
pub mod escape;
pub mod fault;
pub mod frame;
pub mod judge;
pub mod lookup;
pub mod parts;
pub mod profile;
pub mod refusal;
pub mod reply;
pub mod separators;
pub mod slip;
pub mod strike;
pub mod types;

pub use crate::escape::resolve;
pub use crate::fault::{Fault, Place, Reason};
pub use crate::frame::{check, Frame};
pub use crate::judge::{judge, Verdict};
pub use crate::lookup::{look_up, Asked, Found};
pub use crate::refusal::Refusal;
pub use crate::reply::reply;
pub use crate::slip::{file, read_slip};
pub use crate::strike::strike;
