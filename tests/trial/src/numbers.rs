//! Document 01's numbers outside the profile, with those of its amendments. Written from their words alone, apart from
//! both programs compared.

/// The longest message.
pub const MOST_BYTES: usize = 65_535;
pub const MOST_SEGMENTS: usize = 512;

/// The refusals are numbered from 1 up to this.
pub const REFUSALS: usize = 20;
/// The reasons of faults are numbered from 1 up to this.
pub const REASONS: usize = 13;
/// The reason of a text in the form of a DTM whose month has no such day.
pub const NO_SUCH_DAY: usize = 13;
/// The refusal of a stamp.
pub const BAD_STAMP: usize = 11;

/// The longest reply.
pub const MOST_REPLY_BYTES: usize = 3_200;
pub const SLOT_BYTES: usize = 1_024;
