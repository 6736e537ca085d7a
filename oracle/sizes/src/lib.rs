//! How long the buffers of the rewriting calls must be, and how many numbers a record has.

/// The least length of a buffer of bytes, and the most bytes of a pass's result.
pub const BUFFER_SIZE: usize = 65_536;

/// The most names that a function declares.
pub const NAMES: usize = 512;

/// The numbers of one record, and of the head in front of them.
pub const RECORD: usize = 10;

/// The least length of the buffer of record numbers, 5,130: the head's, and those of a record for each
/// name.
pub const RECORD_NUMBERS: usize = (NAMES + 1) * RECORD;
