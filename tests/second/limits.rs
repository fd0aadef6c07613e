//! The limits of a board and of a line, as document 01 gives them. No other
//! file repeats one of these numbers, so a change of the limits is a change
//! here.

/// Places for sources, number 0 included, and the last source.
pub const SOURCE_ROOM: usize = 128;
pub const LAST_SOURCE: u64 = SOURCE_ROOM as u64 - 1;

/// Contexts, and the words of 32 sources that one has.
pub const CONTEXT_ROOM: usize = 8;
pub const MOST_CONTEXTS: u64 = CONTEXT_ROOM as u64;
pub const WORD_ROOM: usize = SOURCE_ROOM / 32;
pub const MOST_WORDS: u64 = WORD_ROOM as u64;

/// Buckets of waits, and the last of them.
pub const BUCKET_ROOM: usize = 33;
pub const LAST_BUCKET: usize = BUCKET_ROOM - 1;

pub const MOST_BITS: u64 = 5;

/// Extra edges that a counting source keeps.
pub const MOST_EXTRA: u64 = 255;

/// Bytes of the longest readable line, its line feed not counted.
pub const LONGEST_LINE: usize = 255;
