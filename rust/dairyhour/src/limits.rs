//! The limits of the library, each in one place. `include/dairyhour.h` has the same.

/// The least bits of a chunk.
pub const SHORTEST_CHUNK: usize = 3;

/// The most bits of a chunk.
pub const LONGEST_CHUNK: usize = 8;

/// The most chunks of a row, and so the most blocks, and the most chunks of a block: 255.
pub const MOST_CHUNKS: usize = (1 << LONGEST_CHUNK) - 1;

/// The most checks of a message.
pub const MOST_CHECKS: usize = 16;

/// The bits of the longest row, and of the longest string that [`mend`](crate::mend) takes: 2,040.
pub const LONGEST_ROW: usize = MOST_CHUNKS * LONGEST_CHUNK;

/// The bytes of the longest row or string: a target of this size, 255, is never too short for [`mend`](crate::mend).
pub const LONGEST_STRING: usize = LONGEST_ROW / 8;

/// The most bits that a row can lose and be listed.
pub const MOST_LOSSES: usize = 12;

/// The bytes of the longest message: a target of this size is never too short for [`write()`](crate::write()).
pub const LONGEST_MESSAGE: usize = 154;

/// The most numbers that a message has: a target of this size, 272, is never too short for [`read`](crate::read).
pub const MOST_FIELDS: usize = 1 + MOST_CHUNKS + MOST_CHECKS;

/// The bytes of a list slice that [`list`](crate::list) uses at most: a longer one holds no more rows.
pub const LONGEST_LIST: usize = 65_536;
