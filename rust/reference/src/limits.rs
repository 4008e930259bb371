//! Document 01's limits, each with the words that state it.

/// "nc from 3 to 8."
pub const SHORTEST_CHUNK: usize = 3;
pub const LONGEST_CHUNK: usize = 8;

/// "l1 × l2 at most 2^nc − 1", with the longest chunk.
pub const MOST_CHUNKS: usize = 255;

/// "r from 0 to 16."
pub const MOST_CHECKS: usize = 16;

/// "So n is at most 2,040"; "a length w (1 to 2,040)".
pub const LONGEST_ROW: usize = 2040;

/// "k = n − m were deleted, 0 to 12."
pub const MOST_LOSSES: usize = 12;

/// "The longest message has 154 bytes."
pub const LONGEST_MESSAGE: usize = 154;

/// "Only the first 65,536 bytes of a list slice are used."
pub const LONGEST_LIST: usize = 65_536;
