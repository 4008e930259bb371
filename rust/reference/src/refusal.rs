//! The column "Returned" of document 01's refusal table.

pub const NO_MESSAGE: u32 = 1;
pub const VERSION: u32 = 2;
pub const LAYOUT: u32 = 3;
pub const MESSAGE_LENGTH: u32 = 4;
pub const SUM: u32 = 5;
pub const SPARE_BIT: u32 = 6;
pub const LOSSES: u32 = 7;
pub const PACKING: u32 = 8;
pub const LIST_FULL: u32 = 9;
pub const SHORT_TARGET: u32 = 10;
