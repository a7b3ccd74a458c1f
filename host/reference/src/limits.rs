//! How large things may be, by the names that the header has.

pub const BLOCK: u64 = 16384;
pub const SMALLEST_PIECE_LENGTH: u64 = 16384;
pub const LARGEST_PIECE_LENGTH: u64 = 16777216;
pub const LONGEST_FILE: u64 = 17179869184;
pub const TALLEST_TREE: u64 = 20;
pub const LONGEST_RUN: u32 = 8192;
pub const HASH: usize = 32;
pub const SHA1: usize = 20;
pub const HEADER_SIZE: usize = 49;
pub const LARGEST_REPLY: usize = 262417;
pub const LARGEST_TORRENT: usize = 1048576;
pub const LEVELS: u32 = 32;
pub const ELEMENTS: usize = 28;
pub const RECORD: usize = 280;
pub const WRITE_RECORD: usize = 56;
pub const LONGEST_FRAME: usize = 300000;
pub const LARGEST_SAVE: usize = 91226121;
pub const LONGEST_HASHED: u64 = 2305843009213693951;
