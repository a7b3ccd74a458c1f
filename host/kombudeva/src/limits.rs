//! How large things may be, by the header's names.

/// The bytes of a block; the last one of a file may have fewer.
pub const BLOCK: u64 = 16384;
/// A piece length is a power of two from this on.
pub const SMALLEST_PIECE_LENGTH: u64 = 16384;
/// A piece length is a power of two up to this.
pub const LARGEST_PIECE_LENGTH: u64 = 16777216;
/// The longest file, in bytes; the shortest has 1.
pub const LONGEST_FILE: u64 = 17179869184;
/// The height of its tree, so the layer of its root.
pub const TALLEST_TREE: u64 = 20;
/// The longest run of hashes that a message may give or ask for.
pub const LONGEST_RUN: u32 = 8192;
/// The bytes of a hash.
pub const HASH: usize = 32;
/// The bytes of a SHA-1.
pub const SHA1: usize = 20;
/// The bytes of a hash message without its hashes: a request or a reject has no others.
pub const HEADER_SIZE: usize = 49;
/// The bytes of the largest hashes message, so room enough for [`Store::serve`](crate::Store::serve): the longest run and the uncles above it
/// in the tallest tree.
pub const LARGEST_REPLY: usize = 262417;
/// The largest torrent, in bytes.
pub const LARGEST_TORRENT: usize = 1048576;
/// How deeply a torrent may be nested, its outer dictionary being the first level.
pub const LEVELS: u32 = 32;
/// The most path elements of a file.
pub const ELEMENTS: usize = 28;
/// The bytes of memory that [`Torrent::list`](crate::Torrent::list) needs for each file.
pub const RECORD: usize = 280;
/// The bytes of a file's record in the list that a torrent is written of.
pub const WRITE_RECORD: usize = 56;
/// The bytes of a message in a stream, its id counted, its prefix not: room enough for a [`Stream`](crate::Stream).
pub const LONGEST_FRAME: usize = 300000;
/// The bytes of the largest save: the longest file, all held, all marked.
pub const LARGEST_SAVE: usize = 91226121;
/// The longest string that SHA-256 and SHA-1 have a hash for, in bytes: one of 2^64 bits has none.
pub const LONGEST_HASHED: usize = 2305843009213693951;
