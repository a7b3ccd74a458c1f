//! The ids of the messages that a neighbour sends, by the header's names, and how many bytes such a message has, its id counted.

/// 1 byte: no requests for blocks are answered.
pub const CHOKE: u8 = 0;
/// 1 byte: they are.
pub const UNCHOKE: u8 = 1;
/// 1 byte: blocks are wanted.
pub const INTERESTED: u8 = 2;
/// 1 byte: none are.
pub const NOT_INTERESTED: u8 = 3;
/// 5 bytes: a piece is there.
pub const HAVE: u8 = 4;
/// 2 bytes or more: which pieces are there.
pub const BITFIELD: u8 = 5;
/// 13 bytes: a block is asked for.
pub const REQUEST: u8 = 6;
/// 9 bytes or more: a block.
pub const PIECE: u8 = 7;
/// 13 bytes: it is no longer asked for.
pub const CANCEL: u8 = 8;
/// 2 bytes or more: a message of an extension.
pub const EXTENDED: u8 = 20;
/// 49 bytes: hashes are asked for, as [`Store::serve`](crate::Store::serve) takes it.
pub const HASH_REQUEST: u8 = 21;
/// 49 bytes or more: hashes, as [`Store::take`](crate::Store::take) takes it.
pub const HASHES: u8 = 22;
/// 49 bytes: hashes that won't come, as [`Store::take_reject`](crate::Store::take_reject) takes it.
pub const HASH_REJECT: u8 = 23;
