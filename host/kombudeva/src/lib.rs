//! Kombudeva for Rust hosts: a store of BitTorrent v2 hashes that believes nothing before its chain is checked.
//!
//! A [`Store`] is over the memory that it lives in, and a [`Refusal`] names the number that the proved library gave.
//! Nothing here decides anything; each method is one call over the C boundary (crate `kombudeva-sys`, the only unsafe code).
//!
//! ```
//! use kombudeva::{sha256, store_size, Refusal, Store};
//!
//! // A file of one block: its tree is its leaf, so its pieces root is that block's hash.
//! let file = b"3.71 V";
//! let root = sha256(file)?;
//!
//! let memory = vec![0; store_size(file.len() as u64, 16384)?];
//! let mut store = Store::open(memory, file.len() as u64, 16384, root)?;
//!
//! assert_eq!(store.held(0, 0), Ok(root));
//! assert_eq!(store.judge_block(0, file), Ok(()));
//! assert_eq!(store.judge_block(0, b"3.70 V"), Err(Refusal::Differs));
//! assert_eq!(store.marked(0), Ok(true));
//! # Ok::<(), Refusal>(())
//! ```
//!
//! The folder `examples/` has programs: one that believes blocks, one that serves a request, one that publishes what it logged.
//!
//! # Features
//!
//! `std`, on by default, is for [`io::Write`](std::io::Write) and [`io::Error`](std::io::Error). Without it the crate is `no_std`
//! with `alloc`, which [`TorrentBuilder`] and [`History::kept`] alone need.
//!
//! # Panics
//!
//! Every call panics if the library answers with a number that this crate's table has not: they are of different builds then. No
//! value that is given, and no byte that is lent, makes a call panic.
#![no_std]
#![forbid(unsafe_code)]
#![deny(missing_docs)]

extern crate alloc;
#[cfg(feature = "std")]
extern crate std;

mod answer;
pub mod ids;
pub mod limits;
mod running;
mod store;
mod stream;
mod torrent;
mod writing;

pub use answer::Refusal;
pub use running::{Hashing, History, Logged};
pub use store::{store_size, Facts, Repaired, Request, Served, Store};
pub use stream::{frame, Heard, Hearing, Stream};
pub use torrent::{first_piece, place, File, List, Listed, Placed, Torrent, V1Piece, V1Pieces};
pub use writing::TorrentBuilder;

use answer::answer;

/// A SHA-256: 32 bytes in the order in which the standard prints them.
pub type Hash = [u8; 32];

/// A SHA-1: 20 bytes in the order in which the standard prints them.
pub type Sha1 = [u8; 20];

/// The version of the library that is linked, as the header's `KD_VERSION_NUMBER`: a million for the first figure, a thousand for the
/// second, one for the third. It is this crate's own, or they are of different builds.
///
/// ```
/// let figures = env!("CARGO_PKG_VERSION").split('.').map(|figure| figure.parse::<u32>().unwrap());
/// assert_eq!(kombudeva::version(), figures.fold(0, |number, figure| number * 1000 + figure));
/// ```
#[must_use]
pub fn version() -> u32 {
    boundary::version()
}

/// SHA-256 by FIPS 180-4.
///
/// ```
/// assert_eq!(kombudeva::sha256(b"abc")?[..4], [0xba, 0x78, 0x16, 0xbf]);
/// # Ok::<(), kombudeva::Refusal>(())
/// ```
///
/// # Errors
///
/// [`Refusal::WrongSize`] above 2^61 - 1 bytes, for which the standard has no hash.
pub fn sha256(data: &[u8]) -> Result<Hash, Refusal> {
    let given = boundary::sha256(data);
    answer(given.number, given.hash.bytes)
}

/// SHA-1 by FIPS 180-4: what the v1 half of a hybrid torrent is hashed with. Different strings with one SHA-1 are known, so that it
/// alone says little of bytes that somebody chose.
///
/// ```
/// assert_eq!(kombudeva::sha1(b"abc")?[..4], [0xa9, 0x99, 0x3e, 0x36]);
/// # Ok::<(), kombudeva::Refusal>(())
/// ```
///
/// # Errors
///
/// [`Refusal::WrongSize`] above 2^61 - 1 bytes, for which the standard has no hash.
pub fn sha1(data: &[u8]) -> Result<Sha1, Refusal> {
    let given = boundary::sha1(data);
    answer(given.number, given.hash.bytes)
}
