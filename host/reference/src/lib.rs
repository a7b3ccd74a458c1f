//! A second implementation of the whole of document 01, and of what 02 has added so far, in plain safe Rust, used by tests and benchmarks only.
//!
//! It is written from the document's rules and shares no code and no idea with the proved library: trees are built
//! as lists of positions with their hashes and compared one by one, torrents are parsed to values first. Where the
//! two answer alike, two independent readings of the rules agree. Simple comes before fast here.
//!
//! Every entry point of the C boundary has a function of the same meaning: slices in, an answer struct out.
#![forbid(unsafe_code)]

pub mod asking;
pub mod bencode;
pub mod extends;
pub mod history;
pub mod hosts;
pub mod hybrid;
pub mod ids;
pub mod limits;
pub mod marks;
pub mod messages;
pub mod number;
pub mod pieces;
pub mod replay;
pub mod running;
pub mod saved;
pub mod sha1;
pub mod sha256;
pub mod store;
pub mod stream;
pub mod torrent;
pub mod tree;
pub mod write;

/// A number with the count, or with the reply's size.
#[derive(Clone, Copy, Debug, PartialEq, Eq)]
pub struct Answer {
    pub number: u32,
    pub count: u64,
}

/// A number, and beside 0 a hash.
#[derive(Clone, Copy, Debug, PartialEq, Eq)]
pub struct Hashed {
    pub number: u32,
    pub hash: sha256::Hash,
}

/// A number, and beside 0 a SHA-1.
#[derive(Clone, Copy, Debug, PartialEq, Eq)]
pub struct Sha1Answer {
    pub number: u32,
    pub hash: sha1::Sha1,
}

impl Answer {
    pub fn done(count: u64) -> Answer {
        Answer { number: number::DONE, count }
    }

    /// Beside a refusal every count is zero.
    pub fn refused(number: u32) -> Answer {
        Answer { number, count: 0 }
    }
}

impl Hashed {
    pub fn done(hash: sha256::Hash) -> Hashed {
        Hashed { number: number::DONE, hash }
    }

    pub fn refused(number: u32) -> Hashed {
        Hashed { number, hash: [0; 32] }
    }
}
