//! SHA-256 of bytes that come in bursts: request 1 of document 02.

use crate::limits::LONGEST_HASHED;
use crate::number::{DONE, UNUSABLE, WRONG_SIZE};
use crate::sha256::{compress, digest, last_blocks, START};
use crate::Hashed;

/// The words after the whole blocks so far, the bytes past those with their count, and the count of all bytes.
#[derive(Clone, Copy, Debug, PartialEq, Eq)]
pub struct Hashing {
    pub words: [u32; 8],
    pub tail: [u8; 64],
    pub tail_size: u64,
    pub total: u64,
}

impl Hashing {
    /// No bytes yet.
    pub fn begin() -> Hashing {
        Hashing { words: START, tail: [0; 64], tail_size: 0, total: 0 }
    }

    /// Whether some bursts give these counts.
    pub fn possible(&self) -> bool {
        self.total <= LONGEST_HASHED && self.tail_size == self.total % 64
    }

    /// A burst; beside a refusal the state comes back as it was given.
    pub fn more(self, burst: &[u8]) -> (u32, Hashing) {
        if !self.possible() {
            return (UNUSABLE, self);
        }
        if burst.len() as u64 > LONGEST_HASHED - self.total {
            return (WRONG_SIZE, self);
        }
        (DONE, self.after(burst))
    }

    /// The state after a burst: what waits and the burst are cut into blocks, the rest waits, with zeros behind.
    pub fn after(self, burst: &[u8]) -> Hashing {
        let waiting = [&self.tail[..self.tail_size as usize], burst].concat();
        let blocks = waiting.chunks_exact(64);
        let rest = blocks.remainder();
        let mut tail = [0; 64];
        tail[..rest.len()].copy_from_slice(rest);
        Hashing {
            words: blocks.fold(self.words, compress),
            tail,
            tail_size: rest.len() as u64,
            total: self.total + burst.len() as u64,
        }
    }

    /// The hash of the bytes so far. The state may go on.
    pub fn end(&self) -> Hashed {
        if !self.possible() {
            return Hashed::refused(UNUSABLE);
        }
        let (last, size) = last_blocks(&self.tail[..self.tail_size as usize], self.total as usize);
        Hashed::done(digest(last[..size].chunks_exact(64).fold(self.words, compress)))
    }
}

#[cfg(test)]
mod tests {
    use super::*;
    use crate::sha256::sha256;

    /// Bytes that repeat nowhere near.
    fn bytes(size: usize) -> Vec<u8> {
        (0..size).map(|i| (i * i / 7 + i) as u8).collect()
    }

    #[test]
    fn every_cutting_into_three_gives_the_hash() {
        let all = bytes(200);
        for one in 0..=200 {
            for two in (one..=200).step_by(7) {
                let cut = Hashing::begin().after(&all[..one]).after(&all[one..two]).after(&all[two..]);
                assert_eq!(cut, Hashing::begin().after(&all));
                assert_eq!(cut.end(), Hashed::done(sha256(&all)));
            }
        }
    }

    #[test]
    fn bytes_behind_the_tail_do_not_matter() {
        let clean = Hashing::begin().after(&bytes(70));
        let mut dirty = clean;
        dirty.tail[6..].fill(0xaa);
        assert_eq!(dirty.end(), clean.end());
        assert_eq!(dirty.more(&bytes(3)), clean.more(&bytes(3)));
        assert_eq!(dirty.more(&[]), (DONE, clean));
    }

    #[test]
    fn refusals_hand_back_the_state() {
        let odd = Hashing { tail_size: 5, ..Hashing::begin() };
        assert_eq!(odd.more(b"x"), (UNUSABLE, odd));
        assert_eq!(odd.end(), Hashed::refused(UNUSABLE));
        let past = Hashing { total: 1 << 61, ..Hashing::begin() };
        assert_eq!(past.more(b""), (UNUSABLE, past));
        let full = Hashing { total: LONGEST_HASHED, tail_size: 63, ..Hashing::begin() };
        assert_eq!(full.more(b"x"), (WRONG_SIZE, full));
        assert_eq!(full.more(b"").0, DONE);
    }
}
