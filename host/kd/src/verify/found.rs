//! What was found of a file.

use serde::Serialize;
use std::io;

#[derive(Clone, Copy, Debug, PartialEq, Eq, Serialize)]
#[serde(rename_all = "lowercase")]
pub enum State {
    Ok,
    Wrong,
    Missing,
    Longer,
    Unread,
}

impl State {
    pub fn word(self) -> &'static str {
        match self {
            State::Ok => "ok",
            State::Wrong => "wrong",
            State::Missing => "missing",
            State::Longer => "longer",
            State::Unread => "unread",
        }
    }
}

/// Bytes that are not right, the last one included, and the library's number for them.
#[derive(Clone, Copy, Debug, PartialEq, Eq, Serialize)]
pub struct Wrong {
    pub first: u64,
    pub last: u64,
    pub number: u32,
}

#[derive(Debug, Default)]
pub struct Found {
    /// Bytes that were judged right.
    pub right: u64,
    pub wrong: Vec<Wrong>,
    pub wrong_pieces: u64,
    pub missing: bool,
    /// How long it is on the disk.
    pub on_disk: u64,
    pub unread: Option<io::Error>,
}

impl Found {
    /// Adds what was found of another part of the same file.
    pub fn join(&mut self, other: Found) {
        self.right += other.right;
        self.wrong.extend(other.wrong);
        self.wrong_pieces += other.wrong_pieces;
        self.missing |= other.missing;
        self.on_disk = self.on_disk.max(other.on_disk);
        self.unread = self.unread.take().or(other.unread);
    }

    pub fn state(&self, length: u64) -> State {
        match () {
            () if self.unread.is_some() => State::Unread,
            () if self.missing => State::Missing,
            () if !self.wrong.is_empty() => State::Wrong,
            () if self.on_disk > length => State::Longer,
            () => State::Ok,
        }
    }

    /// The wrong bytes in order, neighbours with one number as one.
    pub fn wrong(&self) -> Vec<Wrong> {
        let mut sorted = self.wrong.clone();
        sorted.sort_by_key(|part| part.first);
        let mut joined: Vec<Wrong> = Vec::new();
        for part in sorted {
            match joined.last_mut() {
                Some(last) if last.last + 1 == part.first && last.number == part.number => last.last = part.last,
                _ => joined.push(part),
            }
        }
        joined
    }
}

#[cfg(test)]
mod tests {
    use super::*;

    #[test]
    fn neighbours_are_joined_in_any_order() {
        let part = |first, last, number| Wrong { first, last, number };
        let wrong = vec![part(20, 29, 7), part(0, 9, 7), part(10, 19, 7), part(30, 34, 4), part(50, 59, 4)];
        let found = Found { wrong, ..Found::default() };
        assert_eq!(found.wrong(), [part(0, 29, 7), part(30, 34, 4), part(50, 59, 4)]);
        assert_eq!(found.state(60), State::Wrong);
    }
}
