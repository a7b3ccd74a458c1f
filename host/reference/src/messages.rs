//! The three hash messages: request, hashes, reject. Section "The hash messages" of document 01.

use crate::limits::{HEADER_SIZE, LONGEST_RUN};
use crate::number::*;
use crate::sha256::{pair, Hash};
use crate::store::{any_differs, facts_of, held_at, hold};
use crate::tree::{over_run, padding, Facts, Position, Settled};
use crate::Answer;

pub const REQUEST: u8 = 21;
pub const HASHES: u8 = 22;
pub const REJECT: u8 = 23;
/// The id byte and the header behind it.
pub const HEAD: usize = HEADER_SIZE;

/// The 48 bytes behind the id.
#[derive(Clone, Copy, Debug, PartialEq, Eq)]
pub struct Header {
    pub root: Hash,
    pub base: u32,
    pub index: u32,
    pub length: u32,
    pub proof: u32,
}

impl Header {
    /// The header of a message of at least 49 bytes.
    pub fn read(message: &[u8]) -> Header {
        let word = |at: usize| u32::from_be_bytes(message[at..at + 4].try_into().unwrap());
        Header {
            root: message[1..33].try_into().unwrap(),
            base: word(33),
            index: word(37),
            length: word(41),
            proof: word(45),
        }
    }

    /// The 49 bytes of a message with this id.
    pub fn write(&self, id: u8) -> Vec<u8> {
        let mut bytes = Vec::with_capacity(HEAD);
        bytes.push(id);
        bytes.extend_from_slice(&self.root);
        for word in [self.base, self.index, self.length, self.proof] {
            bytes.extend_from_slice(&word.to_be_bytes());
        }
        bytes
    }

    /// The header rules against a store's h. Sums are made in 64 bits, so that none of them wraps, and "at most h - 1" is
    /// "below h", so that nothing is taken from an h of 0.
    pub fn obeys_the_rules(&self, facts: &Facts) -> bool {
        let (base, index, proof) = (self.base as u64, self.index as u64, self.proof as u64);
        self.length.is_power_of_two()
            && (2..=LONGEST_RUN).contains(&self.length)
            && self.index.is_multiple_of(self.length)
            && base + self.run_layers() <= facts.height()
            && base + proof < facts.height()
            && index + self.length as u64 <= facts.width(base)
    }

    /// log2(length), for a length that is a power of two.
    pub fn run_layers(&self) -> u64 {
        self.length.trailing_zeros() as u64
    }

    /// u: the proof layers that can't be worked out from the run.
    pub fn uncles(&self) -> u64 {
        (self.proof as u64).saturating_sub(self.run_layers() - 1)
    }

    /// The position that a message is held against: the path's, above the run and its uncles.
    pub fn anchor(&self) -> Position {
        let layers = self.run_layers() + self.uncles();
        Position { layer: self.base as u64 + layers, index: self.index as u64 >> layers }
    }

    /// Bytes of a hashes message with this header.
    pub fn message_size(&self) -> u64 {
        HEAD as u64 + 32 * (self.length as u64 + self.uncles())
    }

    /// The positions whose hashes a message carries: the run, then the uncles upward.
    pub fn given_positions(&self) -> Vec<Position> {
        let run =
            (0..self.length).map(|offset| Position { layer: self.base as u64, index: (self.index + offset) as u64 });
        let uncles = (0..self.uncles()).map(|uncle| {
            let layers = self.run_layers() + uncle;
            Position { layer: self.base as u64 + layers, index: (self.index as u64 >> layers) ^ 1 }
        });
        run.chain(uncles).collect()
    }

    /// Every position that a message with these hashes settles, with its hash; the anchor last.
    pub fn settled(&self, hashes: &[Hash]) -> Vec<Settled> {
        let (run, uncles) = hashes.split_at(self.length as usize);
        let mut settled = over_run(Position { layer: self.base as u64, index: self.index as u64 }, run);
        for uncle in uncles {
            let (at, hash) = *settled.last().expect("a run is not empty");
            let is_left = at.index % 2 == 0;
            settled.insert(settled.len() - 1, (Position { layer: at.layer, index: at.index ^ 1 }, *uncle));
            let parent = if is_left { pair(&hash, uncle) } else { pair(uncle, &hash) };
            settled.push((Position { layer: at.layer + 1, index: at.index / 2 }, parent));
        }
        settled
    }
}

/// The refusals that every message shares: 9, 1, 2, 3, in that order. Otherwise the store's facts and the header.
fn read_head(store: &[u8], message: &[u8], is_that_message: bool) -> Result<(Facts, Header), u32> {
    let facts = facts_of(store).ok_or(UNUSABLE)?;
    if !is_that_message {
        return Err(NO_MESSAGE);
    }
    let header = Header::read(message);
    if header.root != facts.root {
        return Err(OTHER_ROOT);
    }
    if !header.obeys_the_rules(&facts) {
        return Err(RULE_BROKEN);
    }
    Ok((facts, header))
}

fn hashes_in(message: &[u8]) -> Vec<Hash> {
    message[HEAD..].chunks_exact(32).map(|bytes| bytes.try_into().unwrap()).collect()
}

/// What a hashes message settles, or why it is refused.
fn judge(store: &[u8], message: &[u8]) -> Result<(Facts, Vec<Settled>), u32> {
    let is_hashes = message.len() >= HEAD && message[0] == HASHES;
    let (facts, header) = read_head(store, message, is_hashes)?;
    if message.len() as u64 != header.message_size() {
        return Err(WRONG_SIZE);
    }
    let settled = header.settled(&hashes_in(message));
    if settled.iter().any(|(at, hash)| facts.is_padding(*at) && *hash != padding(at.layer)) {
        return Err(WRONG_PADDING);
    }
    let (anchor, worked_out) = *settled.last().expect("a message settles its anchor");
    let held = held_at(store, &facts, anchor).ok_or(NO_ANCHOR)?;
    if worked_out != held {
        return Err(DIFFERS);
    }
    if any_differs(store, &facts, &settled) {
        return Err(CONFLICT);
    }
    Ok((facts, settled))
}

/// Takes a hashes message: on 0 all it settles is held, and the count is the positions newly held.
pub fn take(store: &mut [u8], message: &[u8]) -> Answer {
    match judge(store, message) {
        Ok((facts, settled)) => Answer::done(hold(store, &facts, &settled)),
        Err(number) => Answer::refused(number),
    }
}

/// Hears a reject; it changes nothing.
pub fn take_reject(store: &[u8], message: &[u8]) -> Answer {
    let is_reject = message.len() == HEAD && message[0] == REJECT;
    match read_head(store, message, is_reject) {
        Ok(_) => Answer::done(0),
        Err(number) => Answer::refused(number),
    }
}

/// The number of a request, and the message that answers it: hashes beside 0, a reject beside 2, 3 and 12.
fn reply_to(store: &[u8], request: &[u8]) -> (u32, Vec<u8>) {
    let reject = || Header::read(request).write(REJECT);
    let is_request = request.len() == HEAD && request[0] == REQUEST;
    let (facts, header) = match read_head(store, request, is_request) {
        Ok(both) => both,
        Err(number @ (OTHER_ROOT | RULE_BROKEN)) => return (number, reject()),
        Err(number) => return (number, Vec::new()),
    };
    let mut reply = header.write(HASHES);
    for at in header.given_positions() {
        match held_at(store, &facts, at) {
            Some(hash) => reply.extend_from_slice(&hash),
            None => return (NOT_HELD, reject()),
        }
    }
    (DONE, reply)
}

/// Answers a request in `out`: the hashes, or a reject. The count is the reply's size.
pub fn serve(store: &[u8], request: &[u8], out: &mut [u8]) -> Answer {
    let (number, reply) = reply_to(store, request);
    if reply.len() > out.len() {
        return Answer::refused(NO_ROOM);
    }
    out[..reply.len()].copy_from_slice(&reply);
    Answer { number, count: reply.len() as u64 }
}

#[cfg(test)]
mod tests {
    use super::*;
    use crate::limits::{BLOCK, LARGEST_REPLY, LONGEST_FILE};
    use crate::store::{held, open, store_size};
    use crate::tree::of_file;
    use std::collections::HashMap;

    struct Case {
        facts: Facts,
        tree: HashMap<Position, Hash>,
        store: Vec<u8>,
    }

    fn case(length: u64) -> Case {
        let bytes: Vec<u8> = (0..length).map(|i| (i * 7 + i / 251) as u8).collect();
        let tree = of_file(&bytes);
        let facts = Facts { length, piece_length: BLOCK, root: tree.last().unwrap().1 };
        let mut store = vec![0; store_size(length, BLOCK).count as usize];
        assert_eq!(open(&mut store, length, BLOCK, facts.root), Answer::done(1));
        Case { facts, tree: tree.into_iter().collect(), store }
    }

    impl Case {
        fn header(&self, (base, index, length, proof): (u32, u32, u32, u32)) -> Header {
            Header { root: self.facts.root, base, index, length, proof }
        }

        fn message(&self, words: (u32, u32, u32, u32)) -> Vec<u8> {
            let header = self.header(words);
            let mut message = header.write(HASHES);
            for at in header.given_positions() {
                message.extend_from_slice(&self.tree[&at]);
            }
            message
        }

        fn take(&mut self, words: (u32, u32, u32, u32)) -> (u32, u64) {
            let message = self.message(words);
            let answer = take(&mut self.store, &message);
            (answer.number, answer.count)
        }

        fn serve(&self, words: (u32, u32, u32, u32)) -> (u32, u64) {
            let answer = serve(&self.store, &self.header(words).write(REQUEST), &mut [0; 20000]);
            (answer.number, answer.count)
        }
    }

    /// No message that keeps the rules of the tallest tree is larger than the largest reply, and one is as large.
    #[test]
    fn the_largest_reply() {
        let facts = Facts { length: LONGEST_FILE, piece_length: BLOCK, root: [0; 32] };
        let mut largest = 0;
        for (base, proof, run_layers) in
            (0..=20).flat_map(|base| (0..=20).flat_map(move |proof| (1..=13).map(move |layers| (base, proof, layers))))
        {
            let header = Header { root: [0; 32], base, index: 0, length: 1 << run_layers, proof };
            if header.obeys_the_rules(&facts) {
                largest = largest.max(header.message_size());
            }
        }
        assert_eq!(largest, LARGEST_REPLY as u64);
    }

    #[test]
    fn worked_headers() {
        let five = case(81920);
        let uncles_size_anchor = |words| {
            let header = five.header(words);
            assert!(header.obeys_the_rules(&five.facts));
            let (uncles, size) = (header.uncles(), header.message_size());
            let given: Vec<Hash> = header.given_positions().iter().map(|at| five.tree[at]).collect();
            let settled = header.settled(&given);
            assert_eq!(settled.len() as u64, 2 * header.length as u64 - 1 + 2 * uncles);
            assert!(settled.iter().all(|(at, hash)| five.tree[at] == *hash));
            (uncles, size, settled.last().unwrap().0.layer)
        };
        assert_eq!(uncles_size_anchor((0, 0, 2, 2)), (2, 177, 3));
        assert_eq!(uncles_size_anchor((0, 4, 4, 2)), (1, 209, 3));
        assert_eq!(uncles_size_anchor((0, 0, 4, 1)), (0, 177, 2));
        assert_eq!(uncles_size_anchor((0, 0, 8, 0)), (0, 305, 3));
        assert_eq!(uncles_size_anchor((0, 0, 8, 2)), (0, 305, 3));
        assert_eq!(uncles_size_anchor((1, 2, 2, 1)), (1, 145, 3));
        assert_eq!(uncles_size_anchor((2, 0, 2, 0)), (0, 113, 3));
        assert_eq!(uncles_size_anchor((0, 6, 2, 0)), (0, 113, 1));
        assert_eq!(uncles_size_anchor((0, 6, 2, 1)), (1, 145, 2));
    }

    #[test]
    fn worked_refusals_by_3() {
        let five = case(81920);
        let refused = [
            (0, 0, 2, 3),
            (0, 8, 2, 0),
            (1, 4, 2, 0),
            (0, 2, 4, 0),
            (0, 0, 0, 0),
            (0, 0, 1, 0),
            (0, 0, 3, 0),
            (0, 0, 1024, 0),
            (1, 0, 2, 4294967295),
            (4294967295, 0, 2, 1),
            (0, 4294967294, 2, 0),
        ];
        for words in refused {
            assert!(!five.header(words).obeys_the_rules(&five.facts), "{words:?}");
            assert_eq!(five.serve(words), (RULE_BROKEN, 49));
        }
    }

    #[test]
    fn every_request_for_a_one_block_file_is_3() {
        let one = case(1);
        for words in [(0, 0, 2, 0), (0, 0, 0, 0), (0, 0, 1, 0), (4294967295, 0, 2, 4294967295)] {
            assert_eq!(one.serve(words), (RULE_BROKEN, 49));
        }
    }

    #[test]
    fn worked_session() {
        let mut five = case(81920);
        assert_eq!(five.take((0, 0, 4, 1)), (NO_ANCHOR, 0));
        assert_eq!(five.take((2, 0, 2, 0)), (DONE, 2));
        assert_eq!(five.take((0, 0, 4, 1)), (DONE, 6));
        assert_eq!(five.take((0, 0, 4, 1)), (DONE, 0));
    }

    #[test]
    fn six_are_new_on_a_fresh_store() {
        assert_eq!(case(81920).take((0, 0, 2, 2)), (DONE, 6));
    }

    /// A run wholly in padding, and one half in it: the anchor must be held, though it is padding.
    #[test]
    fn runs_in_padding() {
        let mut five = case(81920);
        assert_eq!(five.take((0, 6, 2, 0)), (NO_ANCHOR, 0));
        assert_eq!(five.serve((0, 6, 2, 0)), (NOT_HELD, 49));
        assert_eq!(five.take((1, 2, 2, 1)), (DONE, 4));
        assert_eq!(five.take((0, 6, 2, 0)), (DONE, 2));
        assert_eq!(five.take((0, 6, 2, 0)), (DONE, 0));
        assert_eq!(five.serve((0, 6, 2, 0)), (DONE, 113));
        assert_eq!(five.take((0, 4, 2, 0)), (DONE, 2));
        assert_eq!(case(81920).take((0, 6, 2, 2)), (DONE, 6));
    }

    /// Every hash of a run past the last block is its layer's padding value, an uncle only where it is padding itself:
    /// the one of (0,6,2,1) covers block 4.
    #[test]
    fn padding_past_the_last_block() {
        let mut five = case(81920);
        let mut number = |words, at: usize| {
            let mut message = five.message(words);
            message[at] ^= 1;
            take(&mut five.store, &message).number
        };
        assert_eq!(number((0, 6, 2, 0), HEAD), WRONG_PADDING);
        assert_eq!(number((0, 6, 2, 1), HEAD + 32), WRONG_PADDING);
        assert_eq!(number((0, 6, 2, 1), HEAD + 64), NO_ANCHOR);
        assert_eq!(number((0, 4, 2, 1), HEAD + 64), WRONG_PADDING);
    }

    #[test]
    fn a_reply_is_read_back_as_what_was_held() {
        let mut five = case(81920);
        assert_eq!(five.serve((0, 0, 8, 0)), (NOT_HELD, 49));
        five.take((0, 0, 8, 2));
        let request = five.header((0, 4, 4, 2)).write(REQUEST);
        let mut out = [0xaa; 300];
        assert_eq!(serve(&five.store, &request, &mut out), Answer::done(209));
        assert_eq!(out[..209], five.message((0, 4, 4, 2)));
        assert!(out[209..].iter().all(|byte| *byte == 0xaa));
        assert_eq!(serve(&five.store, &request, &mut out[..208]), Answer::refused(NO_ROOM));
    }

    #[test]
    fn a_reject_is_the_request_with_another_id() {
        let five = case(81920);
        let mut request = five.header((0, 0, 8, 0)).write(REQUEST);
        request[1] ^= 1;
        let mut out = [0; 49];
        assert_eq!(serve(&five.store, &request, &mut out), Answer { number: OTHER_ROOT, count: 49 });
        assert_eq!((out[0], &out[1..]), (REJECT, &request[1..]));
        assert_eq!(take_reject(&five.store, &out).number, OTHER_ROOT);
        out[1] ^= 1;
        assert_eq!(take_reject(&five.store, &out), Answer::done(0));
        assert_eq!(serve(&five.store, &request, &mut out[..48]), Answer::refused(NO_ROOM));
    }

    #[test]
    fn numbers_come_in_their_order() {
        let mut five = case(81920);
        let good = five.message((0, 4, 4, 2));
        let mut number = |change: &dyn Fn(&mut Vec<u8>)| {
            let mut message = good.clone();
            change(&mut message);
            let before = five.store.clone();
            let number = take(&mut five.store, &message).number;
            assert!(number == DONE || five.store == before);
            number
        };
        assert_eq!(number(&|m| m.truncate(48)), NO_MESSAGE);
        assert_eq!(number(&|m| m[0] = REQUEST), NO_MESSAGE);
        assert_eq!(number(&|m| m[1] ^= 1), OTHER_ROOT);
        assert_eq!(number(&|m| m[44] = 3), RULE_BROKEN);
        assert_eq!(number(&|m| m.truncate(49)), WRONG_SIZE);
        assert_eq!(number(&|m| m.push(0)), WRONG_SIZE);
        assert_eq!(number(&|m| m[49 + 32] = 1), WRONG_PADDING);
        assert_eq!(number(&|m| m[49] ^= 1), DIFFERS);
        assert_eq!(number(&|_| ()), DONE);
    }

    #[test]
    fn a_conflict_needs_an_agreeing_anchor() {
        let mut five = case(81920);
        five.take((0, 0, 8, 0));
        // A foreign hand changes the leaf 1 that is held: the true message agrees with its anchor, but not with that leaf.
        five.store[64 + 33 * 8 + 1] ^= 1;
        assert_eq!(five.take((0, 0, 2, 2)), (CONFLICT, 0));
        assert_eq!(five.take((0, 4, 4, 1)), (DONE, 0));
        // With a mark that says neither, the leaf is not held, and becomes so.
        five.store[64 + 33 * 8] = 77;
        assert_eq!(five.take((0, 0, 2, 2)), (DONE, 1));
        assert_eq!(held(&five.store, 0, 1).hash, five.tree[&Position { layer: 0, index: 1 }]);
    }
}
