//! What to ask for next, and which piece to fetch. Request 11 of document 02.
//!
//! The request is found by trying: position after position of the layer, then one proof layer more after another.

use crate::limits::LONGEST_RUN;
use crate::marks::is_on_disk;
use crate::messages::{Header, HEAD, REQUEST};
use crate::number::*;
use crate::store::{facts_of, held_at};
use crate::tree::{Facts, Position};

/// A number; beside 0 `asks` is 1 with the request's four numbers and its bytes, or 0: nothing to ask.
#[derive(Clone, Copy, Debug, PartialEq, Eq)]
pub struct Request {
    pub number: u32,
    pub asks: u32,
    pub base: u32,
    pub index: u32,
    pub length: u32,
    pub proof: u32,
    pub message: [u8; HEAD],
}

/// A number; beside 0 `found` is 1 with the piece to fetch, or 0: nothing to fetch.
#[derive(Clone, Copy, Debug, PartialEq, Eq)]
pub struct Choice {
    pub number: u32,
    pub found: u32,
    pub piece: u64,
}

impl Request {
    /// Nothing to ask, or a refusal: all but the number is zero.
    pub fn none(number: u32) -> Request {
        Request { number, asks: 0, base: 0, index: 0, length: 0, proof: 0, message: [0; HEAD] }
    }

    fn with(header: &Header) -> Request {
        Request {
            number: DONE,
            asks: 1,
            base: header.base,
            index: header.index,
            length: header.length,
            proof: header.proof,
            message: header.write(REQUEST).try_into().expect("a request has 49 bytes"),
        }
    }
}

impl Choice {
    /// Nothing to fetch, or a refusal.
    pub fn none(number: u32) -> Choice {
        Choice { number, found: 0, piece: 0 }
    }
}

/// The next request for a layer.
pub fn next_request(store: &[u8], layer: u64) -> Request {
    match next_header(store, layer) {
        Ok(Some(header)) => Request::with(&header),
        Ok(None) => Request::none(DONE),
        Err(number) => Request::none(number),
    }
}

/// Layer 0, which every file has, and the piece layer where the file has one.
fn may_be_asked_for(facts: &Facts, layer: u64) -> bool {
    layer == 0 || layer == facts.piece_layer() && facts.has_piece_layer()
}

fn next_header(store: &[u8], layer: u64) -> Result<Option<Header>, u32> {
    let facts = facts_of(store).ok_or(UNUSABLE)?;
    if !may_be_asked_for(&facts, layer) {
        return Err(RULE_BROKEN);
    }
    let is_held = |at: Position| held_at(store, &facts, at).is_some();
    if !is_held(facts.top()) {
        return Err(NO_ANCHOR);
    }
    let positions = (0..facts.width(layer)).map(|index| Position { layer, index });
    let Some(lowest) = positions.filter(|at| !facts.is_padding(*at)).find(|at| !is_held(*at)) else { return Ok(None) };
    let length = facts.width(layer).min(LONGEST_RUN as u64);
    let first = lowest.index - lowest.index % length;
    let request = |proof: u64| Header {
        root: facts.root,
        base: layer as u32,
        index: first as u32,
        length: length as u32,
        proof: proof as u32,
    };
    let fewest = (0..facts.height()).map(request).find(|header| is_held(header.anchor()));
    Ok(Some(fewest.expect("the root is held")))
}

/// The piece to fetch: of those that aren't on disk and that a neighbour has, the one that the fewest have.
pub fn pick_piece(store: &[u8], counts: &[u32]) -> Choice {
    let Some(facts) = facts_of(store) else { return Choice::none(UNUSABLE) };
    if counts.len() as u64 != facts.pieces() {
        return Choice::none(WRONG_SIZE);
    }
    let to_fetch =
        (0..facts.pieces()).filter(|piece| counts[*piece as usize] > 0 && !is_on_disk(store, &facts, *piece));
    let rarest = to_fetch.min_by_key(|piece| (counts[*piece as usize], *piece));
    rarest.map_or(Choice::none(DONE), |piece| Choice { number: DONE, found: 1, piece })
}

#[cfg(test)]
mod tests {
    use super::*;
    use crate::limits::BLOCK;
    use crate::marks::clear;
    use crate::messages::{serve, take};
    use crate::pieces::judge_piece;
    use crate::store::{open, size_of, store_size};
    use crate::tree::{of_file, root_of_file};

    /// Five blocks, three pieces, h = 3.
    const PIECE: u64 = 32768;
    const LENGTH: usize = 4 * BLOCK as usize + 100;

    fn file() -> Vec<u8> {
        (0..LENGTH).map(|i| (i * 31 + i / 253) as u8).collect()
    }

    fn opened(bytes: &[u8], piece_length: u64) -> Vec<u8> {
        let mut store = vec![0xaa; store_size(bytes.len() as u64, piece_length).count as usize];
        open(&mut store, bytes.len() as u64, piece_length, root_of_file(bytes));
        store
    }

    /// A store that holds every position.
    fn whole(bytes: &[u8], piece_length: u64) -> Vec<u8> {
        let mut store = opened(bytes, piece_length);
        let facts = facts_of(&store).unwrap();
        crate::store::hold(&mut store, &facts, &of_file(bytes));
        store
    }

    fn words(request: &Request) -> (u32, u32, u32, u32, u32, u32) {
        (request.number, request.asks, request.base, request.index, request.length, request.proof)
    }

    fn answered(from: &[u8], to: &mut [u8], request: &Request) -> u64 {
        let mut reply = vec![0; 1000];
        let served = serve(from, &request.message, &mut reply);
        assert_eq!(served.number, DONE);
        let taken = take(to, &reply[..served.count as usize]);
        assert_eq!(taken.number, DONE);
        taken.count
    }

    #[test]
    fn numbers_in_order() {
        let bytes = file();
        let mut store = opened(&bytes, PIECE);
        assert_eq!(next_request(&store[..store.len() - 1], 9), Request::none(UNUSABLE));
        assert_eq!(next_request(&[], 0), Request::none(UNUSABLE));
        for layer in [2, 3, 4, 1 << 32, u64::MAX] {
            assert_eq!(next_request(&store, layer), Request::none(RULE_BROKEN));
        }
        store[64] = 2;
        assert_eq!(next_request(&store, 2), Request::none(RULE_BROKEN));
        assert_eq!(next_request(&store, 0), Request::none(NO_ANCHOR));
        assert_eq!(next_request(&store, 1), Request::none(NO_ANCHOR));
        let short = opened(&bytes, 131072);
        assert_eq!(next_request(&short, 3), Request::none(RULE_BROKEN), "no piece layer");
        assert_eq!(next_request(&opened(&bytes, 16384), 0).asks, 1, "p = 0");
    }

    #[test]
    fn a_file_of_one_block_has_nothing_to_ask() {
        assert_eq!(next_request(&opened(&[7], 16384), 0), Request::none(DONE));
    }

    #[test]
    fn the_whole_layer_of_a_small_file() {
        let bytes = file();
        let (all, mut store) = (whole(&bytes, PIECE), opened(&bytes, PIECE));
        let layer = next_request(&store, 1);
        assert_eq!(words(&layer), (0, 1, 1, 0, 4, 0), "the run's own top is the root");
        assert_eq!(layer.message, *Header::read(&layer.message).write(REQUEST));
        assert_eq!(layer.message[1..33], root_of_file(&bytes));
        assert_eq!(answered(&all, &mut store, &layer), 6);
        assert_eq!(next_request(&store, 1), Request::none(DONE));
        let leaves = next_request(&store, 0);
        assert_eq!(words(&leaves), (0, 1, 0, 0, 8, 0));
        assert_eq!(answered(&all, &mut store, &leaves), 8);
        assert_eq!(next_request(&store, 0), Request::none(DONE));
        // Padding is not wanted: the leaves behind the last block, and the node over two of them.
        let facts = facts_of(&store).unwrap();
        for index in 5..8 {
            store[64 + 33 * (facts.width(0) + index - 1) as usize] = 0;
        }
        store[64 + 33 * (facts.width(1) + 3 - 1) as usize] = 0;
        assert_eq!(next_request(&store, 0), Request::none(DONE));
        assert_eq!(next_request(&store, 1), Request::none(DONE));
    }

    /// 20,000 blocks, h = 15: runs of 8192 hashes, so k = 13; the tree is made up.
    #[test]
    fn runs_of_a_long_layer_and_the_fewest_proof_layers() {
        let facts = Facts { length: 20_000 * BLOCK, piece_length: 16384, root: [5; 32] };
        let mut store = vec![0; size_of(&facts) as usize];
        open(&mut store, facts.length, facts.piece_length, facts.root);
        let hold = |store: &mut [u8], layer: u64, index: u64| {
            store[64 + 33 * (facts.width(layer) + index - 1) as usize] = 1;
        };
        assert_eq!(words(&next_request(&store, 0)), (0, 1, 0, 0, 8192, 14), "two uncles up to the root");
        hold(&mut store, 14, 0);
        assert_eq!(words(&next_request(&store, 0)), (0, 1, 0, 0, 8192, 13));
        hold(&mut store, 13, 0);
        assert_eq!(words(&next_request(&store, 0)), (0, 1, 0, 0, 8192, 0));
        for index in 0..8191 {
            hold(&mut store, 0, index);
        }
        assert_eq!(words(&next_request(&store, 0)), (0, 1, 0, 0, 8192, 0), "one leaf is left of the first run");
        hold(&mut store, 0, 8191);
        assert_eq!(words(&next_request(&store, 0)), (0, 1, 0, 8192, 8192, 13));
        for index in 8192..20_000 {
            if index != 16384 {
                hold(&mut store, 0, index);
            }
        }
        assert_eq!(words(&next_request(&store, 0)), (0, 1, 0, 16384, 8192, 14));
        hold(&mut store, 0, 16384);
        assert_eq!(next_request(&store, 0), Request::none(DONE));
    }

    #[test]
    fn the_rarest_piece() {
        let bytes = file();
        let mut store = whole(&bytes, PIECE);
        let piece = |piece: u64| Choice { number: DONE, found: 1, piece };
        assert_eq!(pick_piece(&[], &[]), Choice::none(UNUSABLE));
        assert_eq!(pick_piece(&store, &[1, 1]), Choice::none(WRONG_SIZE));
        assert_eq!(pick_piece(&store, &[1, 1, 1, 1]), Choice::none(WRONG_SIZE));
        assert_eq!(pick_piece(&store, &[0, 0, 0]), Choice::none(DONE));
        assert_eq!(pick_piece(&store, &[3, 2, 2]), piece(1));
        assert_eq!(pick_piece(&store, &[1, 1, 1]), piece(0));
        assert_eq!(pick_piece(&store, &[0, u32::MAX, 0]), piece(1));
        assert_eq!(judge_piece(&mut store, 1, &bytes[32768..65536]).number, DONE);
        assert_eq!(pick_piece(&store, &[3, 2, 2]), piece(2));
        assert_eq!(pick_piece(&store, &[0, 1, 0]), Choice::none(DONE));
        clear(&mut store, 3);
        assert_eq!(pick_piece(&store, &[3, 2, 2]), piece(1), "one block of it is not marked");
    }
}
