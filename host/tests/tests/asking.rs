//! Asking to the end: what the library names next is asked of a store that holds the whole tree, and the reply taken; other messages, true
//! and damaged, come between. Then the pieces, picked and judged. Each request and each choice is held against the reference.

use boundary::Hash as Root;
use host_tests::random::Random;
use host_tests::truth::{self, Truth};
use reference::asking::{self, Choice, Request};
use reference::limits::BLOCK;
use reference::marks::is_on_disk;
use reference::messages;
use reference::number::{DONE, NO_ANCHOR};
use reference::store::{self, held_at, hold, size_of, CELL, HEAD};
use reference::tree::Position;

/// The next request, on which both agree.
fn next(memory: &[u8], layer: u64) -> Request {
    let boundary::Request { number, asks, base, index, length, proof, message } = boundary::next_request(memory, layer);
    let given = Request { number, asks, base, index, length, proof, message };
    assert_eq!(given, asking::next_request(memory, layer));
    given
}

fn pick(memory: &[u8], counts: &[u32]) -> Choice {
    let boundary::Choice { number, found, piece } = boundary::pick_piece(memory, counts);
    let given = Choice { number, found, piece };
    assert_eq!(given, asking::pick_piece(memory, counts));
    given
}

fn opened(truth: &Truth) -> Vec<u8> {
    let facts = &truth.facts;
    let mut memory = vec![0xaa; size_of(facts) as usize];
    let opened = boundary::open(&mut memory, facts.length, facts.piece_length, Root { bytes: facts.root });
    assert_eq!(opened.number, DONE);
    memory
}

/// A store that holds the whole tree.
fn whole(truth: &Truth) -> Vec<u8> {
    let mut memory = opened(truth);
    let all: Vec<_> = truth.positions().map(|(at, hash)| (*at, *hash)).collect();
    hold(&mut memory, &truth.facts, &all);
    memory
}

/// A store with true hashes and holes anywhere but at the root: no call of ours leaves one.
fn with_holes(truth: &Truth, random: &mut Random) -> Vec<u8> {
    let mut memory = whole(truth);
    let chance = random.pick(&[5, 30, 60, 95]);
    for node in 2..2 * truth.facts.width(0) {
        if random.percent(chance) {
            memory[HEAD + CELL * (node - 1) as usize] = random.pick(&[0, 0, 2, 0xff]);
        }
    }
    memory
}

/// Another message on the way: a true one, or one with a hash changed, which is not taken if it says anything new.
fn stranger(memory: &mut Vec<u8>, truth: &Truth, random: &mut Random) {
    let Some(header) = truth.header(random) else { return };
    let mut message = truth.message(&header);
    if random.percent(40) {
        let at = random.between(49, message.len() as u64 - 1) as usize;
        message[at] ^= 1 << random.below(8);
    }
    let mut expected = memory.clone();
    let answer = boundary::take(memory, &message);
    assert_eq!(answer.number, messages::take(&mut expected, &message).number);
    assert!(*memory == expected, "the stores differ");
}

/// In which order the layers are asked for.
#[derive(Clone, Copy)]
enum Order {
    LeavesFirst,
    PiecesFirst,
    InTurn,
    Any,
}

/// Asks for the leaves and the piece layer until there is nothing to ask, and says how many replies each took.
fn ask_to_the_end(memory: &mut Vec<u8>, truth: &Truth, order: Order, strangers: u64, random: &mut Random) -> [u64; 2] {
    let (facts, source) = (&truth.facts, whole(truth));
    let layers = if facts.has_piece_layer() { [0, facts.piece_layer()] } else { [0, 0] };
    let mut replies = [0, 0];
    for turn in 0.. {
        let requests = layers.map(|layer| next(memory, layer));
        assert!(requests.iter().all(|request| request.number == DONE));
        if requests.iter().all(|request| request.asks == 0) {
            break;
        }
        let first = match order {
            Order::LeavesFirst => 0,
            Order::PiecesFirst => 1,
            Order::InTurn => turn % 2,
            Order::Any => random.below(2) as usize,
        };
        let which = if requests[first].asks == 1 { first } else { 1 - first };
        let request = &requests[which];
        let mut reply = vec![0; 49 + 32 * (request.length as usize + 20)];
        let served = boundary::serve(&source, &request.message, &mut reply);
        assert_eq!(served.number, DONE, "a store that holds all serves it");
        while random.percent(strangers) {
            stranger(memory, truth, random);
        }
        let taken = boundary::take(memory, &reply[..served.count as usize]);
        assert_eq!(taken.number, DONE, "its anchor was held when it was named");
        replies[which] += 1;
    }
    for (which, layer) in layers.into_iter().enumerate() {
        let wanted: Vec<_> = (0..facts.width(layer)).map(|index| Position { layer, index }).collect();
        let wanted = wanted.into_iter().filter(|at| !facts.is_padding(*at));
        let length = facts.width(layer).min(8192);
        assert!(replies[which] <= (wanted.clone().count() as u64).div_ceil(length), "more replies than runs");
        assert!(wanted.into_iter().all(|at| held_at(memory, facts, at) == Some(truth.at(at))));
    }
    replies
}

const ORDERS: [Order; 4] = [Order::LeavesFirst, Order::PiecesFirst, Order::InTurn, Order::Any];

fn small_files_in_every_order() {
    let mut random = Random::new(11);
    for _ in 0..150 {
        let truth = truth::small(&mut random);
        for order in ORDERS {
            ask_to_the_end(&mut opened(&truth), &truth, order, 0, &mut random);
            ask_to_the_end(&mut opened(&truth), &truth, order, 60, &mut random);
            let mut holes = with_holes(&truth, &mut random);
            ask_to_the_end(&mut holes, &truth, order, 30, &mut random);
        }
    }
}

/// 20,000 blocks: runs of 8192, three of leaves; a piece layer of 5000 in one run. 40,001 blocks: five of leaves, the last of one block's own.
fn files_of_several_runs() {
    let mut random = Random::new(12);
    for (blocks, piece_length, runs) in [(20_000, 4 * BLOCK, [3, 1]), (40_001, 2 * BLOCK, [5, 3])] {
        let truth = Truth::of_leaves(blocks * BLOCK - 7, piece_length, &mut random);
        assert_eq!(ask_to_the_end(&mut opened(&truth), &truth, Order::PiecesFirst, 0, &mut random), [runs[0], runs[1]]);
        let leaves_first = ask_to_the_end(&mut opened(&truth), &truth, Order::LeavesFirst, 0, &mut random);
        assert_eq!(leaves_first, [runs[0], 0], "the leaves give all above them");
        ask_to_the_end(&mut opened(&truth), &truth, Order::InTurn, 40, &mut random);
        let mut holes = with_holes(&truth, &mut random);
        ask_to_the_end(&mut holes, &truth, Order::Any, 20, &mut random);
    }
}

/// Below a root that isn't held nothing is named, whatever else is.
fn no_root_no_request() {
    let mut random = Random::new(13);
    let truth = Truth::of_leaves(9 * BLOCK, 2 * BLOCK, &mut random);
    let mut memory = whole(&truth);
    memory[HEAD] = 0;
    assert_eq!(next(&memory, 0), Request::none(NO_ANCHOR));
    assert_eq!(next(&memory, 1), Request::none(NO_ANCHOR));
}

/// Pieces are picked by counts that change all the time, and judged right: each once, until all are on disk.
fn pieces_to_the_last() {
    let mut random = Random::new(14);
    for files in truth::with_bytes(&mut random) {
        let truth = &files.truth;
        let (facts, mut memory) = (&truth.facts, whole(truth));
        let mut left = facts.pieces();
        while left > 0 {
            let counts: Vec<u32> = (0..facts.pieces()).map(|_| random.between(1, 3) as u32).collect();
            let choice = pick(&memory, &counts);
            assert_eq!((choice.number, choice.found), (DONE, 1));
            assert!(!is_on_disk(&memory, facts, choice.piece));
            let none: Vec<u32> = counts.iter().enumerate().map(|(at, _)| (at as u64 != choice.piece) as u32).collect();
            assert_ne!(pick(&memory, &none).piece, if left > 1 { choice.piece } else { u64::MAX });
            let size = facts.piece_size(choice.piece).unwrap();
            let data = truth.part(choice.piece, facts.piece_length, size);
            assert_eq!(boundary::judge_piece(&mut memory, choice.piece, &data).number, DONE);
            left -= 1;
        }
        let counts = vec![1; facts.pieces() as usize];
        assert_eq!(pick(&memory, &counts), Choice::none(DONE), "all are on disk");
        assert_eq!(boundary::clear(&mut memory, facts.blocks() - 1).number, DONE);
        assert_eq!(pick(&memory, &counts).piece, facts.pieces() - 1, "one block was lost");
        assert_eq!(store::store_size(facts.length, facts.piece_length).count, memory.len() as u64);
    }
}

host_tests::tests! {
    small_files_in_every_order,
    files_of_several_runs,
    no_root_no_request,
    pieces_to_the_last,
}
