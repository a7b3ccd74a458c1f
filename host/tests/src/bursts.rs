//! Calls of the running forms: strings and histories cut into bursts, hostile states, and each refusal.

use crate::call::{Call, Entry, Outcome};
use crate::compare::Comparison;
use crate::random::Random;
use crate::states::{hashing_bytes, hashing_of, history_bytes, history_of, HASHING, HISTORY};
use reference::history::History;
use reference::limits::{BLOCK, LONGEST_FILE, LONGEST_HASHED};
use reference::running::Hashing;

/// A state after one call more; the call is compared.
fn after(compared: &mut Comparison, call: Call) -> Outcome {
    compared.ask(&call)
}

/// A string in bursts that end at these places, and the end.
pub fn hash_cut(compared: &mut Comparison, string: &[u8], cuts: &[usize]) {
    let mut state = after(compared, Call::new(Entry::HashingBegin).on(&[0; HASHING])).store;
    let mut at = 0;
    for &cut in cuts.iter().chain([&string.len()]) {
        state = after(compared, Call::new(Entry::HashingMore).on(&state).input(string[at..cut].to_vec())).store;
        at = cut;
    }
    after(compared, Call::new(Entry::HashingEnd).on(&state));
}

/// Every cutting of short strings into two and three bursts.
pub fn run_through_every_cut(random: &mut Random, compared: &mut Comparison) {
    for size in [0, 1, 55, 56, 63, 64, 65, 119, 128, 130] {
        let string = random.bytes(size);
        for one in 0..=size {
            hash_cut(compared, &string, &[one]);
            for two in one..=size {
                hash_cut(compared, &string, &[one, two]);
            }
        }
    }
}

/// A state that need not be ours: a field or some bytes changed, or any bytes at all.
fn spoiled_hashing(random: &mut Random, state: &[u8]) -> Vec<u8> {
    let mut state = hashing_of(state);
    match random.below(8) {
        0 => state.tail_size = random.pick(&[0, 1, 63, 64, 65, state.total % 64 + 1, 1 << 32, u64::MAX]),
        1 => state.total = random.pick(&[0, 64, LONGEST_HASHED, LONGEST_HASHED + 1, u64::MAX]),
        2 => {
            state.total = LONGEST_HASHED - random.below(200) * random.below(2);
            state.tail_size = state.total % 64;
        }
        3 => state.tail[random.below(64) as usize] ^= 0x40,
        4 => state.words[random.below(8) as usize] ^= 1 << random.below(32),
        5 => state.tail[(state.tail_size % 64) as usize..].fill(0xaa),
        6 => state = hashing_of(&random.bytes(HASHING)),
        _ => {
            state = hashing_of(&random.bytes(HASHING));
            state.total %= LONGEST_HASHED + 1;
            state.tail_size = state.total % 64;
        }
    }
    hashing_bytes(&state)
}

fn hashing_session(random: &mut Random, compared: &mut Comparison) {
    let mut state = hashing_bytes(&Hashing::begin());
    for _ in 0..random.between(1, 8) {
        if random.percent(12) {
            state = spoiled_hashing(random, &state);
        }
        let any = random.below(300);
        let size = random.pick(&[0, 1, 63, 64, 65, any, any]);
        let burst = random.bytes(size as usize);
        state = after(compared, Call::new(Entry::HashingMore).on(&state).input(burst)).store;
        if random.percent(30) {
            after(compared, Call::new(Entry::HashingEnd).on(&state));
        }
    }
    after(compared, Call::new(Entry::HashingEnd).on(&state));
}

fn spoiled_history(random: &mut Random, state: &[u8]) -> Vec<u8> {
    let mut state = history_of(state);
    match random.below(9) {
        0 => state.piece_length = random.pick(&[0, 1, 8192, 16385, 3 * BLOCK, 1 << 25, (1 << 32) + BLOCK, u64::MAX]),
        1 => state.piece_length = BLOCK << random.below(11),
        2 => {
            state.length =
                random.pick(&[0, LONGEST_FILE + 1, state.length.wrapping_add(BLOCK), state.length ^ 1, u64::MAX])
        }
        3 => {
            let any = random.below(1 << 20);
            state.length = LONGEST_FILE - random.pick(&[0, 0, 1, BLOCK - 1, BLOCK, any]);
            state.block.total = state.length % BLOCK;
            state.block.tail_size = state.block.total % 64;
        }
        4 => state.block = hashing_of(&spoiled_hashing(random, &hashing_bytes(&state.block))),
        5 => {
            // any nodes and words are some history's, for all that can be told
            state.nodes = std::array::from_fn(|_| random.hash());
            state.length = random.below(LONGEST_FILE / BLOCK + 1) * BLOCK;
            state.block = Hashing::begin();
        }
        6 => {
            state = history_of(&random.bytes(HISTORY));
            state.piece_length = BLOCK << random.below(11);
            state.length %= LONGEST_FILE + 1;
            state.block.total = state.length % BLOCK;
            state.block.tail_size = state.block.total % 64;
        }
        _ => state = history_of(&random.bytes(HISTORY)),
    }
    history_bytes(&state)
}

/// A lent layer: often just what is due or a byte less, sometimes plenty.
fn layer(random: &mut Random, state: &History, burst: u64) -> Vec<u8> {
    let pieces = state.length.saturating_add(burst).div_ceil(state.piece_length.max(1)).min(70_000);
    let due = 32 * pieces;
    let exact = random.pick(&[due, due.saturating_sub(32)]);
    let size = random.pick(&[exact, exact, exact.saturating_sub(1), exact + 1, due + 64, 0]);
    vec![0x5a; size as usize]
}

/// Bursts that end on blocks and pieces, a byte before and behind, or anywhere.
fn burst_size(random: &mut Random, state: &History) -> u64 {
    let plen = state.piece_length.clamp(1, 4 * BLOCK);
    let to_block = BLOCK - state.length % BLOCK;
    let to_piece = plen - state.length % plen;
    let (any, large) = (random.below(BLOCK), random.below(3 * BLOCK));
    let around = [to_block, to_block, to_block + 1, to_block - 1, to_piece, to_piece + 1];
    let small = [0, 0, 1, 63, 64, 65];
    random.pick(&[&around[..], &small[..], &[any, any, large]].concat())
}

fn history_session(random: &mut Random, compared: &mut Comparison) {
    let any = random.word();
    let plen = random.pick(&[BLOCK, BLOCK, 2 * BLOCK, 4 * BLOCK, 1 << 24, any, 8192, 0]);
    let mut state = after(compared, Call::new(Entry::HistoryBegin).on(&[0; HISTORY]).numbers(plen, 0)).store;
    for _ in 0..random.between(1, 12) {
        if random.percent(10) {
            state = spoiled_history(random, &state);
        }
        let known = history_of(&state);
        let size = burst_size(random, &known);
        let burst = random.bytes(size as usize);
        let lent = layer(random, &known, size);
        state = after(compared, Call::new(Entry::HistoryMore).on(&state).input(burst).out(lent)).store;
        if random.percent(30) {
            let lent = layer(random, &history_of(&state), 0);
            after(compared, Call::new(Entry::HistoryEnd).on(&state).out(lent));
        }
    }
}

/// Rounds of `run`, so that it takes some seconds.
const ROUNDS: u64 = 1500;

/// Sessions of both running forms.
pub fn run(random: &mut Random, compared: &mut Comparison, mut go_on: impl FnMut(&Comparison) -> bool) {
    for _ in 0..ROUNDS {
        if !go_on(compared) {
            return;
        }
        for _ in 0..10 {
            hashing_session(random, compared);
        }
        history_session(random, compared);
    }
}

/// A file in bursts, each lent the layer as the one before left it, and the end.
fn log(compared: &mut Comparison, file: &[u8], plen: u64, mut next: impl FnMut() -> usize) {
    let mut state = after(compared, Call::new(Entry::HistoryBegin).on(&[0; HISTORY]).numbers(plen, 0)).store;
    let mut lent = vec![0x5a; 32 * file.len().div_ceil(plen as usize) + 3];
    let mut rest = file;
    while !rest.is_empty() {
        let (burst, behind) = rest.split_at(next().min(rest.len()));
        let left = after(compared, Call::new(Entry::HistoryMore).on(&state).input(burst.to_vec()).out(lent));
        (state, lent, rest) = (left.store, left.out, behind);
    }
    after(compared, Call::new(Entry::HistoryEnd).on(&state).out(lent));
}

/// Files that end on each piece boundary, a byte before and behind, in bursts of any size; and one of some MiB.
pub fn run_on_files(random: &mut Random, compared: &mut Comparison) {
    for plen in [BLOCK, 2 * BLOCK, 4 * BLOCK] {
        for pieces in 1..=5 {
            for size in [pieces * plen - 1, pieces * plen, pieces * plen + 1] {
                let file = random.bytes(size as usize);
                log(compared, &file, plen, || random.pick(&[1, 4096, 16384, 16385, 40_000, 1 << 20]));
            }
        }
    }
    let file = random.bytes(3 << 20);
    log(compared, &file, 4 * BLOCK, || random.between(0, 100_000) as usize);
}
