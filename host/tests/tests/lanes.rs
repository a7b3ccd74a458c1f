//! What is hashed eight at a time gives what it gives alone, and the archive has the vector instructions for it.

use boundary::{Hash, History};
use reference::limits::BLOCK;
use std::{env, fs};

fn bytes(size: usize) -> Vec<u8> {
    (0..size).map(|i| (i * 31 + i / 253 + i / 65_537) as u8).collect()
}

/// The state after bursts of this size, and the lent layer.
fn logged(begun: History, data: &[u8], burst: usize) -> (History, Vec<u8>) {
    let mut layer = vec![0xee; 32 * 64];
    let state = data.chunks(burst).fold(begun, |state, burst| {
        let answer = boundary::history_more(state, burst, &mut layer);
        assert_eq!(answer.number, 0);
        answer.state
    });
    (state, layer)
}

fn begun(piece_length: u64) -> History {
    let answer = boundary::history_begin(piece_length);
    assert_eq!(answer.number, 0);
    answer.state
}

/// Bursts of a block at most never bring eight.
fn a_long_burst_leaves_the_state_that_short_ones_leave() {
    let block = BLOCK as usize;
    for piece_length in [BLOCK, 4 * BLOCK, 16 * BLOCK] {
        for size in [8 * block, 8 * block + 1, 17 * block - 1, 40 * block + 777] {
            for before in [0, 1, block, block + 5] {
                let data = bytes(before + size);
                let (first, rest) = data.split_at(before);
                let start = logged(begun(piece_length), first, block).0;
                assert_eq!(logged(start, rest, size), logged(start, rest, block));
            }
        }
    }
}

/// Words that no bytes give are hashed on from, also where no byte of a block has come.
fn a_state_with_other_words_is_hashed_from_them() {
    let block = BLOCK as usize;
    let data = bytes(9 * block);
    for word in 0..8 {
        let mut state = begun(BLOCK);
        state.block.words[word] ^= 0x100;
        assert_eq!(logged(state, &data, data.len()), logged(state, &data, 1000));
    }
}

/// N, root and layer of a history that never has eight blocks at once; then each piece, with one byte changed and as it is.
fn pieces_of_each_size_are_judged_by_their_bytes() {
    let block = BLOCK as usize;
    for pieces_of in [1, 2, 8, 16, 32] {
        let piece = pieces_of * block;
        for size in [block, 7 * block + 3, 8 * block, 9 * block - 1, 33 * block + 1, 63 * block + 500] {
            let data = bytes(size);
            let (state, mut layer) = logged(begun(piece as u64), &data, block);
            let end = boundary::history_end(state, &mut layer);
            assert_eq!(end.number, 0);
            judge_all(&data, piece, end.root, &layer[..end.layer_size as usize]);
        }
    }
}

fn judge_all(data: &[u8], piece: usize, root: Hash, layer: &[u8]) {
    let (length, piece_length) = (data.len() as u64, piece as u64);
    let mut store = vec![0; boundary::store_size(length, piece_length).count as usize];
    assert_eq!(boundary::open(&mut store, length, piece_length, root).number, 0);
    if !layer.is_empty() {
        assert_eq!(boundary::load_layer(&mut store, layer).number, 0);
    }
    for (i, part) in data.chunks(piece).enumerate() {
        assert_eq!(boundary::judge_piece(&mut store, i as u64, part).number, 0, "piece {i} of {length} bytes");
        let mut other = part.to_vec();
        let last = other.len() - 1;
        other[last] ^= 1;
        assert_eq!(boundary::judge_piece(&mut store, i as u64, &other).number, 7, "piece {i} of {length} bytes");
    }
}

/// The fewest packed adds that the archive has where the lanes are vectors: 128 were counted, of which the schedule of a block has 24,
/// its rounds 28, and the rounds of a pair's padding 24. So none of the three can be lost. The scalar library has 20.
const PACKED_ADDS: usize = 110;

/// PADDD on registers or memory: 66 0F FE, or with a REX prefix before 0F.
fn packed_adds(code: &[u8]) -> usize {
    code.windows(4).filter(|part| matches!(part, [0x66, 0x0f, 0xfe, _] | [0x66, 0x40..=0x4f, 0x0f, 0xfe])).count()
}

/// They can be lost in silence: a long function with a second caller is no longer put into its caller.
fn the_archive_has_packed_adds() {
    let made = concat!(env!("CARGO_MANIFEST_DIR"), "/../../target/staticlib/libkombudeva.a");
    let library = env::var("KD_LIB").unwrap_or(made.to_string());
    let count = packed_adds(&fs::read(&library).unwrap());
    assert!(count >= PACKED_ADDS, "{library} has {count} packed adds: the lanes are no vectors any more");
}

host_tests::tests! {
    a_long_burst_leaves_the_state_that_short_ones_leave,
    a_state_with_other_words_is_hashed_from_them,
    pieces_of_each_size_are_judged_by_their_bytes,
    the_archive_has_packed_adds,
}
