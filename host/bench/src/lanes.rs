//! SHA-256 of eight messages of one length side by side, in ordinary Rust and in the shape of the library's crate `lanes`: each
//! step is a loop over the lanes, and the compiler makes vectors of the plain x86-64 instruction set of it. No intrinsics.

use reference::sha256::{digest, last_blocks, Hash, ROUND, START};

/// One word of each lane.
type Lanes = [u32; 8];

/// The hashes of eight messages of one length.
pub fn hash8(messages: [&[u8]; 8]) -> [Hash; 8] {
    let size = messages[0].len();
    let mut state = START.map(|word| [word; 8]);
    for at in (0..size / 64 * 64).step_by(64) {
        compress(&mut state, &schedule(messages.map(|message| &message[at..at + 64])));
    }
    if size == 64 {
        compress(&mut state, &PADDING_OF_64.map(|word| [word; 8]));
    } else {
        let rests = messages.map(|message| last_blocks(&message[size / 64 * 64..], size));
        for at in (0..rests[0].1).step_by(64) {
            compress(&mut state, &schedule(rests.each_ref().map(|(rest, _)| &rest[at..at + 64])));
        }
    }
    std::array::from_fn(|lane| digest(state.map(|words| words[lane])))
}

/// The schedules of eight blocks, each word with its round's constant added.
// Loops over lanes, as the library has them.
#[allow(clippy::needless_range_loop)]
fn schedule(blocks: [&[u8]; 8]) -> [Lanes; 64] {
    let mut w = [[0; 8]; 64];
    for lane in 0..8 {
        for i in 0..16 {
            w[i][lane] = u32::from_be_bytes(blocks[lane][4 * i..4 * i + 4].try_into().unwrap());
        }
    }
    for from in (16..64).step_by(4) {
        for lane in 0..8 {
            for i in from..from + 4 {
                let (x, y) = (w[i - 15][lane], w[i - 2][lane]);
                let small0 = x.rotate_right(7) ^ x.rotate_right(18) ^ (x >> 3);
                let small1 = y.rotate_right(17) ^ y.rotate_right(19) ^ (y >> 10);
                w[i][lane] = w[i - 16][lane].wrapping_add(small0).wrapping_add(w[i - 7][lane]).wrapping_add(small1);
            }
        }
    }
    for i in 0..64 {
        for lane in 0..8 {
            w[i][lane] = w[i][lane].wrapping_add(ROUND[i]);
        }
    }
    w
}

/// The same sums of the block that pads a message of 64 bytes, which is the same in every lane.
const PADDING_OF_64: [u32; 64] = {
    let mut w = [0u32; 64];
    (w[0], w[15]) = (0x8000_0000, 512);
    let mut i = 16;
    while i < 64 {
        let (x, y) = (w[i - 15], w[i - 2]);
        let small0 = x.rotate_right(7) ^ x.rotate_right(18) ^ (x >> 3);
        let small1 = y.rotate_right(17) ^ y.rotate_right(19) ^ (y >> 10);
        w[i] = w[i - 16].wrapping_add(small0).wrapping_add(w[i - 7]).wrapping_add(small1);
        i += 1;
    }
    i = 0;
    while i < 64 {
        w[i] = w[i].wrapping_add(ROUND[i]);
        i += 1;
    }
    w
};

/// One block in each lane.
fn compress(state: &mut [Lanes; 8], sums: &[Lanes; 64]) {
    let mut now = *state;
    for eight in sums.chunks_exact(8) {
        for lane in 0..8 {
            let mut words: [u32; 8] = std::array::from_fn(|word| now[word][lane]);
            for sum in eight {
                words = round(words, sum[lane]);
            }
            for word in 0..8 {
                now[word][lane] = words[word];
            }
        }
    }
    for word in 0..8 {
        for lane in 0..8 {
            state[word][lane] = state[word][lane].wrapping_add(now[word][lane]);
        }
    }
}

#[inline(always)]
fn round([a, b, c, d, e, f, g, h]: [u32; 8], sum: u32) -> [u32; 8] {
    let big1 = e.rotate_right(6) ^ e.rotate_right(11) ^ e.rotate_right(25);
    let choice = g ^ (e & (f ^ g));
    let t1 = h.wrapping_add(big1).wrapping_add(choice).wrapping_add(sum);
    let big0 = a.rotate_right(2) ^ a.rotate_right(13) ^ a.rotate_right(22);
    let majority = ((a ^ b) & (b ^ c)) ^ b;
    [t1.wrapping_add(big0).wrapping_add(majority), a, b, c, d.wrapping_add(t1), e, f, g]
}
