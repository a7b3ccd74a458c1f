//! SHA-256 as a careful Rust programmer writes it for speed without intrinsics: a rolling schedule of 16 words, rounds
//! unrolled so that no word moves, the cheaper forms of choice and majority.

use reference::sha256::{Hash, ROUND, START};

pub fn sha256(message: &[u8]) -> Hash {
    let mut state = START;
    let mut blocks = message.chunks_exact(64);
    for block in &mut blocks {
        compress(&mut state, block.try_into().unwrap());
    }
    finish(&mut state, blocks.remainder(), message.len());
    let mut hash = [0; 32];
    for (bytes, word) in hash.chunks_exact_mut(4).zip(state) {
        bytes.copy_from_slice(&word.to_be_bytes());
    }
    hash
}

/// The last one or two blocks, padded in place.
fn finish(state: &mut [u32; 8], rest: &[u8], bytes: usize) {
    let mut last = [0; 128];
    last[..rest.len()].copy_from_slice(rest);
    last[rest.len()] = 0x80;
    let end = if rest.len() < 56 { 64 } else { 128 };
    last[end - 8..end].copy_from_slice(&(bytes as u64 * 8).to_be_bytes());
    for block in last[..end].chunks_exact(64) {
        compress(state, block.try_into().unwrap());
    }
}

fn compress(state: &mut [u32; 8], block: &[u8; 64]) {
    let mut w: [u32; 16] = std::array::from_fn(|i| u32::from_be_bytes(block[4 * i..4 * i + 4].try_into().unwrap()));
    let mut now = *state;
    for turn in 0..4 {
        if turn > 0 {
            roll(&mut w);
        }
        sixteen_rounds(&mut now, &w, ROUND[16 * turn..16 * turn + 16].try_into().unwrap());
    }
    for (word, addend) in state.iter_mut().zip(now) {
        *word = word.wrapping_add(addend);
    }
}

/// The next 16 schedule words in the place of the last 16.
#[inline(always)]
fn roll(w: &mut [u32; 16]) {
    for i in 0..16 {
        let (x, y) = (w[(i + 1) & 15], w[(i + 14) & 15]);
        let small0 = x.rotate_right(7) ^ x.rotate_right(18) ^ (x >> 3);
        let small1 = y.rotate_right(17) ^ y.rotate_right(19) ^ (y >> 10);
        w[i] = w[i].wrapping_add(small0).wrapping_add(w[(i + 9) & 15]).wrapping_add(small1);
    }
}

#[inline(always)]
fn sixteen_rounds(state: &mut [u32; 8], w: &[u32; 16], k: &[u32; 16]) {
    let [mut a, mut b, mut c, mut d, mut e, mut f, mut g, mut h] = *state;
    macro_rules! round {
        ($a:ident $b:ident $c:ident $d:ident $e:ident $f:ident $g:ident $h:ident $i:expr) => {
            let big1 = $e.rotate_right(6) ^ $e.rotate_right(11) ^ $e.rotate_right(25);
            let choice = $g ^ ($e & ($f ^ $g));
            let t1 = $h.wrapping_add(big1).wrapping_add(choice).wrapping_add(k[$i]).wrapping_add(w[$i]);
            let big0 = $a.rotate_right(2) ^ $a.rotate_right(13) ^ $a.rotate_right(22);
            let majority = (($a ^ $b) & ($b ^ $c)) ^ $b;
            $d = $d.wrapping_add(t1);
            $h = t1.wrapping_add(big0).wrapping_add(majority);
        };
    }
    for i in [0, 8] {
        round!(a b c d e f g h i);
        round!(h a b c d e f g i + 1);
        round!(g h a b c d e f i + 2);
        round!(f g h a b c d e i + 3);
        round!(e f g h a b c d i + 4);
        round!(d e f g h a b c i + 5);
        round!(c d e f g h a b i + 6);
        round!(b c d e f g h a i + 7);
    }
    *state = [a, b, c, d, e, f, g, h];
}
