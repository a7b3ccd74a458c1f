//! Histories that grew, by bytes, blocks and heights; with a changed byte in every block; cut short; below a block. The library's answer is
//! held against the reference's, and against what is true of the two files.

use boundary::Hash as Root;
use host_tests::random::Random;
use host_tests::truth::Truth;
use reference::extends;
use reference::limits::BLOCK;
use reference::number::{DIFFERS, DONE, NO_ANCHOR, RULE_BROKEN};
use reference::sha256::Hash;
use reference::store::{hold, size_of, CELL, HEAD};
use reference::tree::root_of_file;

const B: usize = BLOCK as usize;

/// The number, on which both agree, with the count that belongs to it; no byte of the store changes.
fn asked(memory: &[u8], length: usize, root: Hash, block: &[u8]) -> u32 {
    let before = memory.to_vec();
    let given = boundary::extends(memory, length as u64, Root { bytes: root }, block);
    let expected = extends::extends(memory, length as u64, root, block);
    assert_eq!((given.number, given.count), (expected.number, expected.count), "{length}");
    assert_eq!(given.count, if given.number == DONE { length as u64 } else { 0 });
    assert_eq!(before, memory);
    given.number
}

/// A store of a file that holds its whole tree.
fn whole(truth: &Truth) -> Vec<u8> {
    let facts = &truth.facts;
    let mut memory = vec![0xaa; size_of(facts) as usize];
    assert_eq!(boundary::open(&mut memory, facts.length, facts.piece_length, Root { bytes: facts.root }).number, DONE);
    let all: Vec<_> = truth.positions().map(|(at, hash)| (*at, *hash)).collect();
    hold(&mut memory, facts, &all);
    memory
}

/// The file's block over the end of its first bytes.
fn over_end(file: &[u8], length: usize) -> &[u8] {
    match length % B {
        0 => &[],
        _ => file.chunks(B).nth(length / B).unwrap_or(&[]),
    }
}

/// Lengths at and beside the edges of blocks, and one inside each.
fn lengths(most: usize, random: &mut Random) -> Vec<usize> {
    let inside = |at: usize, random: &mut Random| at * B + 1 + random.below(BLOCK - 1) as usize;
    let blocks = most.div_ceil(B);
    let mut all: Vec<usize> =
        (0..blocks).flat_map(|at| [at * B + 1, inside(at, random), (at + 1) * B - 1, (at + 1) * B]).collect();
    all.retain(|length| *length <= most);
    all.push(most);
    all
}

fn grown(random: &mut Random, length: usize) {
    let file = random.bytes(length);
    let memory = whole(&Truth::of_bytes(file.clone(), 32768));
    for old in lengths(length, random) {
        let (root, block) = (root_of_file(&file[..old]), over_end(&file, old));
        assert_eq!(asked(&memory, old, root, block), DONE, "the first {old} of {length}");
        // A byte changed in any block of the earlier file, its last one's beginning included, and its last byte.
        for at in (0..old).step_by(B).chain([old - 1, random.below(old as u64) as usize]) {
            let mut other = file[..old].to_vec();
            other[at] ^= 1 << random.below(8);
            assert_eq!(asked(&memory, old, root_of_file(&other), block), DIFFERS, "byte {at} of {old}");
            // The same with the block as it was then: it isn't the one held.
            let lent = over_end(&other, old);
            if lent.len() == block.len() && at / B == old / B {
                assert_eq!(asked(&memory, old, root_of_file(&other), lent), DIFFERS);
            }
        }
        // A byte behind the earlier end, in the block over it.
        if !block.is_empty() && block.len() > old % B {
            let mut other = block.to_vec();
            other[old % B] ^= 1;
            assert_eq!(asked(&memory, old, root, &other), DIFFERS);
        }
    }
    // Cut short: the earlier file is longer.
    assert_eq!(asked(&memory, length + 1, root_of_file(&random.bytes(length + 1)), &[]), RULE_BROKEN);
    assert_eq!(asked(&memory, length + B, root_of_file(&random.bytes(length + B)), &[]), RULE_BROKEN);
}

fn histories_that_grew_and_that_changed() {
    let random = &mut Random::new(33);
    for blocks in [1, 2, 3, 4, 5, 7, 8, 9] {
        for length in [(blocks - 1) * B + 1, blocks * B - 77, blocks * B] {
            grown(random, length);
        }
    }
}

/// Stores with holes: 6 exactly where the reference says, and never where no leaf and nothing above is missing.
fn stores_with_holes() {
    let random = &mut Random::new(34);
    let mut seen = [0; 3];
    for round in 0..60 {
        let length = (random.between(1, 12) * BLOCK - random.pick(&[0, 1, 9000])) as usize;
        let file = random.bytes(length);
        let truth = Truth::of_bytes(file.clone(), 32768);
        let mut memory = whole(&truth);
        let chance = random.pick(&[0, 5, 30]);
        for node in 2..2 * truth.facts.width(0) {
            if random.percent(chance) {
                memory[HEAD + CELL * (node - 1) as usize] = random.pick(&[0, 2, 0xff]);
            }
        }
        for old in lengths(length, random) {
            let root = if round % 3 == 0 { random.hash() } else { root_of_file(&file[..old]) };
            match asked(&memory, old, root, over_end(&file, old)) {
                DONE => seen[0] += 1,
                NO_ANCHOR => seen[1] += 1,
                DIFFERS => seen[2] += 1,
                other => panic!("{other}"),
            }
        }
    }
    assert!(seen.iter().all(|count| *count > 50), "{seen:?}");
}

host_tests::tests! {
    histories_that_grew_and_that_changed,
    stores_with_holes,
}
