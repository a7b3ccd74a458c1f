//! Stores of every kind saved, and their saves loaded and repaired: whole, cut, with a byte changed, with records swapped, doubled, left out
//! or damaged, and mixed of two saves.

use crate::call::{Call, Entry};
use crate::compare::Comparison;
use crate::random::Random;
use crate::sessions::{Hands, Session};
use crate::truth::{self, Pair, Truth};
use reference::limits::BLOCK;
use reference::store::{hold, open, size_of};

const OPENING: usize = 45;
const POSITION: usize = 41;
const SHORT: usize = 5;

/// A save cut into its records.
#[derive(Clone)]
struct Save {
    opening: Vec<u8>,
    positions: Vec<Vec<u8>>,
    marks: Vec<Vec<u8>>,
    end: Vec<u8>,
}

impl Save {
    fn of(bytes: &[u8]) -> Save {
        let (rest, end) = bytes.split_at(bytes.len() - SHORT);
        let marks = SHORT * u32::from_be_bytes(end[1..].try_into().unwrap()) as usize;
        let (rest, marks) = rest.split_at(rest.len() - marks);
        let (opening, positions) = rest.split_at(OPENING);
        let cut = |bytes: &[u8], size| bytes.chunks_exact(size).map(<[u8]>::to_vec).collect();
        Save {
            opening: opening.to_vec(),
            positions: cut(positions, POSITION),
            marks: cut(marks, SHORT),
            end: end.to_vec(),
        }
    }

    fn bytes(&self) -> Vec<u8> {
        [self.opening.clone(), self.positions.concat(), self.marks.concat(), self.end.clone()].concat()
    }

    /// One record changed, moved, doubled or left out, or some hashes changed.
    fn damage(&mut self, random: &mut Random) {
        let which = random.below(self.positions.len().max(1) as u64) as usize;
        match random.below(12) {
            0..=2 if !self.positions.is_empty() => {
                for _ in 0..random.between(1, 3) {
                    let which = random.below(self.positions.len() as u64) as usize;
                    self.positions[which][9 + random.below(32) as usize] ^= 1 << random.below(8);
                }
            }
            3 if which + 1 < self.positions.len() => self.positions.swap(which, which + 1),
            4 if !self.positions.is_empty() => self.positions.insert(which, self.positions[which].clone()),
            5..=7 if !self.positions.is_empty() => {
                let many = random.between(1, 3).min((self.positions.len() - which) as u64) as usize;
                self.positions.drain(which..which + many);
            }
            8 if !self.positions.is_empty() => {
                let word = random.pick(&[4, 8]);
                self.positions[which][word] = random.pick(&[0, 1, 2, 3, 7, 255]);
            }
            9 if !self.marks.is_empty() => {
                let which = random.below(self.marks.len() as u64) as usize;
                match random.below(4) {
                    0 => self.marks.insert(which, self.marks[which].clone()),
                    1 => self.marks[which][4] = random.pick(&[0, 1, 5, 255]),
                    2 => self.marks[which][0] = random.pick(&[2, 4]),
                    _ => drop(self.marks.remove(which)),
                }
                if random.percent(70) {
                    self.end[1..].copy_from_slice(&(self.marks.len() as u32).to_be_bytes());
                }
            }
            10 => self.end[4] = self.end[4].wrapping_add(1),
            _ => {
                let at = random.below(OPENING as u64) as usize;
                self.opening[at] ^= 1 << random.below(8);
            }
        }
    }

    /// The positions of two saves in their order, of each place one; marks of one of them.
    fn mixed(&self, other: &Save, random: &mut Random) -> Save {
        let mut positions: Vec<Vec<u8>> = self.positions.iter().chain(&other.positions).cloned().collect();
        positions.sort();
        positions.dedup_by(|one, kept| one[..9] == kept[..9]);
        let marks = if random.percent(50) { self } else { other };
        Save { opening: self.opening.clone(), positions, marks: marks.marks.clone(), end: marks.end.clone() }
    }
}

/// What a store saves to: nothing if it is not usable.
fn save_of(store: &[u8], random: &mut Random, compared: &mut Comparison) -> Vec<u8> {
    let call = Call::new(Entry::Save).on(store);
    let outcome = compared.ask(&call.clone().out(vec![random.pick(&[0, 0x55]); 2 * store.len()]));
    let size = outcome.given.count() as usize;
    let room = random.pick(&[0, size.saturating_sub(1), size, size + 1, 45]);
    compared.ask(&call.out(random.bytes(room)));
    outcome.out[..size].to_vec()
}

/// Loads and repairs bytes into memories with the room, without it, and with some more.
fn offer(saved: &[u8], size: usize, random: &mut Random, compared: &mut Comparison) {
    let size = random.pick(&[size, size, size, size + 40, size - 1, 0]);
    let store = vec![random.pick(&[0, 1, 0xaa]); size];
    compared.ask(&Call::new(Entry::Load).on(&store).input(saved.to_vec()));
    compared.ask(&Call::new(Entry::Repair).on(&store).input(saved.to_vec()));
}

const KEPT: u64 = 40;

/// Sessions whose store is saved in the middle, and goes on from the save; and what is left of such saves, damaged in any way.
pub fn run(random: &mut Random, compared: &mut Comparison, mut go_on: impl FnMut(&Comparison) -> bool) {
    let mut small: Vec<Pair> = (0..KEPT).map(|_| Pair::new(truth::small(random), random)).collect();
    while go_on(compared) {
        let which = random.below(KEPT) as usize;
        if random.percent(10) {
            small[which] = Pair::new(truth::small(random), random);
        }
        let hands = random.pick(&[Hands::OursAlone, Hands::OursAlone, Hands::Others]);
        let mut session = Session::begin(&small[which], hands, random, compared);
        let size = size_of(&session.truth.facts) as usize;
        let mut saves: Vec<Save> = Vec::new();
        for _ in 0..random.between(1, 4) {
            for _ in 0..random.below(12) {
                session.step(random, compared);
            }
            let saved = save_of(&session.store, random, compared);
            if saved.is_empty() {
                break;
            }
            offer(&saved, size, random, compared);
            saves.push(Save::of(&saved));
            if random.percent(50) {
                let entry = random.pick(&[Entry::Load, Entry::Load, Entry::Repair]);
                session.apply(&Call::new(entry).on(&vec![0xaa; session.store.len()]).input(saved), compared);
            }
        }
        for _ in 0..8 {
            let Some(mut save) = saves.last().cloned() else { break };
            if random.percent(30) {
                save = save.mixed(&random.pick(&saves), random);
            }
            if random.percent(80) {
                save.damage(random);
            }
            let mut bytes = save.bytes();
            if random.percent(10) {
                bytes.truncate(random.below(bytes.len() as u64 + 1) as usize);
            }
            if random.percent(5) {
                bytes.extend(random.bytes(5));
            }
            offer(&bytes, size, random, compared);
        }
        offer(&session.store, size, random, compared);
    }
}

/// A save of a whole tree with marks: cut at every byte, and with each byte changed in three ways.
pub fn run_through_every_byte(random: &mut Random, compared: &mut Comparison) {
    let truth = Truth::of_leaves(5 * BLOCK, 16384, random);
    let facts = &truth.facts;
    let mut store = vec![0; size_of(facts) as usize];
    open(&mut store, facts.length, facts.piece_length, facts.root);
    let all: Vec<_> = truth.positions().map(|(at, hash)| (*at, *hash)).collect();
    hold(&mut store, facts, &all);
    let marks = store.len() - facts.width(0) as usize;
    store[marks..marks + 3].copy_from_slice(&[1, 0, 1]);
    let saved = save_of(&store, random, compared);
    for size in 0..saved.len() {
        offer(&saved[..size], store.len(), random, compared);
    }
    for at in 0..saved.len() {
        for change in [1, 0x80, random.between(1, 255) as u8] {
            let mut other = saved.clone();
            other[at] ^= change;
            offer(&other, store.len(), random, compared);
        }
    }
}
