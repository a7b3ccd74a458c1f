//! Every header against every small file: taken, served and as a reject, on a store that is fresh, half full and full.

use crate::call::{Call, Entry, Fenced};
use crate::compare::Comparison;
use crate::random::Random;
use crate::truth::Truth;
use reference::limits::{BLOCK, LONGEST_RUN};
use reference::messages::{self, Header, HASHES, HEAD, REJECT, REQUEST};
use reference::number::RULE_BROKEN;
use reference::store::size_of;
use reference::tree::Facts;
use reference::Answer;

/// Small files have up to so many blocks.
const MOST_BLOCKS: u64 = 40;

/// All small files with an odd or an even count of blocks, by the first: two halves, for two processes.
pub fn run(first: u64, random: &mut Random, compared: &mut Comparison) {
    for blocks in (first..=MOST_BLOCKS).step_by(2) {
        if compared.difference.is_some() {
            return;
        }
        let truth = Truth::of_leaves(blocks * BLOCK, BLOCK, random);
        let stores = stores(&truth, compared);
        let mut broken = Broken::new(&stores);
        for header in headers(&truth.facts) {
            if header.obeys_the_rules(&truth.facts) {
                let message = truth.message(&header);
                stores.iter().for_each(|store| ask(&truth, store, &header, &message, compared));
            } else {
                broken.offer(header, compared);
            }
        }
        broken.end(compared);
    }
}

/// Every header of the four ranges below, its root the file's.
fn headers(facts: &Facts) -> impl Iterator<Item = Header> + '_ {
    let Facts { root, .. } = *facts;
    let with_base = move |base| {
        let with_length = move |length| {
            let with_index = move |index| proofs(facts).map(move |proof| Header { root, base, index, length, proof });
            indices(facts, base, length).flat_map(with_index)
        };
        lengths(facts).flat_map(with_length)
    };
    bases(facts).flat_map(with_base)
}

const HALF: u32 = 1 << 31;

/// All layers and one past them; far ones.
fn bases(facts: &Facts) -> impl Iterator<Item = u32> {
    (0..=facts.height() as u32 + 1).chain([32, HALF, u32::MAX])
}

/// All that fit the tree and on to twice that, powers of two or not; the longest run and the next; far ones.
fn lengths(facts: &Facts) -> impl Iterator<Item = u32> {
    (0..=2 * facts.width(0) as u32).chain([LONGEST_RUN, 2 * LONGEST_RUN, HALF, u32::MAX])
}

/// All of the layer and two past its end; far ones, among them the one whose sum with the length is 2^32.
fn indices(facts: &Facts, base: u32, length: u32) -> impl Iterator<Item = u32> {
    let layer = facts.height().min(base as u64);
    (0..=facts.width(layer) as u32 + 1).chain([HALF, length.wrapping_neg(), u32::MAX])
}

/// All that reach the root or one or two layers past it; far ones.
fn proofs(facts: &Facts) -> impl Iterator<Item = u32> {
    (0..=facts.height() as u32 + 1).chain([32, u32::MAX])
}

/// A store that was opened; that then took the middle layer; that took all leaves.
fn stores(truth: &Truth, compared: &mut Comparison) -> [Vec<u8>; 3] {
    let facts = &truth.facts;
    let opening = Call { root: facts.root, ..Call::new(Entry::Open) }
        .on(&vec![0; size_of(facts) as usize])
        .numbers(facts.length, facts.piece_length);
    let fresh = compared.ask(&opening).store;
    let mut with_layer = |base: u64| {
        let length = 1 << (facts.height() - base);
        let header = Header { root: facts.root, base: base as u32, index: 0, length, proof: 0 };
        compared.ask(&Call::new(Entry::Take).on(&fresh).input(truth.message(&header))).store
    };
    if facts.height() == 0 {
        return [(); 3].map(|()| fresh.clone());
    }
    let (half, full) = (with_layer(facts.height() / 2), with_layer(0));
    [fresh, half, full]
}

/// The true message, and one with its last given padding hash changed, if it gives any.
fn ask(truth: &Truth, store: &[u8], header: &Header, message: &[u8], compared: &mut Comparison) {
    let given = header.given_positions();
    if let Some(place) = given.iter().rposition(|at| truth.facts.is_padding(*at)) {
        let mut damaged = message.to_vec();
        damaged[HEAD + 32 * place] ^= 1;
        compared.ask(&Call::new(Entry::Take).on(store).input(damaged));
    }
    offer(store, header, message.to_vec(), compared);
}

/// The message taken, the header as a request, with a little more room than the reply needs, and as a reject.
fn offer(store: &[u8], header: &Header, message: Vec<u8>, compared: &mut Comparison) {
    let out = vec![0xaa; message.len() + 7];
    compared.ask(&Call::new(Entry::Take).on(store).input(message));
    compared.ask(&Call::new(Entry::Serve).on(store).input(header.write(REQUEST)).out(out));
    compared.ask(&Call::new(Entry::TakeReject).on(store).input(header.write(REJECT)));
}

/// A memory for the reference and one for the library, lent again and again: most headers break the rules and so leave it as it is, and
/// to copy a store for each call would take most of the time.
struct Lent {
    reference: Vec<u8>,
    library: Fenced,
}

impl Lent {
    fn new(bytes: &[u8]) -> Lent {
        Lent { reference: bytes.to_vec(), library: Fenced::new(bytes) }
    }

    fn set(&mut self, bytes: &[u8]) {
        self.reference.copy_from_slice(bytes);
        self.library.lent().copy_from_slice(bytes);
    }

    /// Nothing was written outside, and inside the same.
    fn is_alike(&self) -> bool {
        self.library.has(&self.reference)
    }
}

/// The memories of a file's calls with headers that break the rules.
struct Broken<'a> {
    stores: &'a [Vec<u8>; 3],
    lent: [Lent; 3],
    input: Lent,
    out: Lent,
    /// Headers that were offered since the stores were looked at.
    offered: Vec<Header>,
    /// How many headers were answered 3 on a store, as the reference has it, by all three calls.
    answered: u64,
}

/// The output of a request that is rejected, before it.
const OUT: [u8; HEAD + 7] = [0xaa; HEAD + 7];

/// After so many headers the stores are looked at: to do so after each would take most of the time.
const LOOK_AFTER: usize = 100;

impl<'a> Broken<'a> {
    fn new(stores: &'a [Vec<u8>; 3]) -> Broken<'a> {
        let lent = stores.each_ref().map(|store| Lent::new(store));
        let (input, out) = (Lent::new(&[0; HEAD]), Lent::new(&OUT));
        Broken { stores, lent, input, out, offered: Vec::with_capacity(LOOK_AFTER), answered: 0 }
    }

    /// The same three calls, on each store, with a look at message and output behind the three. Where anything is not as it should be each call
    /// is asked by itself, on memory of its own.
    fn offer(&mut self, header: Header, compared: &mut Comparison) {
        self.input.set(&header.write(HASHES));
        for (lent, store) in self.lent.iter_mut().zip(self.stores) {
            self.out.set(&OUT);
            let is_right = refused_alike(lent, &mut self.input, &mut self.out)
                && self.input.is_alike()
                && self.out.is_alike()
                && self.out.reference[HEAD..] == OUT[HEAD..];
            if is_right {
                self.answered += 1;
            } else {
                ask_alone(store, &[header], compared);
            }
        }
        self.offered.push(header);
        if self.offered.len() == LOOK_AFTER {
            self.look(compared);
        }
    }

    /// Whether the stores are as they were lent, and nothing was written outside. What a refusal wrote still stands there.
    fn look(&mut self, compared: &mut Comparison) {
        for (lent, store) in self.lent.iter().zip(self.stores) {
            assert!(lent.reference == *store, "the reference wrote at a refusal");
            if !lent.is_alike() {
                ask_alone(store, &self.offered, compared);
            }
        }
        self.offered.clear();
    }

    /// Counts what was answered.
    fn end(&mut self, compared: &mut Comparison) {
        self.look(compared);
        for entry in [Entry::Take, Entry::Serve, Entry::TakeReject] {
            compared.count(entry, RULE_BROKEN, self.answered);
        }
    }
}

/// Each call of these headers on memory of its own, one of which must show the difference.
fn ask_alone(store: &[u8], headers: &[Header], compared: &mut Comparison) {
    headers.iter().for_each(|header| offer(store, header, header.write(HASHES), compared));
    assert!(compared.difference.is_some(), "only on memory that is lent again");
}

/// The header taken, as a request and as a reject: 3 each time, by the reference and by the library.
fn refused_alike(store: &mut Lent, input: &mut Lent, out: &mut Lent) -> bool {
    let mut are_alike = |id: u8, entry: Entry| {
        input.reference[0] = id;
        let message = input.library.lent();
        message[0] = id;
        let held_bytes = store.library.lent();
        let (expected, given) = match entry {
            Entry::Take => {
                (messages::take(&mut store.reference, &input.reference), boundary::take(held_bytes, message))
            }
            Entry::Serve => (
                messages::serve(&store.reference, &input.reference, &mut out.reference),
                boundary::serve(held_bytes, message, out.library.lent()),
            ),
            _ => {
                (messages::take_reject(&store.reference, &input.reference), boundary::take_reject(held_bytes, message))
            }
        };
        expected.number == RULE_BROKEN && expected == Answer { number: given.number, count: given.count }
    };
    are_alike(HASHES, Entry::Take) && are_alike(REQUEST, Entry::Serve) && are_alike(REJECT, Entry::TakeReject)
}
