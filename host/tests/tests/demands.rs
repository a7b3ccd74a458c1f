//! The user's demands, tried on the reference: what it is compared by ought to be right itself. Stores are opened by us
//! and written by nobody else.

use host_tests::call::{by_library, by_reference, Call, Entry, Outcome};
use host_tests::compare::Comparison;
use host_tests::random::Random;
use host_tests::sessions::{Hands, Session};
use host_tests::truth::{self, Pair, Truth};
use reference::marks::marked;
use reference::messages::{Header, HASHES, HEAD, REQUEST};
use reference::number::*;
use reference::sha256::Hash;
use reference::store::{held_at, size_of};
use reference::tree::Position;
use reference::Answer;
use std::collections::{HashMap, HashSet};

const SESSIONS: u64 = 60;
const STEPS: u64 = 40;

type Held = HashMap<Position, Hash>;

fn held_in(store: &[u8], truth: &Truth) -> Held {
    let held = |at: &Position| held_at(store, &truth.facts, *at).map(|hash| (*at, hash));
    truth.positions().filter_map(|(at, _)| held(at)).collect()
}

/// Runs sessions on stores of our own, and looks at each call with the store before it and its outcome.
fn look_at_calls(seed: u64, look: &mut dyn FnMut(&Truth, &Call, &Outcome)) {
    let mut random = Random::new(seed);
    let with_bytes = truth::with_bytes(&mut random);
    let mut asked = Comparison::new(&by_reference);
    for number in 0..SESSIONS {
        let small = Pair::new(truth::small(&mut random), &mut random);
        let files = with_bytes.get(number as usize).unwrap_or(&small);
        let mut session = Session::begin(files, Hands::OursAlone, &mut random, &mut asked);
        for _ in 0..STEPS {
            let call = session.call(&mut random);
            let outcome = session.apply(&call, &mut asked);
            if call.entry != Entry::StoreSize {
                look(&files.truth, &call, &outcome);
            }
        }
    }
}

fn knowledge_only_grows_and_is_counted() {
    look_at_calls(1, &mut |truth, call, outcome| {
        let (before, after) = (held_in(&call.store, truth), held_in(&outcome.store, truth));
        assert!(before.iter().all(|(at, hash)| after.get(at) == Some(hash)));
        let newly = (after.len() - before.len()) as u64;
        match call.entry {
            Entry::Take | Entry::LoadLayer => assert_eq!(newly, outcome.given.count()),
            _ => assert_eq!(newly, 0),
        }
    });
}

fn every_held_hash_is_the_files_own() {
    look_at_calls(2, &mut |truth, _, outcome| {
        assert!(held_in(&outcome.store, truth).iter().all(|(at, hash)| truth.at(*at) == *hash));
        assert_ne!(outcome.given.number(), CONFLICT, "two strings with one SHA-256 would be shown");
    });
}

fn a_block_is_marked_exactly_if_judged_right_and_not_cleared_since() {
    let mut right: HashSet<u64> = HashSet::new();
    let mut root = [0; 32];
    let (mut set, mut taken_back) = (0, 0);
    for seed in 7..20 {
        look_at_calls(seed, &mut |truth, call, outcome| {
            let facts = &truth.facts;
            if facts.root != root {
                root = facts.root;
                right.clear();
            }
            let number = call.numbers[0];
            match (call.entry, outcome.given.number()) {
                (Entry::JudgeBlock, DONE) => set += right.insert(number) as u64,
                (Entry::JudgePiece | Entry::JudgeHybridPiece, DONE) => {
                    facts.blocks_of_piece(number).for_each(|block| set += right.insert(block) as u64)
                }
                (Entry::Clear, DONE) => taken_back += right.remove(&number) as u64,
                _ => (),
            }
            for block in 0..facts.blocks() {
                assert_eq!(marked(&outcome.store, block), Answer::done(right.contains(&block) as u64));
            }
            let end = size_of(facts) as usize;
            let spare = (facts.width(0) - facts.blocks()) as usize;
            assert!(outcome.store[end - spare..end].iter().all(|byte| *byte == 0), "no mark past the file's blocks");
        });
    }
    assert!(set > 100 && taken_back > 20, "{set} {taken_back}");
}

/// The anchor of a message that passes 9, 1, 2, 3 and 4.
fn anchor_of(message: &[u8]) -> Position {
    let hashes: Vec<Hash> = message[HEAD..].chunks_exact(32).map(|bytes| bytes.try_into().unwrap()).collect();
    Header::read(message).settled(&hashes).last().unwrap().0
}

fn offered(store: &[u8], message: &[u8]) -> u32 {
    by_reference(&Call::new(Entry::Take).on(store).input(message.to_vec())).given.number()
}

fn the_number_of_a_reply_stays() {
    let mut past: Vec<(Vec<u8>, u32)> = Vec::new();
    let mut root = [0; 32];
    look_at_calls(3, &mut |truth, call, outcome| {
        if truth.facts.root != root {
            root = truth.facts.root;
            past.clear();
        }
        if call.entry != Entry::Take {
            return;
        }
        past.push((call.input.clone(), outcome.given.number()));
        for (message, number) in &mut past {
            let now = offered(&outcome.store, message);
            if *number == NO_ANCHOR {
                let is_held = held_at(&outcome.store, &truth.facts, anchor_of(message)).is_some();
                assert_eq!(now == NO_ANCHOR, !is_held);
                *number = now;
            }
            assert_eq!(now, *number);
        }
    });
}

fn true_messages_are_taken_as_soon_as_their_anchor_is_held() {
    let mut random = Random::new(4);
    look_at_calls(4, &mut |truth, _, outcome| {
        if let Some(header) = truth.header(&mut random) {
            let message = truth.message(&header);
            let is_held = held_at(&outcome.store, &truth.facts, anchor_of(&message)).is_some();
            assert_eq!(offered(&outcome.store, &message), if is_held { DONE } else { NO_ANCHOR });
        }
    });
}

fn replies_of_one_store_are_taken_by_another() {
    let mut random = Random::new(5);
    let mut last: Option<(Hash, Vec<u8>)> = None;
    let mut taken = 0;
    look_at_calls(5, &mut |truth, _, outcome| {
        if let Some(header) = truth.header(&mut random) {
            let served = by_reference(&Call {
                out: vec![0; header.message_size() as usize],
                ..Call::new(Entry::Serve).on(&outcome.store).input(header.write(REQUEST))
            });
            match (&last, served.given.number()) {
                (Some((root, earlier)), DONE) if *root == truth.facts.root => {
                    let is_held = held_at(earlier, &truth.facts, anchor_of(&served.out)).is_some();
                    assert_eq!(offered(earlier, &served.out), if is_held { DONE } else { NO_ANCHOR });
                    assert_eq!(offered(&outcome.store, &served.out), DONE);
                    taken += 1;
                }
                _ => last = Some((truth.facts.root, outcome.store.clone())),
            }
        }
    });
    assert!(taken > 100, "{taken}");
}

fn a_message_settles_as_many_positions_as_the_document_says() {
    let mut random = Random::new(6);
    for _ in 0..300 {
        let truth = truth::small(&mut random);
        let Some(header) = truth.header(&mut random) else { continue };
        let message = truth.message(&header);
        assert_eq!(message[0], HASHES);
        let hashes: Vec<Hash> = message[HEAD..].chunks_exact(32).map(|bytes| bytes.try_into().unwrap()).collect();
        let settled = header.settled(&hashes);
        let distinct: HashSet<Position> = settled.iter().map(|(at, _)| *at).collect();
        assert_eq!(distinct.len() as u64, 2 * header.length as u64 - 1 + 2 * header.uncles());
        assert_eq!(distinct.len(), settled.len());
        assert!(settled.iter().all(|(at, hash)| truth.facts.has_position(*at) && truth.at(*at) == *hash));
    }
}

/// What the reference leaves; the library must leave the same, in every byte.
fn by_both(call: &Call) -> Outcome {
    let outcome = by_reference(call);
    assert_eq!(outcome, by_library(call));
    outcome
}

fn opened(truth: &Truth) -> Vec<u8> {
    let facts = &truth.facts;
    let memory = vec![0; size_of(facts) as usize];
    by_both(&Call { root: facts.root, ..Call::new(Entry::Open).on(&memory).numbers(facts.length, facts.piece_length) })
        .store
}

/// Offers each message once, in an order of its own: what that leaves, and how many positions it made newly held.
fn a_round(mut store: Vec<u8>, messages: &[Vec<u8>], random: &mut Random) -> (Vec<u8>, u64) {
    let mut left: Vec<&Vec<u8>> = messages.iter().collect();
    let mut newly = 0;
    while !left.is_empty() {
        let message = left.swap_remove(random.below(left.len() as u64) as usize);
        let outcome = by_both(&Call::new(Entry::Take).on(&store).input(message.clone()));
        newly += outcome.given.count();
        store = outcome.store;
    }
    (store, newly)
}

/// A message with the file's root: true, or with hashes of another file, or with one bit changed.
fn any_message(files: &Pair, random: &mut Random) -> Option<Vec<u8>> {
    let header = files.truth.header(random)?;
    let mut message = if random.percent(15) { files.forged.message(&header) } else { files.truth.message(&header) };
    if random.percent(15) {
        let at = random.below(message.len() as u64) as usize;
        message[at] ^= 1 << random.below(8);
    }
    Some(message)
}

/// Rounds of a set of messages, until one makes nothing newly held: what the first round leaves, what all leave, and how many there were.
fn rounds(files: &Pair, messages: &[Vec<u8>], random: &mut Random) -> (Vec<u8>, Vec<u8>, u64) {
    let (first, mut newly) = a_round(opened(&files.truth), messages, random);
    let (mut store, mut count) = (first.clone(), 1);
    while newly > 0 {
        (store, newly) = a_round(store, messages, random);
        count += 1;
    }
    (first, store, count)
}

/// Two stores hear the same messages, each in orders of its own: they end in the same bytes, within the rounds that are promised.
fn the_same_messages_in_any_order_leave_the_same() {
    let mut random = Random::new(14);
    let (mut unlike, mut most) = (0, 0);
    for _ in 0..400 {
        let files = Pair::new(truth::small(&mut random), &mut random);
        let messages: Vec<Vec<u8>> =
            (0..random.between(1, 16)).filter_map(|_| any_message(&files, &mut random)).collect();
        let [one, other] = [(); 2].map(|_| rounds(&files, &messages, &mut random));
        assert_eq!(one.1, other.1);
        for (_, _, count) in [&one, &other] {
            assert!(*count < 2 * files.truth.facts.width(0) && *count as usize <= messages.len() + 1);
            most = most.max(*count);
        }
        unlike += (one.0 != other.0) as u64;
    }
    assert!(unlike > 20 && most > 2, "{unlike} {most}: one round alone doesn't give this");
}

host_tests::tests! {
    knowledge_only_grows_and_is_counted,
    every_held_hash_is_the_files_own,
    a_block_is_marked_exactly_if_judged_right_and_not_cleared_since,
    the_number_of_a_reply_stays,
    true_messages_are_taken_as_soon_as_their_anchor_is_held,
    replies_of_one_store_are_taken_by_another,
    a_message_settles_as_many_positions_as_the_document_says,
    the_same_messages_in_any_order_leave_the_same,
}
