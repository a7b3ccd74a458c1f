//! The disk that loses power. The oracle compares bytes, and reads saves by itself.

use crate::file::{marks, Given, DATA, SAVE};
use kdgate::held::{Began, Came, Held};
use kdgate::model::{Chance, Model};
use kombudeva::{store_size, Refusal, Store};
use std::env;
use std::path::Path;

fn setting(name: &str, default: u64) -> u64 {
    env::var(name).map_or(default, |text| text.parse().expect("a number"))
}

/// Fetches in some order, with wrong blocks between, and saves now and then, till the power goes or so many steps are done.
fn fetch(model: &Model, given: &Given, held: &mut Held, chance: &mut Chance, steps: u64) {
    while held.judge_next(model) {}
    for _ in 0..steps {
        if model.is_out() {
            return;
        }
        let block = chance.below(given.blocks());
        match chance.below(12) {
            0 => drop(held.take(&given.leaves())),
            1 | 2 => drop(held.checkpoint(model)),
            3 => {
                let mut wrong = given.block(block).to_vec();
                let at = chance.below(wrong.len() as u64) as usize;
                wrong[at] ^= 1;
                assert!(matches!(held.block_came(model, block, &wrong), Came::Refused(_) | Came::Known));
            }
            4 => {
                let piece = block * 16384 / given.facts.piece_length;
                let (at, size) = held.piece_part(piece);
                held.piece_came(model, piece, &given.bytes[at as usize..(at + size) as usize]);
            }
            5 => drop(held.scrub_next(model)),
            _ => drop(held.block_came(model, block, given.block(block))),
        }
    }
}

/// What is wrong with what lies on the disk: a save that does not load, or a mark without its block.
fn wrong(model: &Model, given: &Given) -> Option<String> {
    let save = model.durable(Path::new(SAVE))?;
    let memory = vec![0; store_size(given.facts.length, given.facts.piece_length).unwrap()];
    if let Err(refusal) = Store::load(memory, &save) {
        return Some(format!("the save does not load: {refusal}"));
    }
    let data = model.durable(Path::new(DATA)).unwrap_or_default();
    let is_there = |block: &u64| {
        let at = (block * 16384) as usize;
        let right = given.block(*block);
        data.get(at..at + right.len()) == Some(right)
    };
    marks(&save).iter().find(|block| !is_there(block)).map(|block| format!("block {block} is marked, and not there"))
}

fn finish(model: &Model, given: &Given) {
    let (mut held, _) = given.held(model);
    while held.judge_next(model) {}
    if given.blocks() > 1 {
        held.take(&given.leaves()).unwrap();
    }
    for block in 0..given.blocks() {
        assert!(!matches!(held.block_came(model, block, given.block(block)), Came::Refused(_) | Came::NotWritten(_)));
    }
    assert!(held.is_whole());
    held.checkpoint(model).unwrap();
    assert_eq!(wrong(model, given), None);
    assert_eq!(model.durable(Path::new(DATA)).unwrap(), given.bytes);
    assert_eq!(marks(&model.durable(Path::new(SAVE)).unwrap()).len() as u64, given.blocks());
}

/// Files of one block, of one piece, of several; the last block short.
fn files(seed: u64) -> Vec<Given> {
    [(1000, 16384), (50_000, 65536), (150_001, 32768), (131_072, 16384)]
        .into_iter()
        .map(|(length, piece_length)| Given::new(seed + length as u64, length, piece_length))
        .collect()
}

/// So many crashes; the first thing found wrong.
fn crash(lying: bool, crashes: u64, seed: u64) -> Option<String> {
    let mut chance = Chance(seed);
    let files = files(seed);
    let mut done = 0;
    while done < crashes {
        let given = &files[chance.below(files.len() as u64) as usize];
        let model = if lying { Model::lying(chance.number()) } else { Model::new(chance.number()) };
        // The same disk goes through several of them.
        for _ in 0..10.min(crashes - done) {
            let (mut held, began) = given.held(&model);
            if !lying && began == Began::Repaired {
                return Some("a save had to be repaired".into());
            }
            model.crash_in(1 + chance.below(60));
            fetch(&model, given, &mut held, &mut chance, 80);
            model.restart();
            done += 1;
            if let Some(wrong) = wrong(&model, given) {
                return Some(wrong);
            }
        }
        if !lying {
            finish(&model, given);
        }
    }
    None
}

pub fn power_loss_leaves_no_wrong_mark() {
    let (crashes, seed) = (setting("KD_CRASHES", 300), setting("KD_SEED", 20_261_116));
    assert_eq!(crash(false, crashes, seed), None, "seed {seed}");
    println!("gateway: the power went {crashes} times");
}

/// The same on a disk that syncs nothing: were it not found out, the test above would say little.
pub fn a_disk_that_lies_is_found_out() {
    let found = crash(true, 2000, 7).expect("found out");
    assert!(found.contains("marked, and not there"), "{found}");
}

/// 1 to 1000 bits in data and save, between two runs. What is marked afterwards is right, and all of it is whole at last.
pub fn flipped_bits_are_found_and_mended() {
    let mut chance = Chance(setting("KD_SEED", 5));
    let (mut flipped, mut repaired, mut opened) = (0, 0, 0);
    for round in 0..setting("KD_DAMAGES", 40) {
        let given = &files(round)[chance.below(4) as usize];
        let model = Model::new(round);
        finish(&model, given);
        for path in [DATA, SAVE] {
            let bits = [0, 1, 2, 30, 1000][chance.below(5) as usize];
            model.damage(Path::new(path), bits);
            flipped += bits;
        }
        let (mut held, began) = given.held(&model);
        repaired += u64::from(began == Began::Repaired);
        opened += u64::from(began == Began::Opened);
        assert_eq!(held.marked(), 0, "a mark of a save is a claim");
        while held.judge_next(&model) {}
        let data = model.durable(Path::new(DATA)).unwrap();
        for block in 0..given.blocks() {
            let at = (block * 16384) as usize;
            let is_right = &data[at..data.len().min(at + 16384)] == given.block(block);
            assert!(is_right || !held.is_marked(block), "block {block} is wrong and marked");
        }
        drop(held);
        finish(&model, given);
    }
    println!("gateway: {flipped} bits flipped, {repaired} stores repaired, {opened} begun afresh");
}

/// A good save of another file of the same length is loaded by the library, and is not this file's.
pub fn a_save_of_yesterday_is_not_todays() {
    let (yesterday, today) = (Given::new(1, 100_000, 32768), Given::new(2, 100_000, 32768));
    let model = Model::new(3);
    finish(&model, &yesterday);
    let (mut held, began) = today.held(&model);
    assert_eq!(began, Began::Opened);
    while held.judge_next(&model) {}
    assert_eq!(held.marked(), 0);
    assert_eq!(held.take(&yesterday.leaves()), Err(Refusal::OtherRoot));
    held.take(&today.leaves()).unwrap();
    assert!(matches!(held.block_came(&model, 0, yesterday.block(0)), Came::Refused(Refusal::Differs)));
    drop(held);
    finish(&model, &today);
}

/// A save that ends anywhere, and any bytes, are a beginning from what lies on disk.
pub fn a_cut_save_is_no_loss() {
    use kdgate::disk::Disk;
    let given = Given::new(9, 150_001, 32768);
    let model = Model::new(9);
    finish(&model, &given);
    let save = model.durable(Path::new(SAVE)).unwrap();
    for length in [0, 1, 44, 45, 46, 100, save.len() - 1, save.len() + 1] {
        let mut cut = save.clone();
        cut.resize(length, 7);
        model.put(Path::new(SAVE), &cut).unwrap();
        let (mut held, began) = given.held(&model);
        assert_ne!(began, Began::Loaded);
        while held.judge_next(&model) {}
        // Pieces are judged by the torrent's layer.
        assert!(held.is_whole(), "cut to {length}");
    }
}
