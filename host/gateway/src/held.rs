//! One file of a torrent: its store, its bytes on disk, and the one rule of order: judge, write, sync, save, rename.
//!
//! A mark in the store's memory was made in this run, of bytes that were judged in this run: what a save claims, and what lies on disk at
//! the start, is judged first. So a mark may be shown, and its piece offered to neighbours.

use crate::disk::{Data, Disk, Place};
use crate::leaves;
use crate::say;
use kombudeva::limits::BLOCK;
use kombudeva::{store_size, Facts, Hash, Refusal, Request, Served, Store};
use std::collections::HashMap;
use std::io;
use std::path::PathBuf;
use std::sync::Arc;
use std::time::{Duration, Instant};

/// What became of bytes that were judged 0, or why they were not.
#[derive(Debug)]
pub enum Came {
    /// Judged, written and marked; the piece if it is whole by that.
    Taken(Option<u64>),
    /// It had been marked before.
    Known,
    Refused(Refusal),
    /// Judged right, but the disk would not take it.
    NotWritten(io::Error),
}

/// A hash request on its way: to which connection, and since when.
pub struct Asked {
    pub to: u64,
    pub message: [u8; 49],
    pub since: Instant,
}

pub struct Held {
    pub facts: Facts,
    pub name: String,
    place: Place,
    /// Where the store is saved; a file that the logger writes has no save.
    save: Option<PathBuf>,
    layer: Vec<u8>,
    store: Store<Vec<u8>>,
    data: Option<Arc<dyn Data>>,
    /// Blocks whose bytes lie on disk and have not been judged in this run.
    unjudged: Vec<bool>,
    /// Those of them that the save says were judged in an earlier run.
    claimed: Vec<bool>,
    /// The piece that the judging at the start has come to; past the last one it is done.
    judged_to: u64,
    /// The piece that is judged again next.
    scrubbed_to: u64,
    /// Pieces whose leaves are all held, as last looked at.
    leafed: Vec<bool>,
    /// How many neighbours have each piece.
    pub counts: Vec<u32>,
    /// Pieces that a connection fetches.
    pub in_flight: HashMap<u64, u64>,
    pub asked: Option<Asked>,
    /// Connections that had no leaves for us, and when they said so.
    pub without_leaves: HashMap<u64, Instant>,
    /// How many blocks are marked, if they were counted.
    marked: Option<u64>,
    dirty: bool,
    saved: Instant,
    used: Instant,
    /// Blocks that were found damaged on disk in this run.
    pub damaged: u64,
    pub trouble: Option<String>,
    paused: Option<Instant>,
}

/// How the store came up.
#[derive(Clone, Copy, Debug, PartialEq, Eq)]
pub enum Began {
    Loaded,
    Repaired,
    Opened,
}

impl Held {
    /// The store of a file as its save has it, or as much of it as can be repaired, or a fresh one. No block is marked: what is claimed
    /// and what lies on disk are judged by `judge_next`.
    pub fn begin(
        disk: &dyn Disk,
        facts: Facts,
        layer: &[u8],
        name: String,
        place: Place,
        save: Option<PathBuf>,
    ) -> Result<(Held, Began), Refusal> {
        let size = store_size(facts.length, facts.piece_length)?;
        // Twice the store's size is more than any save of it.
        let saved = save.as_ref().and_then(|path| disk.get(path, 2 * size).ok());
        let (store, began) = Held::store(&facts, size, saved.as_deref(), layer)?;
        let blocks = facts.length.div_ceil(BLOCK) as usize;
        let pieces = facts.length.div_ceil(facts.piece_length) as usize;
        let now = Instant::now();
        let mut held = Held {
            facts,
            name,
            place,
            save,
            layer: layer.to_vec(),
            store,
            data: None,
            unjudged: vec![false; blocks],
            claimed: vec![false; blocks],
            judged_to: 0,
            scrubbed_to: 0,
            leafed: vec![false; pieces],
            counts: vec![0; pieces],
            in_flight: HashMap::new(),
            asked: None,
            without_leaves: HashMap::new(),
            marked: None,
            dirty: began != Began::Loaded,
            saved: now,
            used: now,
            damaged: 0,
            trouble: None,
            paused: None,
        };
        held.unmark(disk)?;
        held.look_at_leaves(0..pieces as u64);
        Ok((held, began))
    }

    /// A save is of this file only if its facts are: one of yesterday's is a good store of another file.
    fn store(
        facts: &Facts,
        size: usize,
        saved: Option<&[u8]>,
        layer: &[u8],
    ) -> Result<(Store<Vec<u8>>, Began), Refusal> {
        let ours = |store: &Store<Vec<u8>>| store.facts().as_ref() == Ok(facts);
        let with_layer = |mut store: Store<Vec<u8>>| match layer.is_empty() {
            true => Ok(store),
            false => store.load_layer(layer).map(|_| store),
        };
        if let Some(saved) = saved {
            if let Some((store, _)) = Store::load(vec![0; size], saved).ok().filter(|(store, _)| ours(store)) {
                if let Ok(store) = with_layer(store) {
                    return Ok((store, Began::Loaded));
                }
            }
            if let Some((store, _)) = Store::repair(vec![0; size], saved).ok().filter(|(store, _)| ours(store)) {
                if let Ok(store) = with_layer(store) {
                    return Ok((store, Began::Repaired));
                }
            }
        }
        let store = Store::open(vec![0; size], facts.length, facts.piece_length, facts.root)?;
        with_layer(store).map(|store| (store, Began::Opened))
    }

    /// Marks become claims, and all that lies on disk is to be judged.
    fn unmark(&mut self, disk: &dyn Disk) -> Result<(), Refusal> {
        let on_disk = disk.open(&self.place, false).and_then(|data| data.size()).unwrap_or(0);
        for block in 0..self.blocks() {
            self.claimed[block as usize] = self.store.marked(block)?;
            self.store.clear(block)?;
            let (at, size) = self.part(block);
            self.unjudged[block as usize] = at + size <= on_disk;
        }
        self.judged_to = 0;
        Ok(())
    }

    pub fn blocks(&self) -> u64 {
        self.facts.length.div_ceil(BLOCK)
    }

    pub fn pieces(&self) -> u64 {
        self.facts.length.div_ceil(self.facts.piece_length)
    }

    /// Where a block begins, and how many bytes it has.
    pub fn part(&self, block: u64) -> (u64, u64) {
        (block * BLOCK, BLOCK.min(self.facts.length - block * BLOCK))
    }

    pub fn piece_part(&self, piece: u64) -> (u64, u64) {
        let at = piece * self.facts.piece_length;
        (at, self.facts.piece_length.min(self.facts.length - at))
    }

    pub fn blocks_of(&self, piece: u64) -> std::ops::Range<u64> {
        let each = self.facts.piece_length / BLOCK;
        piece * each..((piece + 1) * each).min(self.blocks())
    }

    pub fn is_marked(&self, block: u64) -> bool {
        self.store.marked(block) == Ok(true)
    }

    pub fn is_whole_piece(&self, piece: u64) -> bool {
        self.blocks_of(piece).all(|block| self.is_marked(block))
    }

    /// How many blocks may be believed: those marked. They are counted again after each change but that of one block, and at each save.
    pub fn marked(&mut self) -> u64 {
        match self.marked {
            Some(marked) => marked,
            None => {
                let marked = (0..self.blocks()).filter(|block| self.is_marked(*block)).count() as u64;
                *self.marked.insert(marked)
            }
        }
    }

    pub fn is_whole(&mut self) -> bool {
        self.marked() == self.blocks()
    }

    pub fn bitfield(&self) -> Vec<u8> {
        let mut out = vec![0; self.pieces().div_ceil(8) as usize];
        self.store.bitfield(&mut out).map(<[u8]>::to_vec).unwrap_or_default()
    }

    pub fn is_judging(&self) -> bool {
        self.judged_to < self.pieces()
    }

    pub fn leaf(&self, block: u64) -> Option<Hash> {
        self.store.held(0, block).ok()
    }

    pub fn is_leafed(&self, piece: u64) -> bool {
        self.leafed[piece as usize]
    }

    fn look_at_leaves(&mut self, pieces: std::ops::Range<u64>) {
        for piece in pieces {
            if !self.leafed[piece as usize] {
                self.leafed[piece as usize] = self.blocks_of(piece).all(|block| self.leaf(block).is_some());
            }
        }
    }

    /// The request for leaves that is next, if one is missing.
    pub fn next_request(&self) -> Option<Request> {
        self.store.next_request(0).ok().flatten()
    }

    pub fn serve<'o>(&self, request: &[u8], out: &'o mut [u8]) -> Served<'o> {
        self.store.serve(request, out)
    }

    pub fn take_reject(&self, message: &[u8]) -> Result<(), Refusal> {
        self.store.take_reject(message)
    }

    /// A neighbour's hashes: how many positions are newly held.
    pub fn take(&mut self, message: &[u8]) -> Result<u64, Refusal> {
        let newly = self.store.take(message)?;
        if newly > 0 {
            self.dirty = true;
            self.look_at_leaves(0..self.pieces());
        }
        Ok(newly)
    }

    /// The piece to fetch, of those that `may` allows.
    pub fn pick(&self, may: impl Fn(u64) -> bool) -> Option<u64> {
        let counts: Vec<u32> =
            (0..self.pieces()).map(|piece| if may(piece) { self.counts[piece as usize] } else { 0 }).collect();
        self.store.pick_piece(&counts).ok().flatten()
    }

    pub fn extends(&self, old: &Facts, block: &[u8]) -> Result<(), Refusal> {
        self.store.extends(old.length, old.root, block)
    }

    /// The data file, opened if need be.
    pub fn data(&mut self, disk: &dyn Disk, make: bool) -> io::Result<Arc<dyn Data>> {
        self.used = Instant::now();
        if self.data.is_none() {
            self.data = Some(disk.open(&self.place, make)?);
        }
        Ok(self.data.clone().expect("just opened"))
    }

    /// A file that nobody used for a while is closed: a rack has more histories than a process has files.
    pub fn close_if_idle(&mut self, now: Instant) {
        if !self.dirty && now.duration_since(self.used) > Duration::from_secs(30) {
            self.data = None;
        }
    }

    /// Judge, then write. The mark is taken back where the disk refuses.
    pub fn block_came(&mut self, disk: &dyn Disk, block: u64, bytes: &[u8]) -> Came {
        if self.is_marked(block) {
            return Came::Known;
        }
        if let Err(refusal) = self.store.judge_block(block, bytes) {
            return Came::Refused(refusal);
        }
        self.marked = self.marked.map(|marked| marked + 1);
        self.write(disk, block..block + 1, bytes)
    }

    /// The same with a whole piece, where no leaf is held; its leaves are then.
    pub fn piece_came(&mut self, disk: &dyn Disk, piece: u64, bytes: &[u8]) -> Came {
        if self.is_whole_piece(piece) {
            return Came::Known;
        }
        if let Err(refusal) = self.store.judge_piece(piece, bytes) {
            return Came::Refused(refusal);
        }
        self.marked = None;
        self.learn(piece, bytes);
        self.write(disk, self.blocks_of(piece), bytes)
    }

    fn write(&mut self, disk: &dyn Disk, blocks: std::ops::Range<u64>, bytes: &[u8]) -> Came {
        self.dirty = true;
        let written = self.data(disk, true).and_then(|data| data.write(blocks.start * BLOCK, bytes));
        for block in blocks.clone() {
            self.unjudged[block as usize] = false;
            self.claimed[block as usize] = false;
            if written.is_err() {
                let _ = self.store.clear(block);
            }
        }
        match written {
            Err(error) => {
                self.marked = None;
                Came::NotWritten(error)
            }
            Ok(()) => {
                let piece = blocks.start * BLOCK / self.facts.piece_length;
                Came::Taken(self.is_whole_piece(piece).then_some(piece))
            }
        }
    }

    fn learn(&mut self, piece: u64, bytes: &[u8]) {
        if self.is_leafed(piece) {
            return;
        }
        match leaves::learn(&mut self.store, piece, bytes) {
            Ok(newly) => {
                self.dirty |= newly > 0;
                self.look_at_leaves(piece..piece + 1);
            }
            Err(refusal) => say!("no_leaves", file = self.name, piece = piece, number = refusal.number()),
        }
    }

    /// Judges one more piece of what lay on disk at the start; whether there may be more.
    pub fn judge_next(&mut self, disk: &dyn Disk) -> bool {
        if !self.is_judging() {
            return false;
        }
        self.judge_on_disk(disk, self.judged_to);
        self.judged_to += 1;
        self.is_judging()
    }

    /// Judges those blocks of a piece that lie on disk and were not judged yet, each against its leaf, or all of them against the piece's node.
    /// Blocks that no hash is held for stay as they are.
    pub fn judge_on_disk(&mut self, disk: &dyn Disk, piece: u64) {
        let blocks = self.blocks_of(piece);
        if !blocks.clone().any(|block| self.unjudged[block as usize]) {
            self.tell_lost(blocks);
            return;
        }
        let Ok(data) = self.data(disk, false) else { return };
        if !self.is_leafed(piece) && blocks.clone().all(|block| self.unjudged[block as usize]) {
            let (at, size) = self.piece_part(piece);
            let mut bytes = vec![0; size as usize];
            if data.read(at, &mut bytes).is_ok() && self.store.judge_piece(piece, &bytes).is_ok() {
                self.learn(piece, &bytes);
                blocks.clone().for_each(|block| self.unjudged[block as usize] = false);
                (self.dirty, self.marked) = (true, None);
                return;
            }
        }
        let mut bytes = vec![0; BLOCK as usize];
        for block in blocks.clone() {
            if self.leaf(block).is_none() || !std::mem::take(&mut self.unjudged[block as usize]) {
                continue;
            }
            let (at, size) = self.part(block);
            let bytes = &mut bytes[..size as usize];
            if data.read(at, bytes).is_ok() && self.store.judge_block(block, bytes).is_ok() {
                (self.dirty, self.marked) = (true, None);
            }
        }
        self.tell_lost(blocks);
    }

    /// Claims that were judged and not found right are damage.
    fn tell_lost(&mut self, blocks: std::ops::Range<u64>) {
        for block in blocks {
            let at = block as usize;
            if !self.unjudged[at] && std::mem::take(&mut self.claimed[at]) && !self.is_marked(block) {
                self.lost(block);
            }
        }
    }

    /// Bytes on disk are not what they were: the mark goes, and the block is fetched again.
    pub fn lost(&mut self, block: u64) {
        let _ = self.store.clear(block);
        (self.dirty, self.marked) = (true, None);
        self.damaged += 1;
        say!("damaged", file = self.name, block = block);
    }

    /// Judges the next marked piece again, as it lies on disk; whether all of it was right.
    pub fn scrub_next(&mut self, disk: &dyn Disk) -> bool {
        let piece = self.scrubbed_to % self.pieces();
        self.scrubbed_to = piece + 1;
        let before = self.damaged;
        for block in self.blocks_of(piece) {
            if self.is_marked(block) && !self.is_right_on_disk(disk, block) {
                self.lost(block);
            }
        }
        self.damaged == before
    }

    fn is_right_on_disk(&mut self, disk: &dyn Disk, block: u64) -> bool {
        let (at, size) = self.part(block);
        let mut bytes = vec![0; size as usize];
        let read = self.data(disk, false).and_then(|data| data.read(at, &mut bytes));
        read.is_ok() && self.store.judge_block(block, &bytes).is_ok()
    }

    pub fn is_due(&mut self, now: Instant, every: Duration) -> bool {
        let may = self.dirty && self.save.is_some() && !self.is_judging() && !self.is_paused(now);
        may && (now.duration_since(self.saved) >= every || self.is_whole())
    }

    /// The disk has refused, and is let alone for a while.
    pub fn pause(&mut self, error: &io::Error, now: Instant) {
        self.trouble = Some(error.to_string());
        self.paused = Some(now + Duration::from_secs(10));
    }

    pub fn is_paused(&self, now: Instant) -> bool {
        self.paused.is_some_and(|until| now < until)
    }

    /// Sync, save, rename. Called with the file locked: no mark slips in between the sync and the save.
    pub fn checkpoint(&mut self, disk: &dyn Disk) -> io::Result<()> {
        self.saved = Instant::now();
        let Some(path) = self.save.clone() else { return Ok(()) };
        if self.is_judging() {
            return Ok(());
        }
        self.marked = None;
        if self.marked() > 0 {
            self.data(disk, false)?.sync()?;
        }
        let mut room = vec![0; 2 * store_size(self.facts.length, self.facts.piece_length)?];
        disk.put(&path, self.store.save(&mut room)?)?;
        (self.dirty, self.trouble) = (false, None);
        Ok(())
    }

    /// The library found two strings with one SHA-256 in a store of our own, so memory is bad: back to the save, and all is judged anew.
    pub fn begin_afresh(&mut self, disk: &dyn Disk) -> Result<(), Refusal> {
        let size = store_size(self.facts.length, self.facts.piece_length)?;
        let saved = self.save.as_ref().and_then(|path| disk.get(path, 2 * size).ok());
        (self.store, _) = Held::store(&self.facts, size, saved.as_deref(), &self.layer)?;
        (self.marked, self.dirty) = (None, true);
        self.leafed.fill(false);
        self.unmark(disk)?;
        self.look_at_leaves(0..self.pieces());
        Ok(())
    }
}

#[cfg(test)]
mod tests {
    use super::*;
    use crate::model::Model;
    use kombudeva::ids::HASH_REQUEST;
    use kombudeva::History;

    /// A bit of a held hash flips in memory: 8, which no neighbour can bring about. All is judged anew, and no lie is seen in it.
    #[test]
    fn bad_memory_is_begun_afresh() {
        let (model, bytes) = (Model::new(1), vec![37; 50_000]);
        let mut history = History::begin(65536, &mut []).unwrap();
        history.more(&bytes).unwrap();
        let facts = Facts { length: 50_000, piece_length: 65536, root: history.end().unwrap().root };
        let (place, save) = (Place::Inside("file".into()), Some(PathBuf::from("save")));
        let (mut held, _) = Held::begin(&model, facts, &[], "file".into(), place, save).unwrap();
        while held.judge_next(&model) {}
        assert!(matches!(held.piece_came(&model, 0, &bytes), Came::Taken(Some(0))));
        held.checkpoint(&model).unwrap();
        let request = [&[HASH_REQUEST][..], &facts.root, &[0, 0, 4, 0].map(u32::to_be_bytes).concat()].concat();
        let mut out = [0; 49 + 4 * 32];
        let reply = held.serve(&request, &mut out).reply.to_vec();
        assert_eq!(held.take(&reply), Ok(0));

        // docs/LAYOUT.md: four leaves, the first is position 4.
        let mut memory = held.store.bytes().to_vec();
        memory[64 + 33 * 3 + 1] ^= 1;
        held.store = Store::over(memory);
        assert_eq!(held.take(&reply), Err(Refusal::Conflict));
        held.begin_afresh(&model).unwrap();
        assert_eq!(held.marked(), 0, "marks are claims again");
        while held.judge_next(&model) {}
        assert!(held.is_whole());
        assert_eq!((held.take(&reply), held.damaged), (Ok(0), 0));
    }
}
