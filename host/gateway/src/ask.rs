//! What a neighbour is asked for: leaves first, so that each block is judged alone and a liar is known by its own block; then data.

use crate::held::{Asked, Held};
use crate::peer::{Assembly, Peer, Wanted};
use crate::wire::Part;
use kombudeva::limits::BLOCK;
use std::time::{Duration, Instant};

/// Blocks on their way over one connection; a gateway takes 64 requests at a time.
const PIPELINE: usize = 48;
/// Requests given up that may still be answered, and headers of hash requests, remembered.
const MOST_LATE: usize = 256;
/// When one that had no leaves is asked again.
const LEAVES_AGAIN: Duration = Duration::from_secs(10);
/// When one that had nothing to fetch is looked at again.
const LOOK_AGAIN: Duration = Duration::from_millis(250);

impl Peer {
    fn time_out(&self) -> Duration {
        Duration::from_secs(self.gate.config.limits.patience)
    }

    /// Asks for leaves, one request a file at a time, of this neighbour or another.
    pub(crate) fn ask_hashes(&mut self, now: Instant) {
        let time_out = self.time_out();
        for (file, held) in self.torrent.all_held() {
            let of_file = file.first_piece as usize..;
            let mut held = held.lock().unwrap();
            let has_some = self.has[of_file][..held.pieces() as usize].contains(&true);
            if !has_some || held.is_judging() {
                continue;
            }
            if let Some(late) = held.asked.take_if(|asked| now.duration_since(asked.since) >= time_out) {
                held.without_leaves.insert(late.to, now);
            }
            let had_none = held.without_leaves.get(&self.line.id);
            if held.asked.is_some() || had_none.is_some_and(|since| now.duration_since(*since) < LEAVES_AGAIN) {
                continue;
            }
            let Some(request) = held.next_request() else { continue };
            held.asked = Some(Asked { to: self.line.id, message: request.message, since: now });
            if self.hashes_wanted.len() >= MOST_LATE {
                self.hashes_wanted.pop_front();
            }
            self.hashes_wanted.push_back(request.message[1..].try_into().expect("48 bytes"));
            self.line.send(request.message.to_vec());
        }
    }

    /// Keeps the pipeline full.
    pub(crate) fn ask_data(&mut self, now: Instant) {
        while !self.chokes && self.wanted.len() < PIPELINE {
            let Some((file, block)) = self.next_block(now) else { return };
            let at = block * BLOCK;
            let piece = at / self.torrent.piece_length;
            let size = BLOCK.min(self.torrent.files[file].length - at);
            let wire = (self.torrent.files[file].first_piece + piece) as u32;
            let part = Part { piece: wire, begin: (at - piece * self.torrent.piece_length) as u32, size: size as u32 };
            self.wanted.insert(part, Wanted { file, block, since: now });
            self.line.send(part.request());
        }
    }

    fn next_block(&mut self, now: Instant) -> Option<(usize, u64)> {
        if self.next.is_empty() && now >= self.not_before && !self.pick(now) {
            self.not_before = now + LOOK_AGAIN;
        }
        self.next.pop_front()
    }

    /// Picks a piece of the file last picked from, or of the next that has one to be fetched here.
    fn pick(&mut self, now: Instant) -> bool {
        for step in 0..self.torrent.files.len() {
            let file = (self.file + step) % self.torrent.files.len();
            if self.torrent.files[file].held.is_some() && self.pick_of(file, now) {
                self.file = file;
                return true;
            }
        }
        false
    }

    fn pick_of(&mut self, file: usize, now: Instant) -> bool {
        let torrent = self.torrent.clone();
        let first = torrent.files[file].first_piece;
        loop {
            let mut held = torrent.held(file).lock().unwrap();
            if held.is_judging() || held.is_paused(now) || held.is_whole() {
                return false;
            }
            let may =
                |held: &Held, piece: u64| self.has[(first + piece) as usize] && !held.in_flight.contains_key(&piece);
            let picked = held.pick(|piece| may(&held, piece) && held.is_leafed(piece));
            let Some(piece) = picked.or_else(|| self.pick_without_leaves(&held, |piece| may(&held, piece))) else {
                return false;
            };
            // What lies there already is judged and not fetched.
            held.judge_on_disk(&*self.gate.disk, piece);
            if held.is_whole_piece(piece) {
                drop(held);
                torrent.announce(file, piece);
                continue;
            }
            let mut blocks: Vec<u64> = held.blocks_of(piece).filter(|block| !held.is_marked(*block)).collect();
            if !held.is_leafed(piece) {
                let (_, size) = held.piece_part(piece);
                let Some(room) = self.gate.room(size as usize) else { return false };
                blocks = held.blocks_of(piece).collect();
                let (bytes, missing) = (vec![0; size as usize], blocks.iter().copied().collect());
                self.assembly = Some(Assembly { file, piece, bytes, missing, _room: room });
            }
            held.in_flight.insert(piece, self.line.id);
            self.pieces.push((file, piece));
            self.next.extend(blocks.into_iter().map(|block| (file, block)));
            return true;
        }
    }

    /// A whole piece at a time of a neighbour that has no leaves, while nobody else is asked for them.
    fn pick_without_leaves(&self, held: &Held, may: impl Fn(u64) -> bool) -> Option<u64> {
        let without = held.without_leaves.contains_key(&self.line.id) && held.asked.is_none();
        (without && self.assembly.is_none()).then(|| held.pick(may)).flatten()
    }

    /// Blocks that did not come in time go back, and others are asked for them: this one after a longer and longer while.
    pub(crate) fn give_up(&mut self, now: Instant) {
        let time_out = self.time_out();
        if self.wanted.values().any(|wanted| now.duration_since(wanted.since) >= time_out) {
            self.release();
            self.not_before = now + time_out / 4 * (1 << self.too_late.min(6));
            self.too_late += 1;
        }
    }

    /// Nothing is on its way over this connection any more. What comes all the same is no lie.
    pub(crate) fn release(&mut self) {
        for (part, _) in self.wanted.drain() {
            self.late.push_back(part);
        }
        while self.late.len() > MOST_LATE {
            self.late.pop_front();
        }
        self.next.clear();
        self.assembly = None;
        for (file, piece) in self.pieces.drain(..) {
            self.torrent.held(file).lock().unwrap().in_flight.remove(&piece);
        }
    }
}
