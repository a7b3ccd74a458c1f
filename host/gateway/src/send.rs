//! The thread of a connection that sends: what is queued is read, judged and framed when its turn comes.

use crate::gate::Gate;
use crate::limits::Bucket;
use crate::line::{Line, Out};
use crate::torrent::Torrent;
use crate::wire::{is_late, Part};
use kombudeva::ids::PIECE;
use kombudeva::limits::{BLOCK, LARGEST_REPLY};
use kombudeva::{frame, Store};
use std::io::Write;
use std::sync::atomic::Ordering::Relaxed;
use std::thread;
use std::time::{Duration, Instant};

const KEEP_ALIVE: Duration = Duration::from_secs(60);
/// How soon a wait sees that the line is closed.
const LOOK: Duration = Duration::from_millis(250);

/// Sends what is queued till the line is closed.
pub fn all(gate: &Gate, torrent: &Torrent, line: &Line) {
    let a_second = gate.config.limits.hashes as f64;
    let mut hashes = Bucket::new(a_second.max(LARGEST_REPLY as f64), a_second, Instant::now());
    while let Some(out) = line.next(KEEP_ALIVE) {
        let message = match out {
            Out::KeepAlive => Vec::new(),
            Out::Message(message) => message,
            Out::Block(part) => match block(gate, torrent, part) {
                Some(message) => message,
                None => continue,
            },
            Out::Hashes(request) => {
                let message = reply(torrent, &request);
                line.tally.hashes_served.fetch_add(message.len() as u64, Relaxed);
                wait(line, hashes.spend(message.len() as f64, Instant::now()));
                message
            }
        };
        let served = if message.first() == Some(&PIECE) { message.len() as u64 - 9 } else { 0 };
        let mut framed = vec![0; message.len() + 4];
        let Ok(framed) = frame(&message, &mut framed) else { continue };
        if let Err(error) = line.link().write_all(framed) {
            return line.close(if is_late(&error) { "too slow to send to" } else { "the link broke" });
        }
        line.tally.served.fetch_add(served, Relaxed);
    }
}

/// Waits, but no longer than the line is open.
fn wait(line: &Line, time: Duration) {
    let until = Instant::now() + time;
    while Instant::now() < until && !line.is_closed() {
        thread::sleep(LOOK.min(until.saturating_duration_since(Instant::now())));
    }
}

/// The library's answer to a request for hashes: a reply, or a reject. A root that no file has is answered by any store.
fn reply(torrent: &Torrent, request: &[u8]) -> Vec<u8> {
    let mut out = vec![0; LARGEST_REPLY];
    let held = torrent.of_root(&request[1..33]).next().or_else(|| torrent.all_held().next().map(|(_, held)| held));
    match held {
        Some(held) => held.lock().unwrap().serve(request, &mut out).reply.to_vec(),
        None => Vec::new(),
    }
}

/// A block as it lies on disk now, judged once more before it goes out.
fn block(gate: &Gate, torrent: &Torrent, part: Part) -> Option<Vec<u8>> {
    let (file, block, from) = torrent.block(part)?;
    let (data, size, leaf) = {
        let mut held = torrent.held(file).lock().unwrap();
        if !held.is_marked(block) {
            return None;
        }
        (held.data(&*gate.disk, false), held.part(block).1, held.leaf(block)?)
    };
    let mut bytes = vec![0; size as usize];
    let read = data.and_then(|data| data.read(block * BLOCK, &mut bytes));
    // A store of one block whose root is the leaf that is held: no lock is needed while it is hashed.
    let judged = Store::open([0; 98], size, BLOCK, leaf).and_then(|mut store| store.judge_block(0, &bytes));
    if read.is_err() || judged.is_err() {
        torrent.held(file).lock().unwrap().lost(block);
        torrent.renew("a block was found damaged");
        return None;
    }
    // Of a file's last block some clients ask for 16384 bytes: behind its end the wire has zeros.
    bytes.resize((from + part.size as usize).max(bytes.len()), 0);
    Some(part.reply(&bytes[from..from + part.size as usize]))
}
