//! The clock: torrents that come and go in the folder, what lies on disk judged, stores saved, blocks judged again.

use crate::gate::Gate;
use crate::say;
use crate::torrent::{Source, Torrent};
use kombudeva::limits::LARGEST_TORRENT;
use kombudeva::Hash;
use std::collections::btree_map::{BTreeMap, Entry};
use std::path::Path;
use std::sync::Arc;
use std::time::{Duration, Instant, SystemTime};
use std::{fs, io, thread};

const SCAN: Duration = Duration::from_secs(5);
/// Pieces of one file that are judged again in a row.
const MOST_SCRUBBED: u32 = 64;

/// A torrent's file as it was when last looked at: while it does not change it is not read again.
#[derive(Clone, Copy, PartialEq, Eq)]
struct Seen {
    modified: Option<SystemTime>,
    length: u64,
}

/// The torrents of the folder: as what each was seen, and its info hash unless it was refused.
#[derive(Default)]
pub struct Scanned {
    known: BTreeMap<String, (Seen, Option<Hash>)>,
}

/// Looks after the folder and the saves, for ever.
pub fn run(gate: &Arc<Gate>) {
    let (mut scanned, mut due) = (Scanned::default(), Instant::now());
    loop {
        if Instant::now() >= due {
            if let Err(error) = scanned.scan(gate) {
                say!("no_folder", why = error);
            }
            due = Instant::now() + SCAN;
        }
        checkpoint(gate);
        thread::sleep(Duration::from_millis(250));
    }
}

impl Scanned {
    pub fn scan(&mut self, gate: &Gate) -> io::Result<()> {
        let there = torrents_in(&gate.config.folder.join("torrents"))?;
        // Those that are gone, or others now.
        let stays = |name: &String, seen: &Seen| there.get(name) == Some(seen);
        let gone: Vec<String> =
            self.known.iter().filter(|(name, (seen, _))| !stays(name, seen)).map(|(name, _)| name.clone()).collect();
        for name in gone {
            gate.refused.lock().unwrap().remove(&name);
            let info_hash = self.known.remove(&name).and_then(|(_, info_hash)| info_hash);
            // It may stand there under another name too.
            let elsewhere = self.known.values().any(|(_, other)| other.is_some() && *other == info_hash);
            info_hash.filter(|_| !elsewhere).inspect(|info_hash| gate.remove(info_hash));
        }
        for (name, seen) in there {
            if let Entry::Vacant(new) = self.known.entry(name) {
                let info_hash = add(gate, new.key());
                new.insert((seen, info_hash));
            }
        }
        Ok(())
    }
}

fn torrents_in(folder: &Path) -> io::Result<BTreeMap<String, Seen>> {
    let mut there = BTreeMap::new();
    for entry in fs::read_dir(folder)? {
        let entry = entry?;
        let name = entry.file_name().to_string_lossy().into_owned();
        if name.ends_with(".torrent") && !name.starts_with('.') && entry.file_type()?.is_file() {
            let facts = entry.metadata()?;
            there.insert(name, Seen { modified: facts.modified().ok(), length: facts.len() });
        }
    }
    Ok(there)
}

/// Keeps a torrent of the folder, or tells why not.
fn add(gate: &Gate, name: &str) -> Option<Hash> {
    let bytes = gate.disk.get(&Path::new("torrents").join(name), LARGEST_TORRENT).map_err(|error| error.to_string());
    let added =
        bytes.and_then(|bytes| gate.add(bytes, Source::Folder(name.into())).map_err(|refused| refused.to_string()));
    if let Err(why) = &added {
        say!("torrent_refused", torrent = name, why = why);
        gate.refused.lock().unwrap().insert(name.into(), why.clone());
    }
    added.ok()
}

/// Saves each store that is due. The long sync goes first and without the lock; the one under the lock has little left to do.
fn checkpoint(gate: &Gate) {
    let (now, every) = (Instant::now(), Duration::from_secs(gate.config.limits.checkpoint));
    for torrent in gate.torrents() {
        for (_, held) in torrent.all_held() {
            let data = {
                let mut held = held.lock().unwrap();
                held.close_if_idle(now);
                if !held.is_due(now, every) {
                    continue;
                }
                held.data(&*gate.disk, false).ok()
            };
            let _ = data.map(|data| data.sync());
            let mut held = held.lock().unwrap();
            match held.checkpoint(&*gate.disk) {
                Ok(()) => (),
                Err(error) => {
                    held.pause(&error, now);
                    say!("not_saved", torrent = torrent.name, file = held.name, why = error);
                }
            }
        }
    }
}

/// Judges what lay on disk at the start, then goes on judging marked pieces again, for ever.
pub fn judge(gate: &Arc<Gate>) {
    let mut credits: BTreeMap<(Hash, usize), f64> = BTreeMap::new();
    let mut last = Instant::now();
    loop {
        let since = last.elapsed().as_secs_f64();
        last = Instant::now();
        let torrents = gate.torrents();
        credits.retain(|(info_hash, _), _| torrents.iter().any(|torrent| torrent.info_hash == *info_hash));
        for torrent in &torrents {
            judge_start(gate, torrent);
            for (number, file) in torrent.files.iter().enumerate() {
                let Some(held) = &file.held else { continue };
                let pieces = file.length.div_ceil(torrent.piece_length) as f64;
                let credit = credits.entry((torrent.info_hash, number)).or_default();
                *credit = (*credit + since * pieces / gate.config.limits.scrub as f64).min(pieces);
                for _ in 0..MOST_SCRUBBED {
                    if *credit < 1.0 {
                        break;
                    }
                    *credit -= 1.0;
                    if !held.lock().unwrap().scrub_next(&*gate.disk) {
                        torrent.renew("a block was found damaged");
                    }
                }
            }
        }
        thread::sleep(Duration::from_millis(200));
    }
}

/// All of what lay on disk, a piece at a time, so that neighbours are served in between.
fn judge_start(gate: &Gate, torrent: &Torrent) {
    for (number, file) in torrent.files.iter().enumerate() {
        let Some(held) = &file.held else { continue };
        if !held.lock().unwrap().is_judging() {
            continue;
        }
        for piece in 0.. {
            let (whole, more) = {
                let mut held = held.lock().unwrap();
                let more = held.judge_next(&*gate.disk);
                (held.is_whole_piece(piece), more)
            };
            if whole {
                torrent.announce(number, piece);
            }
            if !more {
                break;
            }
        }
        let mut held = held.lock().unwrap();
        let (marked, blocks) = (held.marked(), held.blocks());
        say!("judged", torrent = torrent.name, file = held.name, believed = marked, blocks = blocks);
    }
}
