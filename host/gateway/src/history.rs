//! Histories that this gateway's own logger writes: read as they grow, hashed as they are read, and published as torrents.

use crate::config;
use crate::gate::Gate;
use crate::grown::{judge, Not, Version};
use crate::leaves;
use crate::say;
use crate::torrent::{below, Source};
use kombudeva::limits::{BLOCK, HASH, LARGEST_TORRENT};
use kombudeva::{Hash, History, Refusal, TorrentBuilder};
use readable::{count, hex, in_status, size};
use std::collections::{BTreeMap, VecDeque};
use std::fs::{self, File};
use std::io::{self, Read, Seek, SeekFrom};
use std::os::unix::ffi::OsStrExt;
use std::os::unix::fs::FileExt;
use std::path::{Path, PathBuf};
use std::sync::Arc;
use std::thread;
use std::time::{Duration, Instant};

/// Bytes of one burst.
const BURST: usize = 1 << 20;
/// Files of one history.
const MOST_FILES: usize = 4096;

type Elements = Vec<Vec<u8>>;

/// A file of the logger as far as it has been read: the library's running state, and the piece layer so far.
struct Running {
    kept: Vec<u8>,
    layer: Vec<u8>,
    length: u64,
}

/// Why a version was not published.
enum Unpublished {
    Read(io::Error),
    Refused(Refusal),
    Younger(String),
}

impl From<io::Error> for Unpublished {
    fn from(error: io::Error) -> Unpublished {
        Unpublished::Read(error)
    }
}

impl From<Refusal> for Unpublished {
    fn from(refusal: Refusal) -> Unpublished {
        Unpublished::Refused(refusal)
    }
}

pub struct Own {
    config: config::History,
    files: BTreeMap<Elements, Running>,
    versions: VecDeque<Hash>,
}

/// Publishes what the loggers write, for ever.
pub fn run(gate: &Arc<Gate>) {
    let mut owned: Vec<(Own, Instant)> =
        gate.config.history.iter().map(|config| (Own::new(config.clone()), Instant::now())).collect();
    loop {
        for (own, due) in &mut owned {
            if Instant::now() >= *due {
                own.publish(gate);
                *due = Instant::now() + Duration::from_secs(own.config.every);
            }
        }
        thread::sleep(Duration::from_millis(200));
    }
}

fn published(name: &str) -> PathBuf {
    Path::new("published").join(format!("{name}.torrent"))
}

impl Own {
    pub fn new(config: config::History) -> Own {
        Own { config, files: BTreeMap::new(), versions: VecDeque::new() }
    }

    /// Reads what is new and publishes a version of it, unless it is no history that grew.
    pub fn publish(&mut self, gate: &Gate) {
        let name = self.config.name.clone();
        match self.version(gate) {
            Ok(Some(files)) => {
                gate.note(&name, format!("published, {} in {}", size(self.length()), count(files as u64, "file")));
            }
            Ok(None) => (),
            Err(Unpublished::Younger(why)) => gate.note(&name, format!("not published, it got younger: {why}")),
            Err(Unpublished::Read(error)) => {
                gate.note(&name, format!("not published, the logger's files can't be read: {error}"))
            }
            Err(Unpublished::Refused(refusal)) => gate.note(&name, format!("not published: {refusal}")),
        }
    }

    fn length(&self) -> u64 {
        self.files.values().map(|file| file.length).sum()
    }

    /// The number of files of a version that is new.
    fn version(&mut self, gate: &Gate) -> Result<Option<usize>, Unpublished> {
        let paths = files(&self.config.path)?;
        if let Some(gone) = self.files.keys().find(|path| !paths.contains(path)) {
            return Err(Unpublished::Younger(format!("{} is gone", in_status(&gone.join(&b"/"[..])))));
        }
        let mut builder = TorrentBuilder::new(self.config.piece_length, self.config.name.as_bytes());
        for path in &paths {
            let running = self.files.entry(path.clone()).or_insert_with(|| Running::new(self.config.piece_length));
            running.read_on(&place(&self.config.path, path))?;
            let mut layer = running.layer.clone();
            let mut history = History::taken_up(&running.kept, &mut layer).ok_or(Refusal::Unusable)?;
            builder.add_logged(path, &history.end()?);
        }
        if paths.is_empty() {
            return Ok(None);
        }
        let bytes = builder.write()?;
        let name = &self.config.name;
        let last = match gate.newest.lock().unwrap().get(name) {
            Some(last) => Some(last.clone()),
            None => gate.disk.get(&published(name), LARGEST_TORRENT).ok(),
        };
        if let Some(last) = &last {
            if *last != bytes {
                self.went_on(last, &bytes)?;
            }
        }
        let known = self.versions.back().copied();
        let info_hash = kombudeva::Torrent::read(&bytes)?.info_hash;
        if known == Some(info_hash) {
            return Ok(None);
        }
        if last.as_ref() != Some(&bytes) {
            gate.disk.put(&published(name), &bytes)?;
        }
        gate.newest.lock().unwrap().insert(name.clone(), bytes.clone());
        if let Err(refused) = gate.add(bytes, Source::Own(name.clone(), self.config.path.clone())) {
            gate.refused.lock().unwrap().insert(name.clone(), refused.to_string());
        }
        say!("published", name = name, info_hash = hex(&info_hash), bytes = self.length());
        self.versions.push_back(info_hash);
        while self.versions.len() > gate.config.limits.versions {
            self.versions.pop_front().inspect(|old| gate.remove(old));
        }
        Ok(Some(paths.len()))
    }

    /// Whether the version last published goes on in this one, by the bytes of the logger's files.
    fn went_on(&self, last: &[u8], bytes: &[u8]) -> Result<(), Unpublished> {
        let (old, new) = (Version::read(last)?, Version::read(bytes)?);
        let answer = judge(&old, &new, |file, store, need| {
            let at = need.piece * file.facts.piece_length;
            let mut data = vec![0; file.facts.piece_length.min(file.facts.length - at) as usize];
            let path = place(&self.config.path, &file.path);
            File::open(path).and_then(|file| file.read_exact_at(&mut data, at)).map_err(|error| error.to_string())?;
            leaves::learn(store, need.piece, &data).map_err(|refusal| refusal.to_string())?;
            Ok(need.block.map_or(Vec::new(), |block| {
                let from = (block * BLOCK - at) as usize;
                data[from..data.len().min(from + BLOCK as usize)].to_vec()
            }))
        });
        answer.map_err(|not| match not {
            Not::Grown(why) => Unpublished::Younger(why),
            Not::Known(why) => Unpublished::Read(io::Error::other(why)),
        })
    }
}

impl Running {
    fn new(piece_length: u64) -> Running {
        let kept = History::begin(piece_length, &mut []).map(|history| history.kept()).unwrap_or_default();
        Running { kept, layer: Vec::new(), length: 0 }
    }

    /// Reads what the logger has appended since.
    fn read_on(&mut self, path: &Path) -> Result<(), Unpublished> {
        let mut file = File::open(path)?;
        let now = file.metadata()?.len();
        if now < self.length {
            return Err(Unpublished::Younger(format!("{}: {} bytes, and {now} now", path.display(), self.length)));
        }
        file.seek(SeekFrom::Start(self.length))?;
        let mut burst = vec![0; BURST.min((now - self.length) as usize)];
        while self.length < now {
            let most = burst.len().min((now - self.length) as usize);
            let size = file.read(&mut burst[..most])?;
            if size == 0 {
                break;
            }
            // Room for the hash of each piece that the burst ends, and of the last one.
            let pieces = (self.length + size as u64) / BLOCK + 1;
            let layer = HASH * pieces as usize;
            if self.layer.len() < layer {
                self.layer.resize(layer.next_power_of_two(), 0);
            }
            let mut history = History::taken_up(&self.kept, &mut self.layer).ok_or(Refusal::Unusable)?;
            history.more(&burst[..size])?;
            self.kept = history.kept();
            self.length += size as u64;
        }
        Ok(())
    }
}

/// Where a file of the history is: below the folder, or the one file that the history is.
fn place(path: &Path, elements: &[Vec<u8>]) -> PathBuf {
    if path.is_dir() {
        below(path, elements)
    } else {
        path.to_path_buf()
    }
}

/// The files of a history: regular ones, whose names and folders' names do not begin with a dot; no link is followed.
fn files(path: &Path) -> io::Result<Vec<Elements>> {
    if !path.is_dir() {
        let name = path.file_name().unwrap_or_default().as_bytes().to_vec();
        return fs::metadata(path).map(|_| vec![vec![name]]);
    }
    let (mut found, mut folders) = (Vec::new(), vec![(path.to_path_buf(), Elements::new())]);
    while let Some((folder, elements)) = folders.pop() {
        for entry in fs::read_dir(folder)? {
            let entry = entry?;
            let (kind, name) = (entry.file_type()?, entry.file_name().as_bytes().to_vec());
            if name.starts_with(b".") {
                continue;
            }
            let elements: Elements = elements.iter().cloned().chain([name]).collect();
            if kind.is_dir() {
                folders.push((entry.path(), elements));
            } else if kind.is_file() {
                found.push(elements);
            }
        }
        if found.len() > MOST_FILES {
            return Err(io::Error::other(format!("more than {MOST_FILES} files")));
        }
    }
    found.sort();
    Ok(found)
}
