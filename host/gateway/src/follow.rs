//! Histories of other gateways that grow: the owner's status port says which version is the newest, and it is accepted only if the
//! library says that it begins with the one accepted before.

use crate::config;
use crate::gate::Gate;
use crate::grown::{judge, Not, Version};
use crate::torrent::{data_path, Source};
use crate::{http, probe, say};
use kombudeva::limits::LARGEST_TORRENT;
use kombudeva::Hash;
use readable::hex;
use std::collections::VecDeque;
use std::io::ErrorKind;
use std::path::{Path, PathBuf};
use std::sync::Arc;
use std::thread;
use std::time::{Duration, Instant};

fn accepted(name: &str) -> PathBuf {
    Path::new("follow").join(format!("{name}.torrent"))
}

/// Versions whose data and stores are still on disk, a line each.
fn versions(name: &str) -> PathBuf {
    Path::new("follow").join(format!("{name}.versions"))
}

fn refused(name: &str) -> PathBuf {
    Path::new("refused").join(format!("{name}.torrent"))
}

pub struct Followed {
    config: config::Follow,
    versions: VecDeque<Hash>,
    /// The version last refused, so that it is not judged again and again.
    refused: Option<Vec<u8>>,
    /// Why the version accepted last can't be read. Then no other is accepted: nobody could say whether it begins with that one.
    lost: Option<String>,
}

/// Follows all of them, for ever.
pub fn run(gate: &Arc<Gate>) {
    let mut all: Vec<(Followed, Instant)> =
        gate.config.follow.iter().map(|config| (Followed::new(gate, config.clone()), Instant::now())).collect();
    loop {
        for (one, due) in &mut all {
            if Instant::now() >= *due {
                one.look(gate);
                *due = Instant::now() + Duration::from_secs(one.config.every);
            }
        }
        thread::sleep(Duration::from_millis(200));
    }
}

impl Followed {
    /// Goes on from the version that was accepted last.
    pub fn new(gate: &Gate, config: config::Follow) -> Followed {
        let mut followed = Followed { config, versions: VecDeque::new(), refused: None, lost: None };
        match gate.disk.get(&accepted(&followed.config.name), LARGEST_TORRENT) {
            Ok(bytes) => match Version::read(&bytes) {
                Ok(newest) => {
                    followed.forget_others(gate, &newest.info_hash);
                    followed.keep(gate, bytes);
                }
                Err(refusal) => followed.lost = Some(refusal.to_string()),
            },
            Err(error) if error.kind() == ErrorKind::NotFound => (),
            Err(error) => followed.lost = Some(error.to_string()),
        }
        followed
    }

    fn look(&mut self, gate: &Gate) {
        let name = self.config.name.clone();
        if let Some(why) = &self.lost {
            return gate.note(&name, format!("not followed, {} is damaged: {why}", accepted(&name).display()));
        }
        let path = format!("/torrents/{name}");
        match http::get(gate.config.listen, self.config.from, &path, LARGEST_TORRENT) {
            Ok(bytes) => self.hear(gate, bytes),
            Err(error) => gate.note(&name, format!("{} does not say what is new: {error}", self.config.from)),
        }
    }

    /// A version that the owner says is the newest.
    pub fn hear(&mut self, gate: &Gate, bytes: Vec<u8>) {
        let name = self.config.name.clone();
        let newest = gate.newest.lock().unwrap().get(&name).cloned();
        if newest.as_ref() == Some(&bytes) {
            gate.note(&name, "the newest version is followed");
            return;
        }
        if self.refused.as_ref() == Some(&bytes) {
            return;
        }
        let new = match Version::read(&bytes) {
            Ok(new) => new,
            Err(refusal) => {
                gate.note(&name, format!("what the owner gives is no torrent: {refusal}"));
                self.refused = Some(bytes);
                return;
            }
        };
        if let Some(old) = newest {
            let Ok(old) = Version::read(&old) else { return };
            let answer = judge(&old, &new, |file, store, need| probe::ask(gate, &new.info_hash, file, store, need));
            match answer {
                Ok(()) => self.link(gate, &old, &new),
                Err(Not::Known(why)) => return gate.note(&name, format!("a new version can't be judged yet: {why}")),
                Err(Not::Grown(why)) => {
                    gate.note(&name, format!("history got younger, refused: {why}"));
                    let _ = gate.disk.put(&refused(&name), &bytes);
                    self.refused = Some(bytes);
                    return;
                }
            }
        }
        if let Err(error) = gate.disk.put(&accepted(&name), &bytes) {
            return gate.note(&name, format!("a new version can't be kept: {error}"));
        }
        say!("accepted", name = name, info_hash = hex(&new.info_hash));
        self.keep(gate, bytes);
        gate.note(&name, "the newest version is followed");
    }

    /// Blocks that are here already are the new version's too: both have one file. Each is judged against the new tree.
    fn link(&self, gate: &Gate, old: &Version, new: &Version) {
        for file in &new.files {
            if old.files.iter().any(|before| before.path == file.path) {
                let (from, to) = (data_path(&old.info_hash, &file.path), data_path(&new.info_hash, &file.path));
                // One that is not there is fetched.
                let _ = gate.disk.link(&from, &to);
            }
        }
    }

    /// What was left of versions before the newest in an earlier run. Their bytes are the newest one's too.
    fn forget_others(&self, gate: &Gate, newest: &Hash) {
        let listed = gate.disk.get(&versions(&self.config.name), 1 << 16).unwrap_or_default();
        for line in String::from_utf8_lossy(&listed).lines() {
            let is_hash = line.len() == 64 && line.bytes().all(|byte| byte.is_ascii_hexdigit());
            if is_hash && line != hex(newest) {
                forget(gate, line);
            }
        }
    }

    fn keep(&mut self, gate: &Gate, bytes: Vec<u8>) {
        let name = self.config.name.clone();
        match gate.add(bytes.clone(), Source::Followed(name.clone())) {
            Ok(info_hash) => self.versions.push_back(info_hash),
            Err(refused) => drop(gate.refused.lock().unwrap().insert(name.clone(), refused.to_string())),
        }
        gate.newest.lock().unwrap().insert(name, bytes);
        while self.versions.len() > gate.config.limits.versions {
            if let Some(old) = self.versions.pop_front() {
                gate.remove(&old);
                forget(gate, &hex(&old));
            }
        }
        let listed: String = self.versions.iter().map(|version| hex(version) + "\n").collect();
        let _ = gate.disk.put(&versions(&self.config.name), listed.as_bytes());
    }
}

fn forget(gate: &Gate, version: &str) {
    for folder in ["data", "stores"] {
        let _ = gate.disk.forget(&Path::new(folder).join(version));
    }
}
