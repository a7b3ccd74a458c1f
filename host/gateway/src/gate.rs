//! What the threads of a gateway share.

use crate::config::Config;
use crate::disk::Disk;
use crate::limits::Bans;
use crate::line::Tally;
use crate::say;
use crate::torrent::{Refused, Source, Torrent};
use kombudeva::Hash;
use readable::hex;
use std::collections::BTreeMap;
use std::net::IpAddr;
use std::sync::atomic::{AtomicU64, AtomicUsize, Ordering::Relaxed};
use std::sync::{Arc, Mutex, RwLock};
use std::time::{Duration, Instant};

pub struct Gate {
    pub config: Config,
    pub disk: Arc<dyn Disk>,
    pub peer_id: [u8; 20],
    pub started: Instant,
    torrents: RwLock<BTreeMap<Hash, Arc<Torrent>>>,
    /// Torrents that were refused, by the name of their file or history, and why.
    pub refused: Mutex<BTreeMap<String, String>>,
    /// The newest torrent of each history, our own and those that are followed, as the status port gives it.
    pub newest: Mutex<BTreeMap<String, Vec<u8>>>,
    /// What stands on the page about each history of our own and each that is followed.
    pub notes: Mutex<BTreeMap<String, String>>,
    pub bans: Mutex<Bans>,
    tallies: Mutex<BTreeMap<IpAddr, Arc<Tally>>>,
    /// Connections that are there or being made, by address.
    open: Mutex<BTreeMap<IpAddr, usize>>,
    next_id: AtomicU64,
    /// Bytes of pieces being put together.
    assembling: AtomicUsize,
}

/// Addresses whose doings are remembered.
const MOST_TALLIES: usize = 256;

/// A connection's place among those that are allowed; given back when it is dropped.
pub struct Seat {
    gate: Arc<Gate>,
    address: IpAddr,
}

impl Drop for Seat {
    fn drop(&mut self) {
        let mut open = self.gate.open.lock().unwrap();
        match open.get_mut(&self.address) {
            Some(count) if *count > 1 => *count -= 1,
            _ => drop(open.remove(&self.address)),
        }
    }
}

/// Memory for a piece that is put together; given back when it is dropped.
pub struct Room {
    gate: Arc<Gate>,
    size: usize,
}

impl Drop for Room {
    fn drop(&mut self) {
        self.gate.assembling.fetch_sub(self.size, Relaxed);
    }
}

impl Gate {
    pub fn new(config: Config, disk: Arc<dyn Disk>) -> Arc<Gate> {
        let salt = format!("{:?} {} {}", std::time::SystemTime::now(), std::process::id(), config.listen);
        let salt = hex(&kombudeva::sha256(salt.as_bytes()).unwrap_or_default());
        let peer_id = format!("-KD0014-{}", &salt[..12]).into_bytes().try_into().expect("20 letters");
        Arc::new(Gate {
            config,
            disk,
            peer_id,
            started: Instant::now(),
            torrents: RwLock::default(),
            refused: Mutex::default(),
            newest: Mutex::default(),
            notes: Mutex::default(),
            bans: Mutex::default(),
            tallies: Mutex::default(),
            open: Mutex::default(),
            next_id: AtomicU64::new(1),
            assembling: AtomicUsize::new(0),
        })
    }

    pub fn next_id(&self) -> u64 {
        self.next_id.fetch_add(1, Relaxed)
    }

    pub fn torrents(&self) -> Vec<Arc<Torrent>> {
        self.torrents.read().unwrap().values().cloned().collect()
    }

    pub fn torrent(&self, info_hash: &Hash) -> Option<Arc<Torrent>> {
        self.torrents.read().unwrap().get(info_hash).cloned()
    }

    /// The torrent that a handshake names by 20 bytes.
    pub fn torrent_of(&self, front: &[u8; 20]) -> Option<Arc<Torrent>> {
        self.torrents.read().unwrap().values().find(|torrent| torrent.info_hash.starts_with(front)).cloned()
    }

    /// Begins to keep a torrent. One that is kept stays as it is.
    pub fn add(&self, bytes: Vec<u8>, source: Source) -> Result<Hash, Refused> {
        let read = kombudeva::Torrent::read(&bytes)?;
        let info_hash = read.info_hash;
        if self.torrent(&info_hash).is_some() {
            return Ok(info_hash);
        }
        let taken: usize = self.torrents().iter().map(|torrent| torrent.memory).sum();
        let torrent = Torrent::begin(&*self.disk, bytes, source, self.config.limits.stores.saturating_sub(taken))?;
        say!("kept", torrent = torrent.name, info_hash = hex(&info_hash), files = torrent.files.len());
        self.torrents.write().unwrap().insert(info_hash, Arc::new(torrent));
        Ok(info_hash)
    }

    /// Keeps a torrent no longer. What is on disk stays there.
    pub fn remove(&self, info_hash: &Hash) {
        if let Some(torrent) = self.torrents.write().unwrap().remove(info_hash) {
            say!("no_longer_kept", torrent = torrent.name, info_hash = hex(info_hash));
            torrent.renew("the torrent is no longer kept");
        }
    }

    /// A place for a connection of this address, unless it has too many, or all have.
    pub fn seat(self: &Arc<Gate>, address: IpAddr) -> Option<Seat> {
        let limits = &self.config.limits;
        let mut open = self.open.lock().unwrap();
        let all: usize = open.values().sum();
        let of_address = open.entry(address).or_default();
        if all >= limits.connections || *of_address >= limits.per_address {
            open.retain(|_, count| *count > 0);
            return None;
        }
        *of_address += 1;
        Some(Seat { gate: self.clone(), address })
    }

    pub fn connections(&self) -> usize {
        self.open.lock().unwrap().values().sum()
    }

    pub fn room(self: &Arc<Gate>, size: usize) -> Option<Room> {
        let before = self.assembling.fetch_add(size, Relaxed);
        let room = Room { gate: self.clone(), size };
        (before + size <= self.config.limits.assembling).then_some(room)
    }

    pub fn ban(&self, address: IpAddr, why: &'static str) {
        let first = Duration::from_secs(self.config.limits.ban);
        let length = self.bans.lock().unwrap().ban(address, first, Instant::now());
        say!("banned", neighbour = address, seconds = length.as_secs(), why = why);
        for torrent in self.torrents() {
            torrent.lines().iter().filter(|line| line.address.ip() == address).for_each(|line| line.close("banned"));
        }
    }

    pub fn is_banned(&self, address: IpAddr) -> bool {
        self.bans.lock().unwrap().left(address, Instant::now()).is_some()
    }

    pub fn tally(&self, address: IpAddr) -> Arc<Tally> {
        let mut tallies = self.tallies.lock().unwrap();
        if tallies.len() >= MOST_TALLIES && !tallies.contains_key(&address) {
            let known = |address: &IpAddr| self.config.neighbours.iter().any(|one| one.ip() == *address);
            // One that nobody uses goes; there are more of them than connections.
            let stranger = tallies.iter().find(|(address, one)| Arc::strong_count(one) == 1 && !known(address));
            let stranger = stranger.map(|(address, _)| *address);
            stranger.and_then(|address| tallies.remove(&address));
        }
        tallies.entry(address).or_default().clone()
    }

    pub fn tallies(&self) -> BTreeMap<IpAddr, Arc<Tally>> {
        self.tallies.lock().unwrap().clone()
    }

    pub fn note(&self, name: &str, said: impl Into<String>) {
        let said = said.into();
        let before = self.notes.lock().unwrap().insert(name.into(), said.clone());
        if before.as_ref() != Some(&said) {
            say!("history", name = name, said = said);
        }
    }
}
