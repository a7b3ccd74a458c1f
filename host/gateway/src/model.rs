//! A disk in memory that loses power: what was not synced is kept, dropped or torn, sector by sector, as chance has it. It is for tests.

use crate::disk::{Data, Disk, Place};
use std::collections::BTreeMap;
use std::io::{Error, ErrorKind, Result};
use std::path::{Path, PathBuf};
use std::sync::{Arc, Mutex};

/// What a disk writes at once: a write is torn between sectors, never inside one.
const SECTOR: usize = 512;

/// Numbers that look random and come again with the same seed.
#[derive(Clone, Debug)]
pub struct Chance(pub u64);

impl Chance {
    pub fn number(&mut self) -> u64 {
        self.0 = self.0.wrapping_add(0x9e37_79b9_7f4a_7c15);
        let mut mixed = self.0;
        mixed = (mixed ^ (mixed >> 30)).wrapping_mul(0xbf58_476d_1ce4_e5b9);
        mixed = (mixed ^ (mixed >> 27)).wrapping_mul(0x94d0_49bb_1331_11eb);
        mixed ^ (mixed >> 31)
    }

    pub fn below(&mut self, limit: u64) -> u64 {
        self.number() % limit
    }
}

#[derive(Clone, Default)]
struct Stored {
    /// What survives.
    durable: Vec<u8>,
    /// Writes since the last sync, in order.
    pending: Vec<(usize, Vec<u8>)>,
}

impl Stored {
    /// As a running program sees it.
    fn seen(&self) -> Vec<u8> {
        self.pending.iter().fold(self.durable.clone(), |bytes, write| overlaid(bytes, write, |_| true))
    }
}

/// A write over bytes, of those sectors that `keeps` lets through.
fn overlaid(mut bytes: Vec<u8>, (at, write): &(usize, Vec<u8>), mut keeps: impl FnMut(usize) -> bool) -> Vec<u8> {
    let (mut from, end) = (*at, at + write.len());
    while from < end {
        let to = end.min((from / SECTOR + 1) * SECTOR);
        if keeps(from / SECTOR) {
            if bytes.len() < to {
                bytes.resize(to, 0);
            }
            bytes[from..to].copy_from_slice(&write[from - at..to - at]);
        }
        from = to;
    }
    bytes
}

struct State {
    files: BTreeMap<PathBuf, Stored>,
    chance: Chance,
    /// Calls till the power goes; none: it stays.
    left: Option<u64>,
    /// A disk that says it has synced and has not, to see that this is found out.
    lies: bool,
    /// Bytes that data files may take in all.
    room: usize,
}

#[derive(Clone)]
pub struct Model {
    state: Arc<Mutex<State>>,
}

impl Model {
    pub fn new(seed: u64) -> Model {
        let state = State { files: BTreeMap::new(), chance: Chance(seed), left: None, lies: false, room: usize::MAX };
        Model { state: Arc::new(Mutex::new(state)) }
    }

    pub fn lying(seed: u64) -> Model {
        let model = Model::new(seed);
        model.state.lock().unwrap().lies = true;
        model
    }

    pub fn set_room(&self, room: usize) {
        self.state.lock().unwrap().room = room;
    }

    /// The power goes in so many calls.
    pub fn crash_in(&self, calls: u64) {
        self.state.lock().unwrap().left = Some(calls);
    }

    pub fn is_out(&self) -> bool {
        self.state.lock().unwrap().left == Some(0)
    }

    /// The power comes back: of each write that was not synced some sectors are there.
    pub fn restart(&self) {
        let state = &mut *self.state.lock().unwrap();
        for file in state.files.values_mut() {
            for write in std::mem::take(&mut file.pending) {
                // Whole, not at all, or torn.
                let kind = state.chance.below(3);
                let chance = &mut state.chance;
                let durable = std::mem::take(&mut file.durable);
                file.durable = overlaid(durable, &write, |_| kind == 0 || kind == 2 && chance.below(2) == 0);
            }
        }
        state.left = None;
    }

    /// Flips bits of a file, wherever they lie.
    pub fn damage(&self, path: &Path, bits: u64) {
        let state = &mut *self.state.lock().unwrap();
        let Some(file) = state.files.get_mut(path) else { return };
        for _ in 0..bits {
            let size = file.durable.len() as u64;
            if size > 0 {
                let at = state.chance.below(size) as usize;
                file.durable[at] ^= 1 << state.chance.below(8);
            }
        }
    }

    pub fn paths(&self) -> Vec<PathBuf> {
        self.state.lock().unwrap().files.keys().cloned().collect()
    }

    /// What is durable of a file.
    pub fn durable(&self, path: &Path) -> Option<Vec<u8>> {
        Some(self.state.lock().unwrap().files.get(path)?.durable.clone())
    }
}

impl State {
    /// One call; whether the power is still there when it is done.
    fn step(&mut self) -> Result<()> {
        match &mut self.left {
            Some(0) => Err(Error::other("no power")),
            Some(left) => {
                *left -= 1;
                Ok(())
            }
            None => Ok(()),
        }
    }
}

impl Disk for Model {
    fn open(&self, place: &Place, make: bool) -> Result<Arc<dyn Data>> {
        let (Place::Inside(path) | Place::Outside(path)) = place;
        let mut state = self.state.lock().unwrap();
        state.step()?;
        if !state.files.contains_key(path) {
            if !make {
                return Err(ErrorKind::NotFound.into());
            }
            state.files.insert(path.clone(), Stored::default());
        }
        Ok(Arc::new(ModelData { model: self.clone(), path: path.clone() }))
    }

    /// Renaming is all or nothing; before the call has returned it may be either.
    fn put(&self, path: &Path, bytes: &[u8]) -> Result<()> {
        let mut state = self.state.lock().unwrap();
        state.step()?;
        if state.left == Some(0) && state.chance.below(2) == 0 {
            return Err(Error::other("no power"));
        }
        state.files.insert(path.into(), Stored { durable: bytes.to_vec(), pending: Vec::new() });
        Ok(())
    }

    fn get(&self, path: &Path, most: usize) -> Result<Vec<u8>> {
        let mut state = self.state.lock().unwrap();
        state.step()?;
        let bytes = state.files.get(path).map(Stored::seen).ok_or(ErrorKind::NotFound)?;
        if bytes.len() > most {
            return Err(Error::new(ErrorKind::InvalidData, "too large"));
        }
        Ok(bytes)
    }

    fn link(&self, _: &Path, _: &Path) -> Result<()> {
        Err(ErrorKind::Unsupported.into())
    }

    fn forget(&self, path: &Path) -> Result<()> {
        self.state.lock().unwrap().files.retain(|one, _| !one.starts_with(path));
        Ok(())
    }
}

struct ModelData {
    model: Model,
    path: PathBuf,
}

impl Data for ModelData {
    fn size(&self) -> Result<u64> {
        let mut state = self.model.state.lock().unwrap();
        state.step()?;
        Ok(state.files[&self.path].seen().len() as u64)
    }

    fn read(&self, at: u64, out: &mut [u8]) -> Result<()> {
        let mut state = self.model.state.lock().unwrap();
        state.step()?;
        let bytes = state.files[&self.path].seen();
        let part = bytes.get(at as usize..at as usize + out.len()).ok_or(ErrorKind::UnexpectedEof)?;
        out.copy_from_slice(part);
        Ok(())
    }

    fn write(&self, at: u64, bytes: &[u8]) -> Result<()> {
        let mut state = self.model.state.lock().unwrap();
        state.step()?;
        let room = state.room;
        let file = state.files.get_mut(&self.path).ok_or(ErrorKind::NotFound)?;
        if at as usize + bytes.len() > room {
            // A part of it may be written all the same.
            file.pending.push((at as usize, bytes[..bytes.len() / 2].to_vec()));
            return Err(Error::new(ErrorKind::StorageFull, "no space left on device"));
        }
        file.pending.push((at as usize, bytes.to_vec()));
        Ok(())
    }

    fn sync(&self) -> Result<()> {
        let mut state = self.model.state.lock().unwrap();
        state.step()?;
        // The power may go before the sync is done.
        if state.left != Some(0) && !state.lies {
            let file = state.files.get_mut(&self.path).ok_or(ErrorKind::NotFound)?;
            file.durable = file.seen();
            file.pending.clear();
        }
        Ok(())
    }
}
