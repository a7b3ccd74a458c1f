//! A file with its facts and its leaves, to be fetched block by block.

use kdgate::disk::{Disk, Place};
use kdgate::held::{Began, Held};
use kdgate::model::Chance;
use kombudeva::ids::HASHES;
use kombudeva::limits::BLOCK;
use kombudeva::{sha256, Facts, History, TorrentBuilder};
use std::path::{Path, PathBuf};

pub struct Given {
    pub bytes: Vec<u8>,
    pub facts: Facts,
    pub layer: Vec<u8>,
}

pub const DATA: &str = "data/file";
pub const SAVE: &str = "stores/0.kds";

impl Given {
    pub fn new(seed: u64, length: usize, piece_length: u64) -> Given {
        let mut chance = Chance(seed);
        let bytes: Vec<u8> = std::iter::repeat_with(|| chance.number().to_be_bytes()).flatten().take(length).collect();
        let mut layer = vec![0; 32 * (length / piece_length as usize + 1)];
        let mut history = History::begin(piece_length, &mut layer).unwrap();
        history.more(&bytes).unwrap();
        let logged = history.end().unwrap();
        let facts = Facts { length: logged.length, piece_length, root: logged.root };
        let layer = logged.layer.to_vec();
        Given { bytes, facts, layer }
    }

    pub fn blocks(&self) -> u64 {
        self.facts.length.div_ceil(BLOCK)
    }

    pub fn block(&self, block: u64) -> &[u8] {
        let at = (block * BLOCK) as usize;
        &self.bytes[at..self.bytes.len().min(at + BLOCK as usize)]
    }

    pub fn held(&self, disk: &dyn Disk) -> (Held, Began) {
        let (place, save) = (Place::Inside(DATA.into()), Some(PathBuf::from(SAVE)));
        Held::begin(disk, self.facts, &self.layer, "file".into(), place, save).unwrap()
    }

    /// All leaves in one message, as a neighbour that has all of them sends it.
    pub fn leaves(&self) -> Vec<u8> {
        let leaves = self.blocks().next_power_of_two();
        let words = [0, 0, leaves as u32, 0].map(u32::to_be_bytes).concat();
        let mut message = [&[HASHES][..], &self.facts.root, &words].concat();
        (0..self.blocks()).for_each(|block| message.extend(sha256(self.block(block)).unwrap()));
        message.resize(49 + 32 * leaves as usize, 0);
        message
    }

    pub fn torrent(&self) -> Vec<u8> {
        let mut builder = TorrentBuilder::new(self.facts.piece_length, b"given");
        builder.add(["file"], self.facts.length, self.facts.root, &self.layer);
        builder.write().unwrap()
    }
}

/// The marks that a save names, read as docs/LAYOUT.md has it and not by the library.
pub fn marks(save: &[u8]) -> Vec<u64> {
    let word = |at: usize| u64::from(u32::from_be_bytes(save[at..at + 4].try_into().unwrap()));
    let count = word(save.len() - 4) as usize;
    let first = save.len() - 5 - 5 * count;
    (0..count).map(|mark| word(first + 5 * mark + 1)).collect()
}

/// A folder of its own, gone afterwards.
pub struct Temporary(pub PathBuf);

impl Temporary {
    pub fn new(name: &str) -> Temporary {
        let path = std::env::temp_dir().join(format!("kdgate-{}-{name}", std::process::id()));
        let _ = std::fs::remove_dir_all(&path);
        std::fs::create_dir_all(&path).unwrap();
        Temporary(path)
    }

    pub fn path(&self) -> &Path {
        &self.0
    }
}

impl Drop for Temporary {
    fn drop(&mut self) {
        let _ = std::fs::remove_dir_all(&self.0);
    }
}
