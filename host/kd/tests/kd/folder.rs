//! Folders of files made by a rule, in a place that goes with the test.

use crate::run::kd;
use std::fs;
use std::ops::Deref;
use std::path::{Path, PathBuf};
use std::process;
use std::sync::atomic::{AtomicU32, Ordering};
use std::sync::OnceLock;

pub struct Folder {
    path: PathBuf,
}

impl Folder {
    pub fn new() -> Folder {
        static NUMBER: AtomicU32 = AtomicU32::new(0);
        let name = format!("kd-{}-{}", process::id(), NUMBER.fetch_add(1, Ordering::Relaxed));
        let path = std::env::temp_dir().join(name);
        fs::create_dir(&path).expect("a new folder");
        Folder { path }
    }

    pub fn put(&self, path: impl AsRef<Path>, bytes: &[u8]) -> PathBuf {
        let path = self.path.join(path);
        fs::create_dir_all(path.parent().expect("a folder")).expect("folders");
        fs::write(&path, bytes).expect("a file");
        path
    }

    /// Changes one byte of a file.
    pub fn spoil(&self, path: &str, at: usize) {
        let mut bytes = fs::read(self.join(path)).expect("a file");
        bytes[at] ^= 1;
        self.put(path, &bytes);
    }

    pub fn text(&self, path: &str) -> String {
        self.join(path).to_str().expect("text").into()
    }

    /// What stands in it, in order.
    pub fn names(&self, path: &str) -> Vec<String> {
        let entries = fs::read_dir(self.join(path)).expect("a folder");
        let mut names: Vec<_> =
            entries.map(|entry| entry.expect("an entry").file_name().into_string().expect("text")).collect();
        names.sort();
        names
    }
}

impl Deref for Folder {
    type Target = Path;

    fn deref(&self) -> &Path {
        &self.path
    }
}

impl Drop for Folder {
    fn drop(&mut self) {
        let _ = fs::remove_dir_all(&self.path);
    }
}

/// The rule of host/tests/real/make.py.
pub fn content(path: &[u8], length: usize) -> Vec<u8> {
    let seed: usize = path.iter().map(|byte| usize::from(*byte)).sum();
    (0..length).map(|i| (i * 7 + i / 251 + seed) as u8).collect()
}

pub const RACK: [(&str, usize); 4] =
    [("cells/1.log", 200_000), ("cells/7.log", 262_145), ("cells/empty", 0), ("firmware/sensor.bin", 60_000)];

/// A folder `rack` with four files, and `rack.torrent` beside it with pieces of 64 KiB, which kd makes once.
pub fn rack() -> Folder {
    static TORRENT: OnceLock<Vec<u8>> = OnceLock::new();
    let folder = Folder::new();
    for (path, length) in RACK {
        folder.put(format!("rack/{path}"), &content(path.as_bytes(), length));
    }
    let torrent = TORRENT.get_or_init(|| {
        let made = kd(&["make", "-s", "64KiB", "-o", "-", &folder.text("rack")]);
        assert_eq!((made.code, &made.err[..]), (0, ""));
        made.bytes
    });
    folder.put("rack.torrent", torrent);
    folder
}
