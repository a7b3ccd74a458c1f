//! The disk as the gateway needs it: a few calls, so that a model can stand for it (`model.rs`) and lose power.

use std::ffi::OsStr;
use std::fs::{self, File, OpenOptions};
use std::io::{Error, ErrorKind, Read, Result, Write};
use std::os::unix::fs::{FileExt, OpenOptionsExt};
use std::path::{Component, Path, PathBuf};
use std::sync::Arc;

/// Where the bytes of a file are.
#[derive(Clone, Debug, PartialEq, Eq)]
pub enum Place {
    /// Below the gateway's folder, which it alone writes to.
    Inside(PathBuf),
    /// The logger's own file, anywhere: it is only read.
    Outside(PathBuf),
}

pub trait Disk: Send + Sync {
    /// The file at a place, made if it is inside and missing and `make` says so. No link is followed inside.
    fn open(&self, place: &Place, make: bool) -> Result<Arc<dyn Data>>;
    /// Writes a file below the folder, whole or not at all, and durable once this has returned.
    fn put(&self, path: &Path, bytes: &[u8]) -> Result<()>;
    /// A file below the folder, if it has at most so many bytes.
    fn get(&self, path: &Path, most: usize) -> Result<Vec<u8>>;
    /// Another name for a data file. One that is there stays.
    fn link(&self, from: &Path, to: &Path) -> Result<()>;
    /// Removes a folder below the folder, with all that is in it.
    fn forget(&self, path: &Path) -> Result<()>;
}

/// A data file.
pub trait Data: Send + Sync {
    fn size(&self) -> Result<u64>;
    /// All of `out`, or an error.
    fn read(&self, at: u64, out: &mut [u8]) -> Result<()>;
    fn write(&self, at: u64, bytes: &[u8]) -> Result<()>;
    /// All that was written before is durable once this has returned.
    fn sync(&self) -> Result<()>;
}

/// The real disk, below a folder.
pub struct Folder {
    root: PathBuf,
}

/// O_NOFOLLOW and O_NONBLOCK of x86-64 Linux, for which alone the library is: no link is followed, no pipe is waited for.
const NO_FOLLOW: i32 = 0x2_0000;
const NO_WAIT: i32 = 0x800;

impl Folder {
    pub fn new(root: &Path) -> Result<Folder> {
        fs::create_dir_all(root)?;
        Ok(Folder { root: root.canonicalize()? })
    }

    pub fn root(&self) -> &Path {
        &self.root
    }

    /// The path below the root. Each folder on it is made if `make` says so, and is no link.
    fn below(&self, path: &Path, make: bool) -> Result<PathBuf> {
        let mut whole = self.root.clone();
        let mut elements = path.components().peekable();
        while let Some(element) = elements.next() {
            let Component::Normal(name) = element else { return Err(ErrorKind::InvalidInput.into()) };
            let parent = whole.clone();
            whole.push(name);
            if elements.peek().is_none() {
                break;
            }
            match fs::symlink_metadata(&whole) {
                Ok(facts) if facts.is_dir() => (),
                Ok(_) => return Err(Error::new(ErrorKind::InvalidInput, "not a folder")),
                Err(error) if error.kind() == ErrorKind::NotFound && make => {
                    fs::create_dir(&whole)?;
                    sync_folder(&parent)?;
                }
                Err(error) => return Err(error),
            }
        }
        Ok(whole)
    }
}

fn sync_folder(path: &Path) -> Result<()> {
    File::open(path)?.sync_all()
}

fn parent(path: &Path) -> &Path {
    path.parent().unwrap_or(path)
}

fn regular(file: File) -> Result<File> {
    match file.metadata()?.is_file() {
        true => Ok(file),
        false => Err(Error::new(ErrorKind::InvalidInput, "not a regular file")),
    }
}

impl Disk for Folder {
    fn open(&self, place: &Place, make: bool) -> Result<Arc<dyn Data>> {
        let path = match place {
            Place::Outside(path) => {
                let file = OpenOptions::new().read(true).custom_flags(NO_WAIT).open(path)?;
                return Ok(Arc::new(Real { file: regular(file)? }));
            }
            Place::Inside(path) => self.below(path, make)?,
        };
        let mut options = OpenOptions::new();
        options.read(true).write(true).custom_flags(NO_FOLLOW | NO_WAIT);
        let file = match options.open(&path) {
            Err(error) if error.kind() == ErrorKind::NotFound && make => {
                let file = options.create_new(true).open(&path)?;
                sync_folder(parent(&path))?;
                file
            }
            opened => opened?,
        };
        Ok(Arc::new(Real { file: regular(file)? }))
    }

    fn put(&self, path: &Path, bytes: &[u8]) -> Result<()> {
        let path = self.below(path, true)?;
        let mut name = OsStr::new(".").to_os_string();
        name.push(path.file_name().unwrap_or_default());
        name.push(".part");
        let beside = path.with_file_name(name);
        let write = || {
            let mut file = OpenOptions::new();
            let mut file = file.write(true).create(true).truncate(true).custom_flags(NO_FOLLOW).open(&beside)?;
            file.write_all(bytes)?;
            file.sync_all()?;
            fs::rename(&beside, &path)
        };
        if let Err(error) = write() {
            let _ = fs::remove_file(&beside);
            return Err(error);
        }
        sync_folder(parent(&path))
    }

    fn get(&self, path: &Path, most: usize) -> Result<Vec<u8>> {
        let path = self.below(path, false)?;
        let file = OpenOptions::new().read(true).custom_flags(NO_FOLLOW | NO_WAIT).open(path)?;
        let mut bytes = Vec::new();
        regular(file)?.take(most as u64 + 1).read_to_end(&mut bytes)?;
        match bytes.len() > most {
            true => Err(Error::new(ErrorKind::InvalidData, "too large")),
            false => Ok(bytes),
        }
    }

    fn link(&self, from: &Path, to: &Path) -> Result<()> {
        let (from, to) = (self.below(from, false)?, self.below(to, true)?);
        match fs::hard_link(from, &to) {
            Err(error) if error.kind() != ErrorKind::AlreadyExists => Err(error),
            _ => sync_folder(parent(&to)),
        }
    }

    fn forget(&self, path: &Path) -> Result<()> {
        fs::remove_dir_all(self.below(path, false)?)
    }
}

struct Real {
    file: File,
}

impl Data for Real {
    fn size(&self) -> Result<u64> {
        Ok(self.file.metadata()?.len())
    }

    fn read(&self, at: u64, out: &mut [u8]) -> Result<()> {
        self.file.read_exact_at(out, at)
    }

    fn write(&self, at: u64, bytes: &[u8]) -> Result<()> {
        self.file.write_all_at(bytes, at)
    }

    fn sync(&self) -> Result<()> {
        self.file.sync_data()
    }
}
