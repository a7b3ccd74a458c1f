//! Where the files of a torrent stand on a disk.

use crate::torrent::{Entry, Meta};
use std::ffi::OsStr;
use std::fs::{self, File};
use std::io::{Error, ErrorKind, Result};
use std::os::unix::ffi::OsStrExt;
use std::path::{Component, Path, PathBuf};

/// The folder that the torrent's files are in: the one of its name below the place, unless the place itself has more of them.
pub fn folder(meta: &Meta, place: &Path) -> PathBuf {
    let named =
        meta.name.as_deref().and_then(folder_name).map(|name| place.join(name)).filter(|folder| folder.is_dir());
    match named {
        Some(named) if there(meta, &named) >= there(meta, place) => named,
        _ => place.to_path_buf(),
    }
}

fn there(meta: &Meta, folder: &Path) -> usize {
    meta.files.iter().filter(|file| below(folder, file).is_file()).count()
}

/// A name that leads nowhere but down.
fn folder_name(name: &[u8]) -> Option<&OsStr> {
    let path = Path::new(OsStr::from_bytes(name));
    match path.components().collect::<Vec<_>>()[..] {
        [Component::Normal(only)] => Some(only),
        _ => None,
    }
}

/// A file below a folder. The library has refused every path element that could lead out of it.
pub fn below(folder: &Path, file: &Entry) -> PathBuf {
    file.path.iter().fold(folder.to_path_buf(), |path, element| path.join(OsStr::from_bytes(element)))
}

/// A regular file and its length. Nothing else is opened: a pipe would wait for ever.
pub fn open(path: &Path) -> Result<(File, u64)> {
    if !fs::metadata(path)?.is_file() {
        return Err(Error::new(ErrorKind::InvalidInput, "not a regular file"));
    }
    let file = File::open(path)?;
    let length = file.metadata()?.len();
    Ok((file, length))
}

#[cfg(test)]
mod tests {
    use super::*;

    #[test]
    fn a_name_is_a_folder_only_if_it_leads_down() {
        assert_eq!(folder_name(b"rack"), Some(OsStr::new("rack")));
        for name in [&b""[..], b".", b"..", b"/", b"/etc", b"a/b", b"../a"] {
            assert_eq!(folder_name(name), None);
        }
    }
}
