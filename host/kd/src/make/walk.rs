//! The files of a folder.

use crate::end::{path_shown, Failure};
use crate::out;
use std::ffi::OsStr;
use std::fs;
use std::os::unix::ffi::OsStrExt;
use std::path::{Path, PathBuf};

pub struct Source {
    pub path: PathBuf,
    /// Its path in the torrent.
    pub elements: Vec<Vec<u8>>,
    /// As it was found; a log may grow meanwhile.
    pub length: u64,
}

/// All regular files below a folder, or the file itself. Links in it are not followed; what is left out is told.
pub fn find(source: &Path, name: &OsStr, output: &Path, quiet: bool) -> Result<Vec<Source>, Failure> {
    let facts = fs::metadata(source).map_err(|error| Failure::unreadable(source, &error))?;
    if !facts.is_dir() {
        let elements = vec![name.as_bytes().to_vec()];
        return Ok(vec![Source { path: source.to_path_buf(), elements, length: facts.len() }]);
    }
    let mut walk = Walk { output: output.canonicalize().ok(), quiet, found: Vec::new() };
    walk.folder(source, &[])?;
    Ok(walk.found)
}

struct Walk {
    /// The torrent itself, if it stands there from an earlier time.
    output: Option<PathBuf>,
    quiet: bool,
    found: Vec<Source>,
}

impl Walk {
    fn folder(&mut self, folder: &Path, above: &[Vec<u8>]) -> Result<(), Failure> {
        let unreadable = |error| Failure::unreadable(folder, &error);
        for entry in fs::read_dir(folder).map_err(unreadable)? {
            let entry = entry.map_err(unreadable)?;
            let (path, facts) = (entry.path(), entry.metadata().map_err(unreadable)?);
            let mut elements = above.to_vec();
            elements.push(entry.file_name().as_bytes().to_vec());
            if facts.is_dir() {
                self.folder(&path, &elements)?;
            } else if !facts.is_file() {
                self.leave_out(&path, if facts.is_symlink() { "a link" } else { "no regular file" });
            } else if self.output.is_some() && self.output == path.canonicalize().ok() {
                self.leave_out(&path, "the torrent itself");
            } else {
                self.found.push(Source { path, elements, length: facts.len() });
            }
        }
        Ok(())
    }

    fn leave_out(&self, path: &Path, why: &str) {
        if !self.quiet {
            out::warn(&format!("left out: {}: {why}", path_shown(path)));
        }
    }
}
