//! The tree of a file, worked out by the library as the file is read.

use crate::end::Failure;
use crate::progress::Progress;
use kombudeva::History;
use std::io::{ErrorKind, Read};
use std::path::Path;

const BURST: usize = 1 << 20;

/// Reads `source` to its end. `path` is for what is said if that can't be done.
pub fn read_all(source: &mut dyn Read, path: &Path, history: &mut History, progress: &Progress) -> Result<(), Failure> {
    let mut buffer = vec![0; BURST];
    loop {
        match source.read(&mut buffer) {
            Ok(0) => return Ok(()),
            Ok(got) => {
                history.more(&buffer[..got]).map_err(|refusal| Failure::refused(path, refusal))?;
                progress.add(got as u64);
            }
            Err(error) if error.kind() == ErrorKind::Interrupted => (),
            Err(error) => return Err(Failure::unreadable(path, &error)),
        }
    }
}
