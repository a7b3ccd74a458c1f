//! Writing a v2 torrent.

use crate::answer::answer;
use crate::limits::{LARGEST_TORRENT, WRITE_RECORD};
use crate::{Hash, Logged, Refusal};
use alloc::collections::BTreeMap;
use alloc::vec;
use alloc::vec::Vec;

/// The files of a torrent that is to be written, in any order.
///
/// Nothing is refused before [`write`](TorrentBuilder::write): the library looks at all files together, and its number does not
/// depend on the order they were added in.
///
/// ```
/// use kombudeva::{Refusal, Torrent, TorrentBuilder};
///
/// let mut builder = TorrentBuilder::new(16384, b"rack 7");
/// builder.add(["cells", "3.71 V"], 6, [7; 32], &[]);
/// builder.add(["cells", "empty"], 0, [0; 32], &[]);
/// let torrent = builder.write()?;
/// assert_eq!(Torrent::read(&torrent)?.files, 2);
///
/// builder.add(["cells"], 1, [8; 32], &[]);
/// assert_eq!(builder.write(), Err(Refusal::WrongTree));
/// # Ok::<(), Refusal>(())
/// ```
#[derive(Clone, Debug)]
pub struct TorrentBuilder {
    piece_length: u64,
    name: Vec<u8>,
    /// The records, and the text that they point into, as the header has them.
    list: Vec<u8>,
    text: Vec<u8>,
    /// Where the last layer of a root stands, so that twins share it.
    layers: BTreeMap<Hash, Part>,
    /// Every part has a start and a size of four bytes.
    fits: bool,
}

#[derive(Clone, Copy, Debug)]
struct Part {
    start: usize,
    size: usize,
}

impl TorrentBuilder {
    /// No files yet.
    #[must_use]
    pub fn new(piece_length: u64, name: &[u8]) -> TorrentBuilder {
        let (list, text) = (Vec::new(), Vec::new());
        TorrentBuilder { piece_length, name: name.to_vec(), list, text, layers: BTreeMap::new(), fits: true }
    }

    /// How many files have been added.
    #[must_use]
    pub fn files(&self) -> usize {
        self.list.len() / WRITE_RECORD
    }

    /// Adds a file. Its layer, as [`Logged`] or [`File`](crate::File) has it, is empty unless the file is longer than the piece length;
    /// the root of an empty file is zero.
    pub fn add<E: AsRef<[u8]>>(
        &mut self,
        path: impl IntoIterator<Item = E>,
        length: u64,
        root: Hash,
        layer: &[u8],
    ) -> &mut TorrentBuilder {
        let layer = self.layer(root, layer);
        let path = self.path(path);
        self.list.extend_from_slice(&length.to_be_bytes());
        self.list.extend_from_slice(&root);
        self.put_part(layer);
        self.put_part(path);
        self
    }

    /// Adds a file as it was logged.
    pub fn add_logged<E: AsRef<[u8]>>(
        &mut self,
        path: impl IntoIterator<Item = E>,
        logged: &Logged,
    ) -> &mut TorrentBuilder {
        self.add(path, logged.length, logged.root, logged.layer)
    }

    /// The torrent's bytes, which do not depend on the order of the files.
    ///
    /// The call needs more stack than others: the header says how much.
    ///
    /// # Errors
    ///
    /// Numbers 19 and 21 to 28 as the header says; and [`WrongSize`](Refusal::WrongSize) for a length of 2^63 or more, or for
    /// more than 4 GiB of paths and layers, which no list has room for.
    pub fn write(&self) -> Result<Vec<u8>, Refusal> {
        let mut out = vec![0; LARGEST_TORRENT];
        let size = self.write_into(&mut out)?.len();
        out.truncate(size);
        Ok(out)
    }

    /// The same into lent memory.
    ///
    /// # Errors
    ///
    /// After all other numbers [`NoRoom`](Refusal::NoRoom). Nothing is written then.
    pub fn write_into<'m>(&self, out: &'m mut [u8]) -> Result<&'m [u8], Refusal> {
        if !self.fits {
            return Err(Refusal::WrongSize);
        }
        let given = boundary::torrent_write(&self.list, &self.text, self.piece_length, &self.name, out);
        answer(given.number, &out[..given.count as usize])
    }

    /// Where a layer stands: a twin's, if that is the same.
    fn layer(&mut self, root: Hash, layer: &[u8]) -> Part {
        if let Some(part) = self.layers.get(&root) {
            if self.text[part.start..][..part.size] == *layer {
                return *part;
            }
        }
        let part = Part { start: self.text.len(), size: layer.len() };
        self.text.extend_from_slice(layer);
        self.layers.insert(root, part);
        part
    }

    /// Each element behind its size.
    fn path<E: AsRef<[u8]>>(&mut self, path: impl IntoIterator<Item = E>) -> Part {
        let start = self.text.len();
        for element in path {
            let size = self.word(element.as_ref().len());
            self.text.extend_from_slice(&size);
            self.text.extend_from_slice(element.as_ref());
        }
        Part { start, size: self.text.len() - start }
    }

    fn put_part(&mut self, part: Part) {
        let (start, size) = (self.word(part.start), self.word(part.size));
        self.list.extend_from_slice(&start);
        self.list.extend_from_slice(&size);
    }

    /// Four bytes, big-endian. What doesn't fit them is remembered.
    fn word(&mut self, amount: usize) -> [u8; 4] {
        self.fits &= u32::try_from(amount).is_ok();
        (amount as u32).to_be_bytes()
    }
}
