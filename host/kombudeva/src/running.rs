//! Bytes that come in bursts: their SHA-256, and the tree of a file that they are.

use crate::answer::answer;
use crate::{Hash, Refusal};
use alloc::vec::Vec;

/// SHA-256 of bytes that come in bursts. It may be copied, asked in between, and gone on with. With feature `std` it is an
/// [`io::Write`](std::io::Write) too.
///
/// ```
/// let mut hashing = kombudeva::Hashing::begin();
/// hashing.more(b"a")?;
/// hashing.more(b"bc")?;
/// assert_eq!(hashing.end(), kombudeva::sha256(b"abc")?);
/// # Ok::<(), kombudeva::Refusal>(())
/// ```
#[derive(Clone, Copy, Debug, PartialEq, Eq)]
pub struct Hashing {
    state: boundary::Hashing,
}

impl Hashing {
    /// No bytes yet.
    #[must_use]
    pub fn begin() -> Hashing {
        Hashing { state: boundary::hashing_begin() }
    }

    /// Takes a burst.
    ///
    /// # Errors
    ///
    /// [`WrongSize`](Refusal::WrongSize) past 2^61 - 1 bytes; nothing has changed then.
    pub fn more(&mut self, burst: &[u8]) -> Result<(), Refusal> {
        let given = boundary::hashing_more(self.state, burst);
        self.state = given.state;
        answer(given.number, ())
    }

    /// The hash of the bytes so far.
    ///
    /// # Panics
    ///
    /// Never with the library of this crate's build: its state is one that bursts have made, and such a state has a hash.
    #[must_use]
    pub fn end(&self) -> Hash {
        let given = boundary::hashing_end(self.state);
        assert_eq!(given.number, 0, "a state that only bursts have made");
        given.hash.bytes
    }
}

/// No bytes yet.
impl Default for Hashing {
    fn default() -> Hashing {
        Hashing::begin()
    }
}

/// Takes all bytes of a write, or is refused as [`Hashing::more`] is.
#[cfg(feature = "std")]
impl std::io::Write for Hashing {
    fn write(&mut self, burst: &[u8]) -> std::io::Result<usize> {
        self.more(burst)?;
        Ok(burst.len())
    }

    fn flush(&mut self) -> std::io::Result<()> {
        Ok(())
    }
}

/// The tree of a file whose bytes come in bursts. It borrows the memory that the piece layer is written to, so that nothing
/// else writes there in between. With feature `std` it is an [`io::Write`](std::io::Write) too.
///
/// ```
/// use kombudeva::History;
///
/// let mut layer = [0; 2 * 32];
/// let mut history = History::begin(16384, &mut layer)?;
/// history.more(&[7; 10_000])?;
/// history.more(&[7; 10_000])?;
/// let so_far = history.end()?;
/// assert_eq!((so_far.length, so_far.layer.len()), (20_000, 64));
/// # Ok::<(), kombudeva::Refusal>(())
/// ```
#[derive(Debug)]
pub struct History<'a> {
    state: boundary::History,
    layer: &'a mut [u8],
}

/// A file as far as it has been written.
#[derive(Clone, Copy, Debug, PartialEq, Eq)]
pub struct Logged<'a> {
    /// How many bytes it has.
    pub length: u64,
    /// The pieces root; zero for an empty file.
    pub root: Hash,
    /// The piece layer, as [`Store::load_layer`](crate::Store::load_layer) takes it; empty if the file has none.
    pub layer: &'a [u8],
}

impl<'a> History<'a> {
    /// No bytes yet.
    ///
    /// # Errors
    ///
    /// [`FactsOutOfRange`](Refusal::FactsOutOfRange) for a bad piece length.
    pub fn begin(piece_length: u64, layer: &'a mut [u8]) -> Result<History<'a>, Refusal> {
        let given = boundary::history_begin(piece_length);
        answer(given.number, History { state: given.state, layer })
    }

    /// The state, to be kept over a restart beside the layer's bytes: piece length and N (8 bytes each, big-endian), the block's eight words (4
    /// each), its tail (64), tail size and total (8 each), then the nodes.
    #[must_use]
    pub fn kept(&self) -> Vec<u8> {
        let boundary::History { piece_length, length, block, nodes } = self.state;
        let mut bytes = [piece_length, length].map(u64::to_be_bytes).concat();
        bytes.extend(block.words.map(u32::to_be_bytes).concat());
        bytes.extend(block.tail);
        bytes.extend([block.tail_size, block.total].map(u64::to_be_bytes).concat());
        bytes.extend(nodes);
        bytes
    }

    /// A history that was kept, with its layer as it was then; `None` for bytes of another size. Bytes that no history left are refused with
    /// [`Unusable`](Refusal::Unusable) by the calls that go on from them.
    #[must_use]
    pub fn taken_up(kept: &[u8], layer: &'a mut [u8]) -> Option<History<'a>> {
        fn front<const N: usize>(bytes: &mut &[u8]) -> Option<[u8; N]> {
            let (first, rest) = bytes.split_first_chunk::<N>()?;
            *bytes = rest;
            Some(*first)
        }
        let bytes = &mut &kept[..];
        let number = |bytes: &mut &[u8]| front(bytes).map(u64::from_be_bytes);
        let (piece_length, length) = (number(bytes)?, number(bytes)?);
        let mut words = [0; 8];
        for word in &mut words {
            *word = u32::from_be_bytes(front(bytes)?);
        }
        let (tail, tail_size, total) = (front(bytes)?, number(bytes)?, number(bytes)?);
        let block = boundary::Hashing { words, tail, tail_size, total };
        let nodes = front(bytes)?;
        bytes.is_empty().then_some(History { state: boundary::History { piece_length, length, block, nodes }, layer })
    }

    /// Takes a burst. A piece's hash is written once the history runs past the piece.
    ///
    /// # Errors
    ///
    /// In this order: [`FactsOutOfRange`](Refusal::FactsOutOfRange) past the longest file,
    /// [`NoRoom`](Refusal::NoRoom) where a hash has no room in the layer. Nothing has changed then.
    pub fn more(&mut self, burst: &[u8]) -> Result<(), Refusal> {
        let given = boundary::history_more(self.state, burst, self.layer);
        self.state = given.state;
        answer(given.number, ())
    }

    /// How many bytes have come.
    #[must_use]
    pub fn length(&self) -> u64 {
        self.state.length
    }

    /// The file as it is now. More bursts may follow.
    ///
    /// # Errors
    ///
    /// [`NoRoom`](Refusal::NoRoom) where the last hash has no room in the layer.
    pub fn end(&mut self) -> Result<Logged<'_>, Refusal> {
        let given = boundary::history_end(self.state, self.layer);
        let layer = &self.layer[..given.layer_size as usize];
        answer(given.number, Logged { length: given.length, root: given.root.bytes, layer })
    }
}

/// Takes all bytes of a write, or is refused as [`History::more`] is.
#[cfg(feature = "std")]
impl std::io::Write for History<'_> {
    fn write(&mut self, burst: &[u8]) -> std::io::Result<usize> {
        self.more(burst)?;
        Ok(burst.len())
    }

    fn flush(&mut self) -> std::io::Result<()> {
        Ok(())
    }
}
