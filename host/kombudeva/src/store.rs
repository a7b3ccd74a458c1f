//! The store, and what is asked of it.

use crate::answer::answer;
use crate::{Hash, Refusal, V1Piece};

/// The bytes that a store for a file of this length uses.
///
/// # Errors
///
/// [`Refusal::FactsOutOfRange`].
pub fn store_size(length: u64, piece_length: u64) -> Result<usize, Refusal> {
    count(boundary::store_size(length, piece_length)).map(|size| size as usize)
}

/// The count beside 0.
fn count(given: boundary::Answer) -> Result<u64, Refusal> {
    answer(given.number, given.count)
}

/// Done or refused, where the count beside 0 says nothing.
fn done(given: boundary::Answer) -> Result<(), Refusal> {
    answer(given.number, ())
}

/// A store of held hashes of one file's tree, in memory of any kind: `&mut [u8]`, `Vec<u8>`, an array. Over `&[u8]` it is one that
/// is only read, and has the calls that only look.
///
/// Any bytes may be lent. Whether they are a store is answered by each call, so a store can be kept in a file or
/// come from elsewhere: [`Store::over`].
///
/// ```
/// use kombudeva::{store_size, Refusal, Store};
///
/// let mut memory = vec![0; store_size(20_000, 16384)?];
/// let mut store = Store::open(&mut memory[..], 20_000, 16384, [7; 32])?;
/// assert_eq!(store.judge_block(0, &[0; 16384]), Err(Refusal::NoAnchor));
///
/// let only_read = Store::over(&memory[..]);
/// assert_eq!(only_read.held(1, 0), Ok([7; 32]));
/// # Ok::<(), Refusal>(())
/// ```
#[derive(Clone, Copy, Debug, PartialEq, Eq)]
pub struct Store<M> {
    memory: M,
}

/// What a request got: whether it is served, and the message to send back.
#[derive(Clone, Copy, Debug, PartialEq, Eq)]
#[must_use = "the reply is to be sent, a reject too"]
pub struct Served<'a> {
    /// Whether the reply is a hashes message.
    pub answer: Result<(), Refusal>,
    /// The hashes message, a reject, or nothing.
    pub reply: &'a [u8],
}

/// A request for hashes, as it is sent: `message` has its 49 bytes, and the numbers beside it are those of its header.
#[derive(Clone, Copy, Debug, PartialEq, Eq)]
pub struct Request {
    /// The base layer.
    pub base: u32,
    /// The first position of the run.
    pub index: u32,
    /// How many positions the run has.
    pub length: u32,
    /// The proof layers.
    pub proof: u32,
    /// Id 21, the pieces root and these numbers, without the length prefix.
    pub message: [u8; 49],
}

/// What a store is about, as it was opened.
#[derive(Clone, Copy, Debug, PartialEq, Eq)]
pub struct Facts {
    /// The file's length.
    pub length: u64,
    /// The piece length.
    pub piece_length: u64,
    /// The pieces root.
    pub root: Hash,
}

/// What a repair made of saved bytes.
#[derive(Clone, Copy, Debug, PartialEq, Eq)]
pub struct Repaired {
    /// How many positions that the bytes name were dropped.
    pub dropped: u64,
    /// How many are held.
    pub held: u64,
}

/// Calls that only look.
impl<M: AsRef<[u8]>> Store<M> {
    /// A store opened earlier, or any bytes.
    #[must_use]
    pub fn over(memory: M) -> Store<M> {
        Store { memory }
    }

    /// The store's bytes, and those behind them.
    #[must_use]
    pub fn bytes(&self) -> &[u8] {
        self.memory.as_ref()
    }

    /// The memory itself.
    #[must_use]
    pub fn into_memory(self) -> M {
        self.memory
    }

    /// The facts that the store was opened with. Any usable memory is a store of some file: ask which, of one that was found.
    ///
    /// # Errors
    ///
    /// [`Unusable`](Refusal::Unusable).
    pub fn facts(&self) -> Result<Facts, Refusal> {
        let boundary::Facts { number, length, piece_length, root } = boundary::facts(self.bytes());
        answer(number, Facts { length, piece_length, root: root.bytes })
    }

    /// The hash held at a position. Layer 0 has the blocks.
    ///
    /// # Errors
    ///
    /// In this order: [`Unusable`](Refusal::Unusable), [`RuleBroken`](Refusal::RuleBroken) where the tree has no
    /// such position, [`NoAnchor`](Refusal::NoAnchor) where it is not held.
    pub fn held(&self, layer: u64, index: u64) -> Result<Hash, Refusal> {
        let given = boundary::held(self.bytes(), layer, index);
        answer(given.number, given.hash.bytes)
    }

    /// Hears a reject (id 23). It changes nothing.
    ///
    /// # Errors
    ///
    /// In this order: [`Unusable`](Refusal::Unusable), [`NoMessage`](Refusal::NoMessage), [`OtherRoot`](Refusal::OtherRoot),
    /// [`RuleBroken`](Refusal::RuleBroken).
    pub fn take_reject(&self, message: &[u8]) -> Result<(), Refusal> {
        done(boundary::take_reject(self.bytes(), message))
    }

    /// Answers a request (id 21) in `out`; [`LARGEST_REPLY`](crate::limits::LARGEST_REPLY) bytes are always room enough.
    ///
    /// Refused, in this order: [`Unusable`](Refusal::Unusable), [`NoMessage`](Refusal::NoMessage);
    /// [`OtherRoot`](Refusal::OtherRoot), [`RuleBroken`](Refusal::RuleBroken) or [`NotHeld`](Refusal::NotHeld), with a reject to
    /// send back; [`NoRoom`](Refusal::NoRoom) in place of a reply or a reject that there is no room for.
    pub fn serve<'o>(&self, request: &[u8], out: &'o mut [u8]) -> Served<'o> {
        let given = boundary::serve(self.bytes(), request, out);
        Served { answer: done(given), reply: &out[..given.count as usize] }
    }

    /// Writes the hashes of a piece's blocks at the front of `out`, as the message (id 22) that teaches them, and gives the part that it
    /// is: taken by [`Store::take`] on this store it makes every leaf of the piece held. It is empty where the piece's node is itself a
    /// leaf. [`HEADER_SIZE`](crate::limits::HEADER_SIZE) bytes and a 512th of the piece length are always room enough.
    ///
    /// # Errors
    ///
    /// As [`Store::judge_piece`]; then [`NoRoom`](Refusal::NoRoom).
    pub fn piece_hashes<'o>(&self, piece: u64, data: &[u8], out: &'o mut [u8]) -> Result<&'o [u8], Refusal> {
        let given = boundary::piece_hashes(self.bytes(), piece, data, out);
        answer(given.number, &out[..given.count as usize])
    }

    /// Whether a block is marked: its data was judged right.
    ///
    /// # Errors
    ///
    /// In this order: [`Unusable`](Refusal::Unusable), [`RuleBroken`](Refusal::RuleBroken) where the file has no such block.
    pub fn marked(&self, block: u64) -> Result<bool, Refusal> {
        count(boundary::marked(self.bytes(), block)).map(|count| count == 1)
    }

    /// Writes the bitfield of the pieces whose blocks are all marked at the front of `out`, and gives the part that it is.
    ///
    /// # Errors
    ///
    /// In this order: [`Unusable`](Refusal::Unusable), [`NoRoom`](Refusal::NoRoom).
    pub fn bitfield<'o>(&self, out: &'o mut [u8]) -> Result<&'o [u8], Refusal> {
        let given = boundary::bitfield(self.bytes(), out);
        answer(given.number, &out[..given.count as usize])
    }

    /// The next request for layer 0 or for the piece layer, or `None`: every position of it that isn't padding is held.
    ///
    /// # Errors
    ///
    /// In this order: [`Unusable`](Refusal::Unusable), [`RuleBroken`](Refusal::RuleBroken) for another layer or where the
    /// file has no piece layer, [`NoAnchor`](Refusal::NoAnchor) where the root isn't held.
    pub fn next_request(&self, layer: u64) -> Result<Option<Request>, Refusal> {
        let boundary::Request { number, asks, base, index, length, proof, message } =
            boundary::next_request(self.bytes(), layer);
        answer(number, (asks == 1).then_some(Request { base, index, length, proof, message }))
    }

    /// The piece to fetch, or `None`: of the pieces whose blocks aren't all marked the one with the smallest count above
    /// zero, the lowest on a tie. `counts` says of each piece how many neighbours have it.
    ///
    /// # Errors
    ///
    /// In this order: [`Unusable`](Refusal::Unusable), [`WrongSize`](Refusal::WrongSize) where there isn't one count
    /// for each piece.
    pub fn pick_piece(&self, counts: &[u32]) -> Result<Option<u64>, Refusal> {
        let boundary::Choice { number, found, piece } = boundary::pick_piece(self.bytes(), counts);
        answer(number, (found == 1).then_some(piece))
    }

    /// Whether the store's file begins with an earlier file of this length and pieces root, every byte of it: a history that grew
    /// is told from one that changed. `block` is the store's file's block number `old_length / BLOCK`, at its own length, which is
    /// judged here; it is empty where `old_length` is a multiple of [`BLOCK`](crate::limits::BLOCK).
    ///
    /// # Errors
    ///
    /// In this order: [`Unusable`](Refusal::Unusable), [`RuleBroken`](Refusal::RuleBroken) where the earlier length is 0 or above
    /// the store's, [`WrongSize`](Refusal::WrongSize) for a block of another size, [`NoAnchor`](Refusal::NoAnchor) where its leaf
    /// or a hash over whole blocks of the earlier file isn't held, [`Differs`](Refusal::Differs) where the block isn't the one
    /// held, or the file doesn't begin with such a file: another history.
    pub fn extends(&self, old_length: u64, old_root: Hash, block: &[u8]) -> Result<(), Refusal> {
        done(boundary::extends(self.bytes(), old_length, boundary::Hash { bytes: old_root }, block))
    }

    /// Writes what is held and marked at the front of `out`, for [`Store::load`], and gives the part that it is. Twice the
    /// store's size is always room enough.
    ///
    /// # Errors
    ///
    /// In this order: [`Unusable`](Refusal::Unusable), [`NoRoom`](Refusal::NoRoom).
    pub fn save<'o>(&self, out: &'o mut [u8]) -> Result<&'o [u8], Refusal> {
        let given = boundary::save(self.bytes(), out);
        answer(given.number, &out[..given.count as usize])
    }
}

/// Calls that write.
impl<M: AsRef<[u8]> + AsMut<[u8]>> Store<M> {
    /// Makes the memory a store of which the root alone is held. Bytes behind the store's size stay.
    ///
    /// # Errors
    ///
    /// In this order: [`FactsOutOfRange`](Refusal::FactsOutOfRange), [`Unusable`](Refusal::Unusable) where the
    /// memory is shorter than [`store_size`] says.
    pub fn open(mut memory: M, length: u64, piece_length: u64, root: Hash) -> Result<Store<M>, Refusal> {
        let given = boundary::open(memory.as_mut(), length, piece_length, boundary::Hash { bytes: root });
        answer(given.number, Store { memory })
    }

    /// Makes the memory the store that was saved, whatever stood there, and says how many positions are held. The bytes may come
    /// from anywhere: they are loaded only if all their hashes chain to the root. Their marks can't be checked and are believed.
    ///
    /// # Errors
    ///
    /// In this order: [`NotSaved`](Refusal::NotSaved) without a whole opening record,
    /// [`FactsOutOfRange`](Refusal::FactsOutOfRange), [`Unusable`](Refusal::Unusable) where the memory is shorter than the store,
    /// [`NotSaved`](Refusal::NotSaved) for the rest.
    pub fn load(mut memory: M, saved: &[u8]) -> Result<(Store<M>, u64), Refusal> {
        let given = boundary::load(memory.as_mut(), saved);
        answer(given.number, (Store { memory }, given.count))
    }

    /// Loads the largest part of saved positions that can be loaded, and clears all marks. It asks for the whole form, and the
    /// root.
    ///
    /// # Errors
    ///
    /// As [`Store::load`].
    pub fn repair(mut memory: M, saved: &[u8]) -> Result<(Store<M>, Repaired), Refusal> {
        let given = boundary::repair(memory.as_mut(), saved);
        answer(given.number, (Store { memory }, Repaired { dropped: given.dropped, held: given.held }))
    }

    /// Offers a hashes message (id 22), asked for or not, and says how many positions are newly held.
    ///
    /// # Errors
    ///
    /// In this order: [`Unusable`](Refusal::Unusable), [`NoMessage`](Refusal::NoMessage), [`OtherRoot`](Refusal::OtherRoot),
    /// [`RuleBroken`](Refusal::RuleBroken), [`WrongSize`](Refusal::WrongSize), [`WrongPadding`](Refusal::WrongPadding),
    /// [`NoAnchor`](Refusal::NoAnchor), [`Differs`](Refusal::Differs), [`Conflict`](Refusal::Conflict).
    pub fn take(&mut self, message: &[u8]) -> Result<u64, Refusal> {
        count(boundary::take(self.memory.as_mut(), message))
    }

    /// Loads the file's piece layer: it and all above it are held then. Says how many positions are newly held.
    ///
    /// # Errors
    ///
    /// In this order: [`Unusable`](Refusal::Unusable), [`RuleBroken`](Refusal::RuleBroken) where the file has no piece layer,
    /// [`WrongSize`](Refusal::WrongSize), [`NoAnchor`](Refusal::NoAnchor), [`Differs`](Refusal::Differs),
    /// [`Conflict`](Refusal::Conflict).
    pub fn load_layer(&mut self, layer: &[u8]) -> Result<u64, Refusal> {
        count(boundary::load_layer(self.memory.as_mut(), layer))
    }

    /// Judges a block against its leaf. It may be believed if this is `Ok`, and then it is marked.
    ///
    /// # Errors
    ///
    /// In this order: [`Unusable`](Refusal::Unusable), [`RuleBroken`](Refusal::RuleBroken) where the file has no such block,
    /// [`WrongSize`](Refusal::WrongSize), [`NoAnchor`](Refusal::NoAnchor), [`Differs`](Refusal::Differs).
    pub fn judge_block(&mut self, block: u64, data: &[u8]) -> Result<(), Refusal> {
        done(boundary::judge_block(self.memory.as_mut(), block, data))
    }

    /// Judges a piece against its node in the piece layer, or the root of a file not longer than the piece length. If this is
    /// `Ok`, each of its blocks is marked.
    ///
    /// # Errors
    ///
    /// In this order: [`Unusable`](Refusal::Unusable), [`RuleBroken`](Refusal::RuleBroken) where the file has no such piece,
    /// [`WrongSize`](Refusal::WrongSize), [`NoAnchor`](Refusal::NoAnchor), [`Differs`](Refusal::Differs),
    /// [`Conflict`](Refusal::Conflict).
    pub fn judge_piece(&mut self, piece: u64, data: &[u8]) -> Result<(), Refusal> {
        done(boundary::judge_piece(self.memory.as_mut(), piece, data))
    }

    /// Judges a piece of a hybrid torrent by both halves: as [`Store::judge_piece`], and then by its v1 hash, which covers so many
    /// zeros behind the data. If this is `Ok`, each of its blocks is marked.
    ///
    /// That a torrent is a hybrid the store does not know: [`Store::judge_block`] and [`Store::judge_piece`] judge, and mark, by the
    /// v2 half alone.
    ///
    /// # Errors
    ///
    /// As [`Store::judge_piece`]; then [`WrongSize`](Refusal::WrongSize) where data and zeros are more than the piece length, and
    /// [`Differs`](Refusal::Differs) where the v1 hash is another.
    pub fn judge_hybrid_piece(&mut self, piece: u64, data: &[u8], v1: V1Piece) -> Result<(), Refusal> {
        let hash = boundary::Sha1Hash { bytes: v1.hash };
        done(boundary::judge_hybrid_piece(self.memory.as_mut(), piece, data, hash, v1.zeros))
    }

    /// Clears a block's mark, for a host that lost the block. No hash is forgotten.
    ///
    /// # Errors
    ///
    /// In this order: [`Unusable`](Refusal::Unusable), [`RuleBroken`](Refusal::RuleBroken) where the file has no such block.
    pub fn clear(&mut self, block: u64) -> Result<(), Refusal> {
        done(boundary::clear(self.memory.as_mut(), block))
    }
}
