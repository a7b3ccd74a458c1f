//! Leaves from data in hand, so that this gateway can serve them: without it no gateway that learned from a piece layer or a logger
//! ever holds a leaf. `kd_piece_hashes` makes the message, and it is offered to `kd_take` as one from a neighbour would be.

use kombudeva::{limits::LARGEST_REPLY, Refusal, Store};

/// Makes the leaves of a piece held, which was judged right, and says how many positions are newly held.
pub fn learn(store: &mut Store<Vec<u8>>, piece: u64, data: &[u8]) -> Result<u64, Refusal> {
    let mut out = vec![0; LARGEST_REPLY];
    let message = store.piece_hashes(piece, data, &mut out)?;
    // Nothing to say where the piece's node is itself a leaf.
    match message.is_empty() {
        true => Ok(0),
        false => store.take(message),
    }
}
