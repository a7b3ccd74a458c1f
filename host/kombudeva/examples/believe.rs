//! May this block be believed? A gateway opens a store for a cell's history, hears a neighbour's reply about its hashes, and judges
//! blocks as they come in. It prints what `host/example/believe.c` prints.

use kombudeva::ids::HASHES;
use kombudeva::limits::{BLOCK, HASH, HEADER_SIZE, SMALLEST_PIECE_LENGTH};
use kombudeva::{sha256, store_size, Hash, Refusal, Store};

/// The history: two blocks of 16 KiB, the second one cut short. Its tree has two leaves and the root above them.
const LENGTH: u64 = BLOCK + 1000;

fn judge(store: &mut Store<Vec<u8>>, what: &str, block: u64, data: &[u8]) {
    let (words, number) = match store.judge_block(block, data) {
        Ok(()) => ("it may be believed", 0),
        Err(refusal) => (in_words(refusal), refusal.number()),
    };
    println!("{what}: {words} ({number})");
}

fn in_words(refusal: Refusal) -> &'static str {
    match refusal {
        Refusal::WrongSize => "no: a block of this file has another size",
        Refusal::NoAnchor => "not yet: no hash is held to compare it with",
        Refusal::Differs => "no: its hash is not the one held",
        _ => "no",
    }
}

fn hear(store: &mut Store<Vec<u8>>, what: &str, reply: &[u8]) {
    match store.take(reply) {
        Ok(newly) => println!("{what}: taken, {newly} hashes newly held"),
        Err(refusal) => println!("{what}: refused ({}), nothing is lost", refusal.number()),
    }
}

/// Which blocks were judged right, and the bitfield that tells neighbours which pieces are whole: here a piece is a block.
fn on_disk(store: &Store<Vec<u8>>, when: &str) -> Result<(), Refusal> {
    let blocks = LENGTH.div_ceil(BLOCK);
    let mut marked = 0;
    for block in 0..blocks {
        marked += u64::from(store.marked(block)?);
    }
    let mut out = [0; 1];
    let field = store.bitfield(&mut out)?;
    println!("{when}: {marked} of {blocks} blocks on disk, bitfield {:02x}", field[0]);
    Ok(())
}

/// What a neighbour that has the whole history would send for (base 0, index 0, length 2, proof layers 0), and the pieces root.
fn neighbours_reply(history: &[u8]) -> Result<(Vec<u8>, Hash), Refusal> {
    let (first, second) = history.split_at(BLOCK as usize);
    let leaves = [sha256(first)?, sha256(second)?].concat();
    let root = sha256(&leaves)?;
    let mut reply = vec![0; HEADER_SIZE];
    reply[0] = HASHES;
    reply[1..1 + HASH].copy_from_slice(&root);
    reply[44] = 2;
    reply.extend_from_slice(&leaves);
    Ok((reply, root))
}

fn main() -> Result<(), Refusal> {
    let today = [37; LENGTH as usize];
    let yesterday = [36; LENGTH as usize];
    let (reply, root) = neighbours_reply(&today)?;
    let (old_reply, _) = neighbours_reply(&yesterday)?;
    let (block_0, block_1) = today.split_at(BLOCK as usize);

    // A real gateway has length, piece length and pieces root from the torrent.
    let memory = vec![0; store_size(LENGTH, SMALLEST_PIECE_LENGTH)?];
    let mut store = Store::open(memory, LENGTH, SMALLEST_PIECE_LENGTH, root)?;

    judge(&mut store, "block 0 before any reply", 0, block_0);
    hear(&mut store, "a reply about yesterday's file", &old_reply);
    // A bit of the first hash is another on its way here.
    let mut damaged = reply.clone();
    damaged[HEADER_SIZE] ^= 1;
    hear(&mut store, "a damaged reply", &damaged);
    hear(&mut store, "the true reply", &reply);
    judge(&mut store, "block 0 of today", 0, block_0);
    judge(&mut store, "block 0 of yesterday", 0, &yesterday[..BLOCK as usize]);
    judge(&mut store, "block 1 of today", 1, block_1);
    judge(&mut store, "block 1 with its end missing", 1, &block_1[..500]);
    on_disk(&store, "at last")?;
    store.clear(0)?;
    on_disk(&store, "when block 0 is lost")
}
