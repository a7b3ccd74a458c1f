//! A gateway that holds a file's hashes serves a neighbour's request for some of them; the neighbour's bytes come over a link, cut
//! anywhere. It prints what `host/example/serve.c` prints.

use kombudeva::limits::{BLOCK, LARGEST_REPLY, LONGEST_FRAME, SMALLEST_PIECE_LENGTH};
use kombudeva::{frame, ids, sha256, store_size, Hash, Heard, History, Refusal, Store, Stream};

/// The file: four blocks, each a piece. Its piece layer is its leaves.
const BLOCKS: usize = 4;
const LENGTH: u64 = BLOCKS as u64 * BLOCK;

/// A store for the file of which the root is held, and nothing else.
fn opened(root: Hash) -> Result<Store<Vec<u8>>, Refusal> {
    Store::open(vec![0; store_size(LENGTH, SMALLEST_PIECE_LENGTH)?], LENGTH, SMALLEST_PIECE_LENGTH, root)
}

/// What goes back for a message: for a request the reply or the reject, for others nothing.
fn answer<'o>(store: &Store<Vec<u8>>, message: &[u8], out: &'o mut [u8]) -> &'o [u8] {
    if message[0] != ids::HASH_REQUEST {
        return &[];
    }
    let served = store.serve(message, out);
    match served.answer {
        Ok(()) => println!("served: {} bytes", served.reply.len()),
        Err(refusal) => println!("not served ({}): {} bytes", refusal.number(), served.reply.len()),
    }
    served.reply
}

/// What comes over the link, three bytes at a time; each request is answered, and the answers are framed again.
fn over_the_link(store: &Store<Vec<u8>>, sent: &[u8]) -> Result<Vec<u8>, Refusal> {
    let (mut room, mut out, mut framed) = (vec![0; LONGEST_FRAME], vec![0; LARGEST_REPLY], vec![0; 4 + LARGEST_REPLY]);
    let mut stream = Stream::begin(&mut room);
    let mut back = Vec::new();
    for bytes in sent.chunks(3) {
        let mut hearing = stream.hear(bytes);
        while let Some(heard) = hearing.next() {
            if let Heard::Message(message) = heard? {
                back.extend_from_slice(frame(answer(store, message, &mut out), &mut framed)?);
            }
        }
    }
    Ok(back)
}

/// The request that a store names next, in its frame.
fn request(store: &Store<Vec<u8>>) -> Result<Option<Vec<u8>>, Refusal> {
    let Some(request) = store.next_request(0)? else { return Ok(None) };
    let mut framed = [0; 100];
    Ok(Some(frame(&request.message, &mut framed)?.to_vec()))
}

fn main() -> Result<(), Refusal> {
    let file = [37; LENGTH as usize];
    let mut layer = [0; BLOCKS * 32];
    let mut history = History::begin(SMALLEST_PIECE_LENGTH, &mut layer)?;
    history.more(&file)?;
    let logged = history.end()?;
    assert_eq!(sha256(&file[..BLOCK as usize])?, logged.layer[..32]);

    let mut ours = opened(logged.root)?;
    let mut theirs = opened(logged.root)?;
    let asked = request(&theirs)?.expect("no leaf is held");
    over_the_link(&ours, &asked)?;

    println!("its layer is loaded: {} hashes newly held", ours.load_layer(logged.layer)?);
    let reply = over_the_link(&ours, &asked)?;
    println!("the neighbour takes it: {} hashes newly held", theirs.take(&reply[4..])?);
    println!("{}", if request(&theirs)?.is_none() { "and has nothing more to ask" } else { "and asks on" });
    Ok(())
}
