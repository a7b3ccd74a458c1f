//! A logger publishes what it has written: bursts go into a running tree, the torrent of the logs is written, and whoever reads it
//! opens a store that takes the piece layer. It prints what `host/example/publish.c` prints.

use kombudeva::limits::SMALLEST_PIECE_LENGTH;
use kombudeva::{store_size, History, Refusal, Store, Torrent, TorrentBuilder};
use std::error::Error;
use std::io::Write;

/// The log's bytes come in bursts; nothing of them is kept.
fn log_in_bursts<'a>(bytes: &[u8], layer: &'a mut [u8]) -> Result<History<'a>, Box<dyn Error>> {
    let mut history = History::begin(SMALLEST_PIECE_LENGTH, layer)?;
    for burst in bytes.chunks(999) {
        history.write_all(burst)?;
    }
    Ok(history)
}

/// What a reader does with the torrent: every file's path and length, and a store for those that have a layer.
fn read_back(bytes: &[u8]) -> Result<(), Refusal> {
    let torrent = Torrent::read(bytes)?;
    println!("read back: 0, {} files", torrent.files);
    let mut memory = vec![0; torrent.list_size()];
    for listed in torrent.list(&mut memory)? {
        let path: Vec<_> = listed.path().map(String::from_utf8_lossy).collect();
        let file = listed.file;
        println!("  {}, {} bytes", path.join("/"), file.length);
        if file.layer.is_empty() {
            continue;
        }
        let memory = vec![0; store_size(file.length, torrent.piece_length)?];
        let mut store = Store::open(memory, file.length, torrent.piece_length, file.root)?;
        println!("  its layer in a store: 0, {} hashes newly held", store.load_layer(file.layer)?);
    }
    Ok(())
}

fn main() -> Result<(), Box<dyn Error>> {
    // Added in any order: `a/log` stands before `a.txt/log` in the torrent.
    let mut builder = TorrentBuilder::new(SMALLEST_PIECE_LENGTH, b"rack");
    let mut layer = [0; 4 * 32];
    builder.add_logged(["a.txt", "log"], &log_in_bursts(&[b'n'; 700], &mut layer)?.end()?);
    let mut wrong = builder.clone();
    let mut history = log_in_bursts(&[37; 50_000], &mut layer)?;
    let voltage = history.end()?;
    builder.add_logged(["a", "log"], &voltage);

    let mut small = [0; 100];
    let refused = builder.write_into(&mut small).unwrap_err();
    println!("into 100 bytes: {}, first byte {}", refused.number(), small[0]);
    let torrent = builder.write()?;
    println!("written: 0, {} bytes", torrent.len());
    read_back(&torrent)?;

    // A path that climbs out is not written.
    wrong.add_logged(["a", "../"], &voltage);
    println!("with a slash in a name: {}", wrong.write().unwrap_err().number());
    Ok(())
}
