//! A torrent written through the binding: a logger from its first burst to a store that believes what it published, and the
//! builder's own edges.

use kombudeva::limits::LARGEST_TORRENT;
use kombudeva::{store_size, History, Refusal, Store, Torrent, TorrentBuilder};

const PIECE: u64 = 32768;

fn bytes(seed: usize, size: usize) -> Vec<u8> {
    (0..size).map(|i| (i * 7 + i / 251 + seed) as u8).collect()
}

/// Bursts into a running tree.
fn logged<'a>(file: &[u8], layer: &'a mut [u8]) -> History<'a> {
    let mut history = History::begin(PIECE, layer).unwrap();
    for burst in file.chunks(999) {
        assert_eq!(history.more(burst), Ok(()));
    }
    history
}

/// Four files are logged in bursts, one of them twice under two paths and one of them empty; their torrent is written and read
/// back; a store is opened for each file with what the torrent says, the layer loaded and every piece judged: 0.
#[test]
fn a_logger_from_end_to_end() {
    let paths = [vec!["cells", "a", "voltage"], vec!["cells", "a.txt"], vec!["cells", "empty"], vec!["copy"]];
    let files = [bytes(1, 200_000), bytes(2, 17), Vec::new(), bytes(1, 200_000)];
    let mut builder = TorrentBuilder::new(PIECE, b"rack 7");
    for (path, file) in paths.iter().zip(&files) {
        let mut layer = [0xaa; 7 * 32];
        builder.add_logged(path, &logged(file, &mut layer).end().unwrap());
    }
    let written = builder.write().unwrap();

    let torrent = Torrent::read(&written).unwrap();
    assert_eq!((torrent.piece_length, torrent.files), (PIECE, 4));
    let mut memory = vec![0; torrent.list_size()];
    let list = torrent.list(&mut memory).unwrap();
    for ((listed, path), bytes) in list.zip(&paths).zip(&files) {
        let elements: Vec<&[u8]> = path.iter().map(|element| element.as_bytes()).collect();
        assert_eq!(listed.path().collect::<Vec<_>>(), elements);
        assert_eq!(listed.file.length, bytes.len() as u64);
        if bytes.is_empty() {
            assert_eq!(listed.file.root, [0; 32]);
            continue;
        }
        let mut memory = vec![0; store_size(listed.file.length, PIECE).unwrap()];
        let mut store = Store::open(&mut memory, listed.file.length, PIECE, listed.file.root).unwrap();
        if listed.file.length > PIECE {
            assert!(store.load_layer(listed.file.layer).is_ok());
        }
        for (piece, bytes) in bytes.chunks(PIECE as usize).enumerate() {
            assert_eq!(store.judge_piece(piece as u64, bytes), Ok(()));
        }
    }
}

/// A growing file is published again and again: each torrent is right for the bytes so far.
#[test]
fn a_growing_file() {
    let file = bytes(3, 100_000);
    let mut layer = [0; 4 * 32];
    let mut history = History::begin(PIECE, &mut layer).unwrap();
    for burst in file.chunks(25_000) {
        assert_eq!(history.more(burst), Ok(()));
        let so_far = history.end().unwrap();
        let written = TorrentBuilder::new(PIECE, b"").add_logged(["log"], &so_far).write().unwrap();
        let read = Torrent::read(&written).unwrap().file(0).unwrap();
        assert_eq!((read.length, read.root, read.layer), (so_far.length, so_far.root, so_far.layer));
    }
}

/// The order of the files makes no difference; a twin's layer stands once.
#[test]
fn order_and_twins() {
    let file = bytes(1, 100_000);
    let mut layer = [0; 4 * 32];
    let mut history = logged(&file, &mut layer);
    let twin = history.end().unwrap();
    let write = |names: [&str; 3]| {
        let mut builder = TorrentBuilder::new(PIECE, b"x");
        for name in names {
            builder.add_logged([name], &twin);
        }
        assert_eq!(builder.files(), 3);
        builder.write().unwrap()
    };
    let torrent = write(["a", "b", "c"]);
    assert_eq!(torrent, write(["c", "a", "b"]));
    assert_eq!(torrent.windows(twin.layer.len()).filter(|window| *window == twin.layer).count(), 1);
}

#[test]
fn refusals() {
    let mut builder = TorrentBuilder::new(PIECE, b"x");
    assert_eq!(builder.write(), Err(Refusal::WrongTree), "no file");
    builder.add(["a"], 1, [1; 32], &[]);
    let whole = builder.write().unwrap();
    let mut out = vec![0xaa; whole.len() + 1];
    assert_eq!(builder.write_into(&mut out[..whole.len() - 1]), Err(Refusal::NoRoom));
    assert!(out.iter().all(|byte| *byte == 0xaa));
    assert_eq!(builder.write_into(&mut out), Ok(&whole[..]));
    assert_eq!(out[whole.len()], 0xaa);

    let number = |path: &[&str], length: u64, root: [u8; 32], layer: &[u8]| {
        builder.clone().add(path, length, root, layer).write().unwrap_err().number()
    };
    for path in [&["a"][..], &["a", "b"], &[], &[""], &["b", ".."], &["."], &["b/c"], &["b\0"]] {
        assert_eq!(number(path, 1, [2; 32], &[]), 25, "{path:?}");
    }
    assert_eq!(number(&["b"], 1 << 63, [2; 32], &[]), 4);
    assert_eq!(number(&["b"; 29], 1, [2; 32], &[]), 21);
    assert_eq!(number(&["b"], 0, [2; 32], &[]), 25);
    assert_eq!(number(&["b"], 2, [1; 32], &[]), 26);
    assert_eq!(number(&["b"], 2, [2; 32], &[0; 32]), 27);
    assert_eq!(number(&["b"], PIECE + 1, [2; 32], &[0; 64]), 28);
    assert_eq!(TorrentBuilder::new(PIECE + 1, b"").write(), Err(Refusal::PieceLengthOutOfRange));
    assert_eq!(TorrentBuilder::new(PIECE, &vec![0; LARGEST_TORRENT]).write(), Err(Refusal::TorrentTooLarge));
}
