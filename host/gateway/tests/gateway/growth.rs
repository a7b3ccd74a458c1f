//! Histories that grow, and one that does not.

use kdgate::grown::{judge, Not, Version};
use kdgate::leaves;
use kombudeva::{History, TorrentBuilder};

fn torrent(files: &[(&str, &[u8])], piece_length: u64) -> Vec<u8> {
    let mut builder = TorrentBuilder::new(piece_length, b"rack");
    for (name, bytes) in files {
        let mut layer = vec![0; 32 * (bytes.len() / piece_length as usize + 1)];
        let mut history = History::begin(piece_length, &mut layer).unwrap();
        history.more(bytes).unwrap();
        builder.add_logged([name], &history.end().unwrap());
    }
    builder.write().unwrap()
}

/// Judges with the new file's bytes in hand.
fn went_on(old: &[u8], new: &[u8], piece_length: u64) -> Result<(), Not> {
    let versions = [old, new].map(|bytes| Version::read(&torrent(&[("log", bytes)], piece_length)).unwrap());
    judge(&versions[0], &versions[1], |_, store, need| {
        let at = (need.piece * piece_length) as usize;
        let data = &new[at..new.len().min(at + piece_length as usize)];
        leaves::learn(store, need.piece, data).map_err(|refusal| refusal.to_string())?;
        let block = |block: u64| new[block as usize * 16384..new.len().min((block as usize + 1) * 16384)].to_vec();
        Ok(need.block.map_or(Vec::new(), block))
    })
}

pub fn a_history_that_grew_is_told_from_one_that_changed() {
    let bytes: Vec<u8> = (0..300_000_u32).map(|at| (at * 7 + at / 251) as u8).collect();
    for piece_length in [16384, 65536] {
        for old in [1, 16384, 16385, 65536, 65537, 70_000, 131_072, 299_999, 300_000] {
            assert_eq!(went_on(&bytes[..old], &bytes, piece_length), Ok(()), "{old} of {piece_length}");
            if old < 300_000 {
                assert!(matches!(went_on(&bytes, &bytes[..old], piece_length), Err(Not::Grown(_))), "{old} backwards");
            }
            let mut changed = bytes.clone();
            changed[old / 2] ^= 1;
            assert!(matches!(went_on(&bytes[..old], &changed, piece_length), Err(Not::Grown(_))), "{old} changed");
        }
    }
    let read = |files: &[(&str, &[u8])]| Version::read(&torrent(files, 16384)).unwrap();
    let (one, two) = (read(&[("a", b"1")]), read(&[("a", b"1"), ("b", b"2")]));
    let nobody = |_: &_, _: &mut _, _| Err("nobody is asked".into());
    assert_eq!(judge(&one, &two, nobody), Ok(()), "a file more");
    assert!(matches!(judge(&two, &one, nobody), Err(Not::Grown(_))), "a file less");
    assert!(matches!(judge(&one, &read(&[("a", b"12")]), nobody), Err(Not::Known(_))), "not known yet");
}
