//! A torrent written as an ordinary Rust programmer writes it: a `Vec` of the files sorted by path, hash maps for what files with one
//! root share, the tree written by recursion over groups of the sorted files.

use host_tests::lists::Planned;
use reference::limits::{BLOCK, ELEMENTS, LARGEST_TORRENT, LONGEST_FILE};
use reference::number::*;
use reference::sha256::Hash;
use reference::torrent::{element_right, layer_differs};
use reference::tree::{padding, piece_length_in_range};
use std::collections::{BTreeMap, HashMap};
use std::io::Write;

pub fn write(files: &[Planned], piece_length: u64, name: &[u8]) -> Result<Vec<u8>, u32> {
    if files.iter().any(|file| file.path.len() > ELEMENTS) {
        return Err(NESTED_TOO_DEEPLY);
    }
    if !piece_length_in_range(piece_length) {
        return Err(PIECE_LENGTH_OUT_OF_RANGE);
    }
    let mut sorted: Vec<&Planned> = files.iter().collect();
    sorted.sort_by(|one, other| one.path.cmp(&other.path));
    if files.is_empty()
        || files.iter().any(is_wrong)
        || sorted.windows(2).any(|two| two[1].path.starts_with(&two[0].path))
    {
        return Err(WRONG_TREE);
    }
    let layers = layers(files, piece_length)?;
    let mut torrent = b"d4:infod9:file tree".to_vec();
    put_tree(&mut torrent, &sorted, 0);
    torrent.extend_from_slice(b"12:meta versioni2e4:name");
    put_string(&mut torrent, name);
    write!(torrent, "12:piece lengthi{piece_length}ee12:piece layersd").unwrap();
    for (root, layer) in layers {
        put_string(&mut torrent, root);
        put_string(&mut torrent, layer);
    }
    torrent.extend_from_slice(b"ee");
    if torrent.len() > LARGEST_TORRENT {
        return Err(TORRENT_TOO_LARGE);
    }
    Ok(torrent)
}

fn is_wrong(file: &Planned) -> bool {
    file.path.is_empty()
        || file.path.iter().any(|element| !element_right(element))
        || file.length > LONGEST_FILE
        || file.length == 0 && file.root != [0; 32]
}

/// The layer of each root that has one, and 26 to 28.
fn layers(files: &[Planned], piece_length: u64) -> Result<BTreeMap<&Hash, &[u8]>, u32> {
    let mut by_root: HashMap<&Hash, &Planned> = HashMap::with_capacity(files.len());
    let full = || files.iter().filter(|file| file.length > 0);
    if full().any(|file| by_root.entry(&file.root).or_insert(file).length != file.length) {
        return Err(TWO_LENGTHS);
    }
    let size = |file: &Planned| if file.length > piece_length { 32 * file.length.div_ceil(piece_length) } else { 0 };
    if files.iter().any(|file| file.layer.len() as u64 != size(file)) {
        return Err(LAYERS_AMISS);
    }
    if full().any(|file| by_root[&file.root].layer != file.layer) {
        return Err(LAYER_DIFFERS);
    }
    let filler = padding((piece_length / BLOCK).trailing_zeros() as u64);
    let layers: BTreeMap<&Hash, &[u8]> =
        by_root.into_values().filter(|file| !file.layer.is_empty()).map(|file| (&file.root, &file.layer[..])).collect();
    if layers.iter().any(|(root, layer)| layer_differs(layer, root, filler)) {
        return Err(LAYER_DIFFERS);
    }
    Ok(layers)
}

fn put_string(torrent: &mut Vec<u8>, string: &[u8]) {
    write!(torrent, "{}:", string.len()).unwrap();
    torrent.extend_from_slice(string);
}

/// The files below one folder, whose path has `depth` elements.
fn put_tree(torrent: &mut Vec<u8>, files: &[&Planned], depth: usize) {
    torrent.push(b'd');
    for below in files.chunk_by(|one, other| one.path[depth] == other.path[depth]) {
        put_string(torrent, &below[0].path[depth]);
        if below[0].path.len() == depth + 1 {
            put_file(torrent, below[0]);
        } else {
            put_tree(torrent, below, depth + 1);
        }
    }
    torrent.push(b'e');
}

fn put_file(torrent: &mut Vec<u8>, file: &Planned) {
    write!(torrent, "d0:d6:lengthi{}e", file.length).unwrap();
    if file.length > 0 {
        torrent.extend_from_slice(b"11:pieces root");
        put_string(torrent, &file.root);
    }
    torrent.extend_from_slice(b"ee");
}
