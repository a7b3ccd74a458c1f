//! Whether a new version of a history begins with the old one, file by file, as `kd_extends` says.

use kombudeva::limits::BLOCK;
use kombudeva::{first_piece, store_size, Facts, Hash, Refusal, Store, Torrent};
use readable::in_status;

/// A version of a history, as its torrent has it.
pub struct Version {
    pub info_hash: Hash,
    pub files: Vec<Entry>,
}

pub struct Entry {
    pub path: Vec<Vec<u8>>,
    pub facts: Facts,
    pub layer: Vec<u8>,
    pub first_piece: u64,
}

#[derive(Clone, Debug, PartialEq, Eq)]
pub enum Not {
    /// It is another history: what was written once is gone or changed.
    Grown(String),
    /// What is needed to say so could not be had.
    Known(String),
}

/// What has to be known beside the piece layer: the leaves of this piece of the new file, and this block of it.
pub struct Need {
    pub piece: u64,
    pub block: Option<u64>,
}

impl Version {
    pub fn read(bytes: &[u8]) -> Result<Version, Refusal> {
        let torrent = Torrent::read(bytes)?;
        let mut list = vec![0; torrent.list_size()];
        let piece_length = torrent.piece_length;
        let entry = |one: kombudeva::Listed| Entry {
            path: one.path().map(<[u8]>::to_vec).collect(),
            facts: Facts { length: one.file.length, piece_length, root: one.file.root },
            layer: one.file.layer.to_vec(),
            first_piece: 0,
        };
        let mut files: Vec<Entry> = torrent.list(&mut list)?.map(entry).collect();
        for (number, file) in files.iter_mut().enumerate() {
            file.first_piece = first_piece(&list, piece_length, number as u64)?;
        }
        Ok(Version { info_hash: torrent.info_hash, files })
    }
}

/// Whether each file of the old version goes on in the new one. `ask` makes the leaves of a piece held in the store of the new file, and
/// gives the block's bytes, judged right.
pub fn judge(
    old: &Version,
    new: &Version,
    mut ask: impl FnMut(&Entry, &mut Store<Vec<u8>>, Need) -> Result<Vec<u8>, String>,
) -> Result<(), Not> {
    for before in old.files.iter().filter(|file| file.facts.length > 0) {
        let name = in_status(&before.path.join(&b"/"[..]));
        let now = new.files.iter().find(|file| file.path == before.path);
        let now = now.ok_or_else(|| Not::Grown(format!("{name} is gone")))?;
        // One root and one length are one file.
        if (now.facts.length, now.facts.root) != (before.facts.length, before.facts.root) {
            judge_file(&before.facts, now, &mut ask).map_err(|not| match not {
                Not::Grown(why) => Not::Grown(format!("{name}: {why}")),
                Not::Known(why) => Not::Known(format!("{name}: {why}")),
            })?;
        }
    }
    Ok(())
}

fn judge_file(
    old: &Facts,
    new: &Entry,
    ask: &mut impl FnMut(&Entry, &mut Store<Vec<u8>>, Need) -> Result<Vec<u8>, String>,
) -> Result<(), Not> {
    let unknown = |refusal: Refusal| Not::Known(refusal.to_string());
    let Facts { length, piece_length, root } = new.facts;
    if length < old.length {
        return Err(Not::Grown(format!("{} bytes, and {length} now", old.length)));
    }
    let size = store_size(length, piece_length).map_err(unknown)?;
    let mut store = Store::open(vec![0; size], length, piece_length, root).map_err(unknown)?;
    if !new.layer.is_empty() {
        store.load_layer(&new.layer).map_err(unknown)?;
    }
    let block = (!old.length.is_multiple_of(BLOCK)).then_some(old.length / BLOCK);
    let mut bytes = Vec::new();
    if !old.length.is_multiple_of(piece_length) {
        let need = Need { piece: old.length / piece_length, block };
        bytes = ask(new, &mut store, need).map_err(Not::Known)?;
    }
    match store.extends(old.length, old.root, &bytes) {
        Ok(()) => Ok(()),
        Err(refusal @ (Refusal::Differs | Refusal::RuleBroken)) => {
            Err(Not::Grown(format!("its first {} bytes are others now: {refusal}", old.length)))
        }
        Err(refusal) => Err(unknown(refusal)),
    }
}
