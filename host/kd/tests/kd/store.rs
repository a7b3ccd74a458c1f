use crate::folder::{content, Folder};
use crate::run::kd_in;
use kombudeva::{store_size, History, Store};

const LENGTH: u64 = 262_145;
const PIECE: u64 = 65_536;

/// `saved`, a store of a file with its layer, of which the first and the last piece were judged right; and the file's root.
fn saved() -> (Folder, [u8; 32]) {
    let bytes = content(b"cells/7.log", LENGTH as usize);
    let mut layer = [0; 5 * 32];
    let mut history = History::begin(PIECE, &mut layer).unwrap();
    history.more(&bytes).unwrap();
    let logged = history.end().unwrap();
    let memory = vec![0; store_size(LENGTH, PIECE).unwrap()];
    let mut store = Store::open(memory, LENGTH, PIECE, logged.root).unwrap();
    store.load_layer(logged.layer).unwrap();
    store.judge_piece(0, &bytes[..PIECE as usize]).unwrap();
    store.judge_piece(4, &bytes[4 * PIECE as usize..]).unwrap();
    let folder = Folder::new();
    let mut room = vec![0; 2 * store.bytes().len()];
    folder.put("saved", store.save(&mut room).unwrap());
    (folder, logged.root)
}

pub fn store_is_shown_and_checked() {
    let (folder, root) = saved();
    let root: String = root.iter().map(|byte| format!("{byte:02x}")).collect();
    let page = kd_in(&folder, &["store", "show", "saved"]);
    assert!(page.code == 0 && page.out.contains(&format!("root          {root}\n")), "{page:?}");
    assert!(page.out.ends_with("judged right  5 of 17 blocks\n"), "{}", page.out);
    let object = &kd_in(&folder, &["store", "show", "--json", "saved"]).objects()[0];
    assert_eq!((&object["length"], &object["marked"], &object["number"]), (&LENGTH.into(), &5.into(), &0.into()));
    let said = kd_in(&folder, &["store", "check", "saved"]);
    assert!(said.code == 0 && said.out.starts_with("ok     saved  "), "{said:?}");
    kd_in(&folder, &["store", "check", "-q", "saved"]).assert(0, "", "");
}

/// A byte of a hash in the middle: it is refused, and what chains to the root can be kept.
pub fn store_is_repaired_elsewhere() {
    let (folder, _) = saved();
    let size = std::fs::metadata(folder.join("saved")).unwrap().len() as usize;
    folder.spoil("saved", size / 2);
    let said = kd_in(&folder, &["store", "check", "saved", "none"]);
    assert!(said.code == 2 && said.out.ends_with("(32)\n"), "{said:?}");
    assert_eq!(kd_in(&folder, &["store", "check", "saved"]).code, 1);
    assert_eq!(kd_in(&folder, &["store", "show", "saved"]).code, 3);
    let in_place = kd_in(&folder, &["store", "repair", "saved", "-o", "saved"]);
    in_place.assert(2, "", "kd: a repair is never in place: name another file\n");
    let mended = kd_in(&folder, &["store", "repair", "saved", "-o", "mended"]);
    assert!(mended.code == 0 && mended.out.starts_with("mended: ") && mended.out.contains(" dropped, "), "{mended:?}");
    let shown = kd_in(&folder, &["store", "show", "mended"]);
    assert!(shown.code == 0 && shown.out.ends_with("judged right  0 of 17 blocks\n"), "{shown:?}");
}
