use crate::folder::{content, Folder};
use crate::run::kd_in;

/// `old.torrent` and `new.torrent` of a folder whose file had `before` bytes and has `now`, the first `changed` of which are others.
fn two(before: usize, now: usize, changed: usize) -> Folder {
    let folder = Folder::new();
    let mut bytes = content(b"log", before.max(now));
    folder.put("d/log", &bytes[..before]);
    kd_in(&folder, &["make", "-q", "-s", "32K", "-o", "old.torrent", "d"]).assert(0, "", "");
    bytes[..changed].iter_mut().for_each(|byte| *byte ^= 1);
    folder.put("d/log", &bytes[..now]);
    kd_in(&folder, &["make", "-q", "-s", "64K", "-o", "new.torrent", "d"]).assert(0, "", "");
    folder
}

/// Old lengths at and beside the ends of blocks and pieces.
pub fn extends_finds_what_was_appended() {
    for before in [1, 16_384, 16_385, 65_536, 65_537, 100_000, 131_072] {
        let folder = two(before, 140_000, 0);
        kd_in(&folder, &["extends", "-q", "old.torrent", "new.torrent"]).assert(0, "", "");
    }
    let said = kd_in(&two(0, 5, 0), &["extends", "old.torrent", "new.torrent"]);
    said.assert(0, "extended             0 B to 5 B  log\n", "");
}

pub fn extends_finds_what_got_younger() {
    let folder = two(100_000, 140_000, 1);
    let said = kd_in(&folder, &["extends", "--json", "old.torrent", "new.torrent"]);
    let object = &said.objects()[0];
    assert_eq!((said.code, &object["became"], &object["number"]), (1, &"younger".into(), &7.into()));
    let shorter = kd_in(&two(100_000, 99_999, 0), &["extends", "old.torrent", "new.torrent"]);
    assert!(shorter.code == 1 && shorter.out.starts_with("younger ") && shorter.out.ends_with("(3)\n"), "{shorter:?}");
    // The file at its place is not the new one.
    folder.spoil("d/log", 100_000);
    assert_eq!(kd_in(&folder, &["extends", "-q", "old.torrent", "new.torrent"]).code, 1);
    std::fs::rename(folder.join("d/log"), folder.join("d/other")).unwrap();
    let unread = kd_in(&folder, &["extends", "-q", "old.torrent", "new.torrent"]);
    assert!(unread.code == 2 && unread.out.starts_with("unread "), "{unread:?}");
}
