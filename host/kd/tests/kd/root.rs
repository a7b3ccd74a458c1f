use crate::folder::{content, rack, Folder};
use crate::run::{kd_given, kd_in, shell};

pub fn root_is_that_of_the_torrent() {
    let folder = rack();
    let said = kd_in(&folder, &["root", "rack/cells/1.log", "rack/cells/7.log", "rack/cells/empty"]);
    let shown = kd_in(&folder, &["show", "--json", "rack.torrent"]).objects();
    for (line, file) in said.out.lines().zip(shown[0]["files"].as_array().unwrap()) {
        assert_eq!(line, format!("{}  rack/{}", file["root"].as_str().unwrap(), file["path"].as_str().unwrap()));
    }
    assert_eq!((said.code, said.out.lines().count()), (0, 3));
    let object = kd_in(&folder, &["root", "--json", "rack/cells/7.log"]).objects();
    assert_eq!((&object[0]["length"], &object[0]["root"]), (&262_145.into(), &shown[0]["files"][1]["root"]));
    let piped = kd_given(&content(b"cells/7.log", 262_145), &["root", "-"]);
    assert_eq!(piped.out, format!("{}  -\n", object[0]["root"].as_str().unwrap()));
}

/// A file of one block has its SHA-256 for a root: the lines are sha256sum's own.
pub fn root_has_the_form_of_sha256sum() {
    let folder = Folder::new();
    for name in ["plain", "with space", "a\\b", "a\nb", "zähler"] {
        folder.put(name, name.as_bytes());
    }
    let ours = shell(&folder, "$KD root *");
    assert_eq!((ours.code, ours.out), (0, shell(&folder, "sha256sum *").out));
}

pub fn root_goes_on_after_a_file_that_is_missing() {
    let folder = Folder::new();
    folder.put("a", b"1");
    folder.put("z", b"2");
    let said = kd_in(&folder, &["root", "a", "none", ".", "z"]);
    assert_eq!((said.code, said.out.lines().count()), (2, 2));
    let errors = "kd: none: No such file or directory (os error 2)\nkd: .: Is a directory (os error 21)\n";
    assert_eq!(said.err, errors);
}
