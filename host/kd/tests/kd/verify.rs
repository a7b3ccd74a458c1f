use crate::folder::{content, rack, Folder};
use crate::run::{kd, kd_in, shell, Said};
use std::fs;
use std::os::unix::fs::symlink;

pub fn verify_finds_all_right() {
    let folder = rack();
    let lines = "\
ok        195.3 KiB  cells/1.log
ok        256.0 KiB  cells/7.log
ok              0 B  cells/empty
ok         58.6 KiB  firmware/sensor.bin
4 files: 4 ok, 0 wrong, 0 missing; 509.9 KiB may be believed
";
    kd(&["verify", &folder.text("rack.torrent"), &folder.text("")]).assert(0, lines, "");
    kd(&["verify", "-q", &folder.text("rack.torrent"), &folder.text("rack")]).assert(0, "", "");
    kd_in(&folder, &["verify", "rack.torrent"]).assert(0, lines, "");
}

/// The place may be the folder, the one above, or of one file the file; a folder of the torrent's name may stand in the folder itself.
pub fn verify_finds_the_files() {
    let folder = rack();
    let one = folder.put("one.log", &content(b"one", 20_000));
    kd_in(&folder, &["make", "-q", "one.log"]).assert(0, "", "");
    kd_in(&folder, &["verify", "-q", "one.log.torrent"]).assert(0, "", "");
    fs::rename(one, folder.join("other name")).unwrap();
    kd_in(&folder, &["verify", "-q", "one.log.torrent", "other name"]).assert(0, "", "");
    let said = kd_in(&folder, &["verify", "rack.torrent", "other name"]);
    said.assert(2, "", "kd: the torrent has 4 files: name their folder\n");
    kd_in(&folder, &["verify", "rack.torrent", "nowhere"]).assert(
        2,
        "",
        "kd: nowhere: No such file or directory (os error 2)\n",
    );
    fs::create_dir(folder.join("rack/rack")).unwrap();
    kd_in(&folder, &["verify", "-q", "rack.torrent", "rack"]).assert(0, "", "");
}

/// A file of each kind.
fn spoiled() -> Folder {
    let folder = rack();
    folder.spoil("rack/cells/7.log", 70_000);
    folder.spoil("rack/cells/7.log", 262_144);
    folder.put("rack/cells/empty", b"12345");
    fs::remove_file(folder.join("rack/firmware/sensor.bin")).unwrap();
    let mut short = fs::read(folder.join("rack/cells/1.log")).unwrap();
    short.truncate(140_000);
    folder.put("rack/cells/1.log", &short);
    folder
}

pub fn verify_tells_what_is_wrong() {
    let folder = spoiled();
    let wrong = "\
wrong     195.3 KiB  cells/1.log  2 of 4 pieces: bytes 131072-199999; it ends after 140000 bytes
wrong     256.0 KiB  cells/7.log  2 of 5 pieces: bytes 65536-131071, 262144-262144
longer          0 B  cells/empty  right, but 5 bytes follow
missing    58.6 KiB  firmware/sensor.bin
";
    let all =
        format!("{wrong}4 files: 0 ok, 2 wrong, 1 missing, 1 longer; 189.9 KiB of 509.9 KiB may not be believed\n");
    kd_in(&folder, &["verify", "rack.torrent"]).assert(1, &all, "");
    kd_in(&folder, &["verify", "--quiet", "rack.torrent"]).assert(1, wrong, "");
}

pub fn verify_tells_it_as_objects() {
    let folder = spoiled();
    let said = kd_in(&folder, &["verify", "--json", "rack.torrent"]);
    let objects = said.objects();
    assert_eq!((said.code, objects.len()), (1, 5));
    let parts = r#"[{"first":65536,"last":131071,"number":7},{"first":262144,"last":262144,"number":7}]"#;
    assert_eq!(objects[1]["wrong"].to_string(), parts);
    assert_eq!(objects[0]["wrong"].to_string(), r#"[{"first":131072,"last":199999,"number":4}]"#);
    let states: Vec<_> = objects.iter().filter_map(|object| object["state"].as_str()).collect();
    assert_eq!(states, ["wrong", "wrong", "longer", "missing"]);
    assert_eq!(objects[4]["summary"]["believed"], 327_680);
    assert_eq!(objects[4]["summary"]["bytes"], 522_145);
}

pub fn verify_says_the_same_with_more_threads() {
    let folder = spoiled();
    let said = |threads: &str| kd_in(&folder, &["verify", "-j", threads, "rack.torrent"]);
    let alone: Said = said("1");
    assert_eq!(said("3"), alone);
    assert_eq!(kd_in(&folder, &["verify", "-j", "0", "rack.torrent"]).code, 2);
}

pub fn verify_reads_no_pipes_and_folders() {
    let folder = rack();
    fs::remove_file(folder.join("rack/cells/1.log")).unwrap();
    fs::create_dir(folder.join("rack/cells/1.log")).unwrap();
    assert_eq!(shell(&folder, "rm rack/cells/7.log && mkfifo rack/cells/7.log").code, 0);
    let lines = "\
unread    195.3 KiB  cells/1.log  not a regular file
unread    256.0 KiB  cells/7.log  not a regular file
";
    kd_in(&folder, &["verify", "-q", "rack.torrent"]).assert(2, lines, "");
}

/// A name that would lead elsewhere is no folder to look in.
pub fn verify_stays_below_its_place() {
    let folder = rack();
    let name = folder.text("rack");
    kd_in(&folder, &["make", "-q", "-n", &name, "-o", "odd.torrent", "rack"]).assert(0, "", "");
    fs::create_dir(folder.join("empty")).unwrap();
    let said = kd_in(&folder, &["verify", "odd.torrent", "empty"]);
    assert!(said.code == 1 && said.out.contains("0 ok, 0 wrong, 4 missing"), "{said:?}");
    symlink(folder.join("rack"), folder.join("linked")).unwrap();
    assert_eq!(kd_in(&folder, &["verify", "-q", "odd.torrent", "linked"]).code, 0);
}

const LENGTHS: [usize; 10] = [1, 16_384, 16_385, 32_768, 32_769, 49_152, 65_536, 65_537, 98_304, 131_071];

/// Lengths around blocks and pieces: the last piece of each is judged, at its first byte and at its last.
pub fn verify_judges_last_pieces() {
    let folder = Folder::new();
    for length in LENGTHS {
        folder.put(format!("d/{length}"), &content(b"file", length));
    }
    kd_in(&folder, &["make", "-q", "-s", "32K", "d"]).assert(0, "", "");
    kd_in(&folder, &["verify", "-q", "d.torrent"]).assert(0, "", "");
    let last_piece = |length: usize| (length - 1) / 32_768 * 32_768;
    for at in [last_piece, |length| length - 1] {
        LENGTHS.iter().for_each(|length| folder.spoil(&format!("d/{length}"), at(*length)));
        let said = kd_in(&folder, &["verify", "d.torrent"]);
        for length in LENGTHS {
            let bytes = format!("  {length}  1 of {}", length.div_ceil(32_768));
            let found = said.out.lines().any(|line| {
                line.contains(&bytes) && line.ends_with(&format!(": bytes {}-{}", last_piece(length), length - 1))
            });
            assert!(found, "{length}: {}", said.out);
        }
        LENGTHS.iter().for_each(|length| folder.spoil(&format!("d/{length}"), at(*length)));
    }
}
