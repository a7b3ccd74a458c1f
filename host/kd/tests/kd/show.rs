use crate::folder::{rack, Folder};
use crate::run::{kd, kd_given};
use host_tests::random::Random;
use host_tests::shapes;
use host_tests::torrents::small;
use kombudeva::TorrentBuilder;
use reference::torrent::torrent_read;

/// As libtorrent has it: `make_has_the_info_hash_of_libtorrent`.
pub const INFO_HASH: &str = "e711a38bbb45ef3f04db4637d359b4d2803935adc73ea28fc0d3603f7842c248";

pub fn show_has_a_page() {
    let folder = rack();
    let page = format!(
        "\
name          rack
info hash     {INFO_HASH}
piece length  64 KiB
files         4, 509.9 KiB in 10 pieces

 451.3 KiB                cells/
 195.3 KiB  8135e901c93c    1.log
 256.0 KiB  70a3cbc787f3    7.log
       0 B  000000000000    empty
  58.6 KiB                firmware/
  58.6 KiB  c46d5b78f294    sensor.bin
"
    );
    kd(&["show", &folder.text("rack.torrent")]).assert(0, &page, "");
    let long = kd(&["show", "-l", &folder.text("rack.torrent")]);
    assert!(
        long.out.lines().nth(6).is_some_and(|line| line.contains("8135e901c93c") && line.len() > 80),
        "{}",
        long.out
    );
}

pub fn show_has_an_object() {
    let folder = rack();
    let said = kd(&["show", "--json", &folder.text("rack.torrent")]);
    let objects = said.objects();
    assert_eq!((said.code, objects.len()), (0, 1));
    assert_eq!(objects[0]["info_hash"], INFO_HASH);
    assert_eq!(objects[0]["name"], "rack");
    assert_eq!(objects[0]["pieces"], 10);
    assert_eq!(objects[0]["files"][1]["path"], "cells/7.log");
    assert_eq!(objects[0]["files"][1]["length"], 262_145);
}

pub fn show_has_a_magnet_link() {
    let folder = rack();
    let link = format!("magnet:?xt=urn:btmh:1220{INFO_HASH}&dn=rack\n");
    kd(&["show", "--magnet", &folder.text("rack.torrent")]).assert(0, &link, "");
    let odd = named("ä b", "x");
    assert!(kd_given(&odd, &["show", "--magnet", "-"]).out.ends_with("&dn=%C3%A4%20b\n"));
}

pub fn show_reads_standard_input() {
    let folder = rack();
    let torrent = std::fs::read(folder.join("rack.torrent")).unwrap();
    let by_name = kd(&["show", &folder.text("rack.torrent")]);
    assert_eq!(kd_given(&torrent, &["show", "-"]), by_name);
    kd_given(b"", &["show", "-"]).assert(3, "", "kd: standard input: refused: not strict bencoding (20)\n");
}

pub fn named(name: &str, path: &str) -> Vec<u8> {
    let mut builder = TorrentBuilder::new(16384, name.as_bytes());
    builder.add([path], 1, [7; 32], &[]);
    builder.write().unwrap()
}

pub fn show_escapes_names() {
    let said = kd_given(&named("a\x1b[2J", "b\n\u{202e}\u{9b}\\"), &["show", "-"]);
    assert_eq!(said.out.lines().next(), Some("name          a\\x1b[2J"));
    assert!(said.out.ends_with("  b\\n\\u{202e}\\u{9b}\\\\\n"), "{}", said.out);
    let said = kd_given(&named("a\x1b[2J", "b\u{9b}"), &["show", "--json", "-"]);
    assert!(
        said.out.contains("\"name\":\"a\\u001b[2J\"") && said.out.contains("\"path\":\"b\\u009b\""),
        "{}",
        said.out
    );
}

pub fn show_refuses_by_number() {
    let folder = Folder::new();
    let v1 = folder
        .put("v1.torrent", b"d4:infod6:lengthi1e4:name1:x12:piece lengthi16384e6:pieces20:aaaaaaaaaaaaaaaaaaaaee");
    let said = kd(&["show", v1.to_str().unwrap()]);
    assert_eq!((said.code, &said.out[..]), (3, ""));
    assert!(said.err.ends_with("v1.torrent: refused: a key missing or of another type (22)\n"), "{}", said.err);
    let large = folder.put("large", &vec![b'x'; (1 << 20) + 1]);
    assert!(kd(&["show", large.to_str().unwrap()]).err.ends_with("(19)\n"));
    let climbs = "d4:infod9:file treed2:..d0:d6:lengthi0eeee12:meta versioni2e4:name1:x12:piece lengthi16384ee12:piece layersdee";
    assert!(kd_given(climbs.as_bytes(), &["show", "-"]).err.ends_with("(25)\n"));
    assert_eq!(kd(&["show", &folder.text("none")]).code, 2);
}

/// A byte changed somewhere: refused with the reference's number, or shown.
pub fn show_answers_as_the_reference_does() {
    let mut random = Random::new(36);
    for _ in 0..8 {
        let mut torrent = small(&mut random);
        let at = random.below(torrent.len() as u64) as usize;
        torrent[at] ^= 1 << random.below(8);
        let (number, said) = (torrent_read(&torrent).number, kd_given(&torrent, &["show", "-"]));
        let expected = if number == 0 { (0, true) } else { (3, said.err.ends_with(&format!("({number})\n"))) };
        assert_eq!((said.code, true), (expected.0, expected.1), "{number}: {said:?}");
    }
}

const HOSTILE: [&str; 4] = ["empty-files", "28-elements", "many-layers", "huge-prefix"];

pub fn show_bears_hostile_shapes() {
    for shape in shapes::ALL.iter().filter(|shape| HOSTILE.contains(&shape.name)) {
        let said = kd_given(&(shape.make)(), &["show", "-"]);
        assert_eq!(said.code, if shape.number == 0 { 0 } else { 3 }, "{}", shape.name);
    }
}
