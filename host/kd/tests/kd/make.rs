use crate::folder::{content, rack, Folder, RACK};
use crate::run::{kd_given, kd_in, shell};
use crate::show::INFO_HASH;
use std::fs;
use std::os::unix::fs::symlink;
use std::process::Command;

pub fn make_and_verify() {
    let folder = rack();
    let said = kd_in(&folder, &["make", "rack", "-o", "made.torrent"]);
    said.assert(0, "made.torrent: 4 files, 509.9 KiB, pieces of 64 KiB\n", "");
    assert!(fs::read(folder.join("made.torrent")).unwrap() == fs::read(folder.join("rack.torrent")).unwrap());
    kd_in(&folder, &["verify", "-q", "made.torrent"]).assert(0, "", "");
    let object = &kd_in(&folder, &["make", "--json", "rack", "-o", "made.torrent"]).objects()[0];
    assert_eq!((&object["info_hash"], &object["path"]), (&INFO_HASH.into(), &"made.torrent".into()));
    // A file that is replaced.
    kd_in(&folder, &["make", "-q", "-s", "16K", "rack/cells/1.log", "-o", "made.torrent"]).assert(0, "", "");
    kd_in(&folder, &["verify", "-q", "made.torrent", "rack/cells"]).assert(0, "", "");
    assert_eq!(folder.names(""), ["made.torrent", "rack", "rack.torrent"]);
}

pub fn make_goes_by_standard_input_and_output() {
    let folder = rack();
    let by_file = kd_in(&folder, &["make", "-s", "64K", "-o", "-", "rack/cells/1.log"]);
    assert_eq!((by_file.code, &by_file.err[..]), (0, ""));
    let bytes = content(b"cells/1.log", 200_000);
    let by_pipe = kd_given(&bytes, &["make", "-s", "64K", "-n", "1.log", "-o", "-", "-"]);
    assert!(by_pipe.code == 0 && by_pipe.bytes == by_file.bytes);
    assert_eq!(
        kd_given(&bytes, &["make", "-o", "-", "-"]).err,
        "kd: standard input has no name: give one with --name\n"
    );
    let device = shell(&folder, "$KD make -q -s 64K -o /dev/stdout rack/cells/1.log | cat");
    assert!(device.code == 0 && device.bytes == by_file.bytes);
}

pub fn make_leaves_out_links_and_itself() {
    let folder = rack();
    symlink("1.log", folder.join("rack/cells/link")).unwrap();
    let said = kd_in(&folder.join("rack"), &["make", "-s", "64K", "."]);
    said.assert(0, "rack.torrent: 4 files, 509.9 KiB, pieces of 64 KiB\n", "kd: left out: ./cells/link: a link\n");
    let again = kd_in(&folder.join("rack"), &["make", "-s", "64K", "."]);
    assert!(again.err.contains("kd: left out: ./rack.torrent: the torrent itself\n"), "{}", again.err);
    let (first, second) = (folder.join("rack.torrent"), folder.join("rack/rack.torrent"));
    assert!(fs::read(first).unwrap() == fs::read(second).unwrap());
}

pub fn make_is_refused_by_number() {
    let folder = Folder::new();
    fs::create_dir(folder.join("nothing")).unwrap();
    let said = kd_in(&folder, &["make", "nothing"]);
    said.assert(3, "", "kd: nothing: refused: a wrong file tree (25)\n");
    folder.put("file", &[0; 100_000]);
    let said = kd_in(&folder, &["make", "-s", "20000", "file"]);
    said.assert(3, "", "kd: file: refused: facts out of range (10)\n");
    fs::File::create(folder.join("long")).unwrap().set_len((16 << 30) + 1).unwrap();
    kd_in(&folder, &["make", "long"]).assert(3, "", "kd: long: refused: facts out of range (10)\n");
    fs::File::create(folder.join("long")).unwrap().set_len(1 << 30).unwrap();
    let said = kd_in(&folder, &["make", "-s", "16K", "long"]);
    said.assert(2, "", "kd: pieces of 16 KiB make a torrent above 1 MiB\n");
    assert_eq!(kd_in(&folder, &["make", "-s", "64Q", "file"]).code, 2);
    assert_eq!(kd_in(&folder, &["make", "none"]).code, 2);
    assert_eq!(folder.names(""), ["file", "long", "nothing"]);
}

/// A disk that is full, as far as a shell can say so without being root: no file may be longer than nothing.
pub fn make_writes_whole_or_not_at_all() {
    let folder = rack();
    let before = fs::read(folder.join("rack.torrent")).unwrap();
    let said = shell(&folder, "trap '' XFSZ; ulimit -f 0; $KD make rack -s 32K -o rack.torrent");
    assert_eq!((said.code, &said.out[..]), (2, ""), "{}", said.err);
    assert!(said.err.starts_with("kd: rack.torrent: File too large"), "{}", said.err);
    assert!(fs::read(folder.join("rack.torrent")).unwrap() == before);
    assert_eq!(folder.names(""), ["rack", "rack.torrent"]);
    assert_eq!(kd_in(&folder, &["make", "-q", "rack", "-o", "none/x.torrent"]).code, 2);
    assert_eq!(kd_in(&folder, &["make", "-q", "rack", "-o", "rack"]).code, 2);
    assert_eq!(folder.names("rack"), ["cells", "firmware"]);
}

const LIBTORRENT: &str = "
import libtorrent, sys
storage = libtorrent.file_storage()
for path, length in zip(sys.argv[2::2], sys.argv[3::2]):
    storage.add_file('rack/' + path, int(length))
made = libtorrent.create_torrent(storage, 65536, libtorrent.create_torrent.v2_only)
libtorrent.set_piece_hashes(made, sys.argv[1])
print(libtorrent.torrent_info(libtorrent.bencode(made.generate())).info_hashes().v2)
";

/// Where libtorrent is installed.
pub fn make_has_the_info_hash_of_libtorrent() {
    let folder = rack();
    let mut python = Command::new("/usr/bin/python3");
    python.args(["-c", LIBTORRENT]).arg(&*folder);
    for (path, length) in RACK {
        python.args([path, &length.to_string()]);
    }
    match python.output() {
        Ok(output) if output.status.success() => {
            assert_eq!(String::from_utf8_lossy(&output.stdout).trim_end(), INFO_HASH);
        }
        _ => println!("left out: libtorrent's info hash, which is not installed"),
    }
}
