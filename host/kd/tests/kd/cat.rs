use crate::folder::{content, rack};
use crate::run::{kd_given, kd_in};
use std::fs;

pub fn cat_writes_what_may_be_believed() {
    let folder = rack();
    let bytes = content(b"cells/7.log", 262_145);
    for place in [".", "rack", "rack/cells/7.log"] {
        let said = kd_in(&folder, &["cat", "rack.torrent", "cells/7.log", place]);
        assert!(said.code == 0 && said.bytes == bytes && said.err.is_empty(), "{place}: {}", said.err);
    }
    kd_in(&folder, &["cat", "rack.torrent", "cells/empty", "."]).assert(0, "", "");
    // What follows does not belong to it.
    fs::write(folder.join("rack/cells/7.log"), [&bytes[..], b"more"].concat()).unwrap();
    assert!(kd_in(&folder, &["cat", "rack.torrent", "cells/7.log", "."]).bytes == bytes);
}

pub fn cat_stops_at_the_first_wrong_piece() {
    let folder = rack();
    let bytes = content(b"cells/7.log", 262_145);
    folder.spoil("rack/cells/7.log", 70_000);
    let said = kd_in(&folder, &["cat", "rack.torrent", "cells/7.log", "."]);
    assert!(said.code == 1 && said.bytes == bytes[..65_536]);
    assert_eq!(said.err, "kd: ./rack/cells/7.log: from byte 65536 on nothing is written: not what is held (7)\n");
    fs::write(folder.join("rack/cells/7.log"), &bytes[..262_144]).unwrap();
    let said = kd_in(&folder, &["cat", "rack.torrent", "cells/7.log", "."]);
    assert!(said.code == 1 && said.bytes == bytes[..262_144] && said.err.ends_with("of another size (4)\n"));
}

pub fn cat_reads_standard_input() {
    let folder = rack();
    let bytes = content(b"firmware/sensor.bin", 60_000);
    let torrent = folder.text("rack.torrent");
    let arguments = ["cat", &torrent, "firmware/sensor.bin", "-"];
    assert!(kd_given(&bytes, &arguments).bytes == bytes);
    let said = kd_given(&bytes[1..], &arguments);
    said.assert(1, "", "kd: standard input: from byte 0 on nothing is written: of another size (4)\n");
    assert_eq!(kd_given(&bytes, &["cat", "-", "firmware/sensor.bin", "-"]).code, 2);
}

pub fn cat_has_no_such_file() {
    let folder = rack();
    let said = kd_in(&folder, &["cat", "rack.torrent", "cells", "."]);
    said.assert(2, "", "kd: the torrent has no file cells; kd show lists what it has\n");
    fs::remove_file(folder.join("rack/cells/1.log")).unwrap();
    let said = kd_in(&folder, &["cat", "rack.torrent", "cells/1.log", "."]);
    said.assert(2, "", "kd: ./rack/cells/1.log: No such file or directory (os error 2)\n");
}
