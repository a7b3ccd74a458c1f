use crate::folder::{content, rack, Folder};
use crate::run::{command, kd, shell};
use std::io::pipe;

const VERBS: [&str; 8] = ["show", "verify", "cat", "make", "root", "store", "extends", "explain"];

pub fn usage_is_2() {
    for arguments in
        [&[][..], &["none"], &["show"], &["show", "a", "b"], &["verify", "--none", "a"], &["cat", "a"], &["root"]]
    {
        let said = kd(arguments);
        assert!(said.code == 2 && said.out.is_empty() && said.err.contains("Usage: kd"), "{arguments:?}: {said:?}");
    }
}

pub fn every_verb_has_help() {
    let all = kd(&["--help"]);
    assert_eq!(all.code, 0);
    for verb in VERBS {
        assert!(all.out.contains(&format!("\n  {verb} ")), "{verb}");
        let help = kd(&[verb, "--help"]);
        assert!(help.code == 0 && help.out.contains(&format!("Usage: kd {verb}")) && help.err.is_empty(), "{verb}");
    }
    assert_eq!(kd(&["--version"]).out, concat!("kd ", env!("CARGO_PKG_VERSION"), "\n"));
}

pub fn a_pipe_closed_early_is_141() {
    let folder = rack();
    let torrent = folder.text("rack.torrent");
    let place = folder.text("rack");
    for arguments in [
        &["show", &torrent][..],
        &["verify", &torrent, &place],
        &["cat", &torrent, "cells/7.log", &place],
        &["explain"],
    ] {
        // Closed before kd starts: it may have written all before the other end is closed.
        let (reader, writer) = pipe().unwrap();
        drop(reader);
        let output = command(arguments).stdout(writer).output().unwrap();
        assert_eq!((output.status.code(), &output.stderr[..]), (Some(141), &b""[..]), "{arguments:?}");
    }
}

pub fn a_full_device_is_2() {
    let folder = rack();
    for verb in ["verify rack.torrent", "cat rack.torrent cells/1.log .", "make rack -o -"] {
        let said = shell(&folder, &format!("$KD {verb} > /dev/full"));
        assert_eq!(said.code, 2, "{verb}");
        assert_eq!(said.err, "kd: standard output: No space left on device (os error 28)\n", "{verb}");
    }
}

/// `script` lends a terminal to a command, and gives what it saw.
pub fn a_terminal_shows_progress_and_colours() {
    let folder = Folder::new();
    folder.put("file", &content(b"file", 8 << 20));
    kd(&["make", "-q", "-o", &folder.text("file.torrent"), &folder.text("file")]).assert(0, "", "");
    let seen = |line: &str| shell(&folder, &format!("script -qec \"{line}\" /dev/null")).out;
    let all = seen("$KD verify file.torrent");
    assert!(all.contains("verify ") && all.contains(" % ") && all.contains("/s ") && all.contains(" left"), "{all:?}");
    assert!(all.contains("\x1b[32mok      \x1b[0m"), "{all:?}");
    let last = all.rsplit('\r').nth(1).unwrap_or_default();
    assert!(last.ends_with("may be believed"), "{all:?}");
    assert_eq!(seen("$KD verify -q file.torrent"), "");
    assert!(!seen("NO_COLOR=1 $KD verify file.torrent").contains("[32m"));
    assert!(seen("$KD verify file.torrent 2> seen | cat").starts_with("ok "));
    assert_eq!(std::fs::read(folder.join("seen")).unwrap(), b"");
}

pub fn completions_complete() {
    let folder = Folder::new();
    let line = "$KD completions bash > kd.bash && . ./kd.bash && COMP_WORDS=(kd v) COMP_CWORD=1 && _kd kd v kd && echo ${COMPREPLY[@]}";
    shell(&folder, line).assert(0, "verify\n", "");
    for shell in ["zsh", "fish"] {
        let said = kd(&["completions", shell]);
        assert!(said.code == 0 && VERBS.iter().all(|verb| said.out.contains(verb)), "{shell}");
    }
}
