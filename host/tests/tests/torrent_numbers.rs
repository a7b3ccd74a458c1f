//! Torrents by hand with the number that document 01 gives them, clause by clause. Each is asked of the reference and of the
//! library.

use host_tests::call::{by_library, Entry, Given};
use host_tests::compare::{report, Comparison};
use host_tests::torrents::ask_all;
use reference::limits::{LARGEST_PIECE_LENGTH, LARGEST_TORRENT, LONGEST_FILE};
use reference::sha256::{pair, Hash};
use reference::torrent::{torrent_file, torrent_path, torrent_read};
use reference::tree::{over_run, padding, Position};

fn assert_number(torrent: &[u8], number: u32) {
    let shown = String::from_utf8_lossy(&torrent[..torrent.len().min(600)]);
    assert_eq!(torrent_read(torrent).number, number, "{shown}");
    let mut compared = Comparison::new(&by_library);
    ask_all(torrent, &mut compared);
    assert!(compared.difference.is_none(), "{}", report(&by_library, &compared.difference.unwrap()));
}

fn string(content: &[u8]) -> Vec<u8> {
    [content.len().to_string().as_bytes(), b":", content].concat()
}

fn dictionary(entries: &[&[u8]]) -> Vec<u8> {
    [b"d", &entries.concat()[..], b"e"].concat()
}

/// The parts of a torrent that the numbers are about, each encoded. An empty one leaves its key out.
#[derive(Clone)]
struct Parts {
    /// The value of the outer empty key, which nobody knows.
    unknown: Vec<u8>,
    tree: Vec<u8>,
    version: Vec<u8>,
    piece_length: Vec<u8>,
    layers: Vec<u8>,
}

impl Parts {
    /// One file of one byte.
    fn good() -> Parts {
        Parts {
            unknown: Vec::new(),
            tree: dictionary(&[&file("a", 1, Some([1; 32]))]),
            version: b"i2e".to_vec(),
            piece_length: b"i16384e".to_vec(),
            layers: b"de".to_vec(),
        }
    }

    fn info(&self) -> Vec<u8> {
        self.info_with("name", b"1:x")
    }

    /// With one more key among the three, in its place.
    fn info_with(&self, key: &str, value: &[u8]) -> Vec<u8> {
        let known: [(&str, &[u8]); 3] =
            [("file tree", &self.tree), ("meta version", &self.version), ("piece length", &self.piece_length)];
        let mut entries = known.to_vec();
        entries.push((key, value));
        entries.sort();
        dictionary(&[&entries.into_iter().flat_map(|(key, value)| entry(key, value)).collect::<Vec<u8>>()])
    }

    fn torrent(&self) -> Vec<u8> {
        dictionary(&[&entry("", &self.unknown), &entry("info", &self.info()), &entry("piece layers", &self.layers)])
    }
}

fn entry(key: &str, value: &[u8]) -> Vec<u8> {
    if value.is_empty() {
        return Vec::new();
    }
    [string(key.as_bytes()), value.to_vec()].concat()
}

/// A file's entry in a directory.
fn file(name: &str, length: i64, root: Option<Hash>) -> Vec<u8> {
    let root = root.map_or(Vec::new(), |root| entry("pieces root", &string(&root)));
    let length = entry("length", format!("i{length}e").as_bytes());
    entry(name, &dictionary(&[&entry("", &dictionary(&[&length, &root]))]))
}

fn with_unknown(value: &[u8]) -> Vec<u8> {
    Parts { unknown: value.to_vec(), ..Parts::good() }.torrent()
}

fn with_tree(entries: &[&[u8]]) -> Vec<u8> {
    Parts { tree: dictionary(entries), ..Parts::good() }.torrent()
}

// ---- 19 to 21

fn number_19_is_above_a_mebibyte() {
    let size = |string_size: usize| with_unknown(&string(&vec![b'x'; string_size]));
    let around = size(1_000_000).len() - 1_000_000;
    let most = size(LARGEST_TORRENT - around);
    assert_eq!(most.len(), LARGEST_TORRENT);
    assert_number(&most, 0);
    assert_number(&size(LARGEST_TORRENT - around + 1), 19);
    assert_number(&vec![b'x'; LARGEST_TORRENT], 20);
    assert_number(&vec![b'x'; LARGEST_TORRENT + 1], 19);
}

fn values_that_are_strict() {
    let good: [&[u8]; 17] = [
        b"i0e", b"i7e", b"i-1e", b"i10e", b"i9223372036854775807e", b"i-9223372036854775808e", b"0:", b"1:\0",
        b"10:0123456789", b"le", b"li1e0:lei0ee", b"de", b"d0:0:e", b"d1:a0:1:b0:e", b"d1:a0:2:aa0:e",
        b"d2:aa0:1:b0:e", b"d1:a0:1:\xff0:e",
    ];
    good.into_iter().for_each(|value| assert_number(&with_unknown(value), 0));
}

fn number_20_is_a_value_that_is_not_strict() {
    let bad: [&[u8]; 37] = [
        b"i00e", b"i-0e", b"ie", b"i-e", b"i01e", b"i-01e", b"i--1e", b"i+1e", b"i 1e", b"i1 e", b"i1.0e", b"i0x1e",
        b"i1", b"I1e", b"i9223372036854775808e", b"i-9223372036854775809e", b"i18446744073709551616e",
        b"i99999999999999999999999e", b"00:", b"01:a", b"-1:a", b"+1:a", b"1 :a", b"1;a", b":", b"x", b"e", b" 0:",
        // Prefixes that are 1 if they are cut to 32 or 64 bits.
        b"4294967297:a", b"18446744073709551617:a", b"99999999999999999999:a", b"di1e0:e", b"dle0:e", b"d1:ae",
        b"d1:b0:1:a0:e", b"d1:a0:1:a0:e", b"d1:\xff0:1:a0:e",
    ];
    bad.into_iter().for_each(|value| assert_number(&with_unknown(value), 20));
    assert_number(&with_unknown(b"d2:aa0:1:a0:e"), 20);
    assert_number(&with_unknown(b"d0:0:0:0:e"), 20);
}

fn number_20_is_not_one_dictionary() {
    let good = Parts::good().torrent();
    let bad: [Vec<u8>; 12] = [
        Vec::new(),
        b"d".to_vec(),
        b"e".to_vec(),
        b"le".to_vec(),
        b"i0e".to_vec(),
        b"0:".to_vec(),
        [&good[..], b"e"].concat(),
        [&good[..], b"\n"].concat(),
        [&good[..], b"\0"].concat(),
        [&good[..], &good].concat(),
        [b" ", &good[..]].concat(),
        good[..good.len() - 1].to_vec(),
    ];
    bad.iter().for_each(|torrent| assert_number(torrent, 20));
}

/// Lists inside the outer dictionary, which is the first level.
fn lists(count: usize) -> Vec<u8> {
    [b"l".repeat(count), b"e".repeat(count)].concat()
}

fn number_21_is_level_33() {
    assert_number(&with_unknown(&lists(31)), 0);
    assert_number(&with_unknown(&lists(32)), 21);
    assert_number(&with_unknown(&lists(1000)), 21);
    assert_number(&with_unknown(&[b"l".repeat(31), b"de".to_vec(), b"e".repeat(31)].concat()), 21);
    assert_number(&with_unknown(&[b"d0:".repeat(31), b"0:".to_vec(), b"e".repeat(31)].concat()), 0);
    assert_number(&with_unknown(&[b"d0:".repeat(32), b"0:".to_vec(), b"e".repeat(32)].concat()), 21);
}

fn the_first_from_the_left_of_20_and_21() {
    // 21 stands before what is not strict, and the other way round.
    assert_number(&with_unknown(&[&lists(32)[..], b"junk"].concat()), 21);
    assert_number(&[&b"d0:"[..], &b"l".repeat(32)].concat(), 21);
    assert_number(&[&b"d0:"[..], &b"l".repeat(31)].concat(), 20);
    assert_number(&with_unknown(&[&b"li00e"[..], &lists(40), b"e"].concat()), 20);
    // Where a key is due on level 32, `d` and `l` are no value: 20.
    for opened in [b"d", b"l"] {
        assert_number(&with_unknown(&[&b"l".repeat(30)[..], b"d", opened].concat()), 20);
        assert_number(&with_unknown(&[&b"l".repeat(30)[..], b"d0:", opened].concat()), 21);
    }
    // A key's order is judged before its value.
    assert_number(&with_unknown(&[&b"l".repeat(30)[..], b"d1:b0:1:al"].concat()), 20);
}

fn a_path_of_28_elements() {
    let deep = |elements: usize| {
        let inner = file("a", 1, Some([1; 32]));
        let tree = (1..elements).fold(inner, |below, _| entry("a", &dictionary(&[&below])));
        with_tree(&[&tree])
    };
    assert_number(&deep(28), 0);
    assert_eq!(torrent_file(&deep(28), 0).elements, 28);
    assert_number(&deep(29), 21);
}

// ---- 22 to 24

fn number_22_is_missing_or_of_another_type() {
    let others: [&[u8]; 5] = [b"", b"i2e", b"1:2", b"le", b"de"];
    for other in others {
        let is_integer = other == b"i2e";
        let is_dictionary = other == b"de";
        let with = |change: fn(&mut Parts, Vec<u8>)| {
            let mut parts = Parts::good();
            change(&mut parts, other.to_vec());
            parts.torrent()
        };
        if !is_dictionary {
            assert_number(&with(|parts, other| parts.tree = other), 22);
            assert_number(&with(|parts, other| parts.layers = other), 22);
            let layers = entry("piece layers", b"de");
            assert_number(&dictionary(&[&entry("info", other), &layers]), 22);
        }
        if !is_integer {
            assert_number(&with(|parts, other| parts.version = other), 22);
            assert_number(&with(|parts, other| parts.piece_length = other), 22);
        }
    }
    assert_number(b"de", 22);
    // Keys are compared byte for byte, and in their own place.
    let good = Parts::good();
    assert_number(&dictionary(&[&entry("Info", &good.info()), &entry("piece layers", b"de")]), 22);
    assert_number(&dictionary(&[&entry("info\0", &good.info()), &entry("piece layers", b"de")]), 22);
    assert_number(&dictionary(&[&entry("inf", &good.info()), &entry("piece layers", b"de")]), 22);
    let layers_inside = good.info_with("piece layers", b"de");
    assert_number(&dictionary(&[&entry("info", &layers_inside)]), 22);
    assert_number(&dictionary(&[&entry("info", &layers_inside), &entry("piece layers", b"de")]), 0);
}

fn number_23_is_another_version() {
    for version in ["i0e", "i1e", "i3e", "i-2e", "i4294967298e", "i9223372036854775807e"] {
        assert_number(&Parts { version: version.into(), ..Parts::good() }.torrent(), 23);
    }
}

fn number_24_is_a_piece_length_out_of_range() {
    let out = [0, 1, 2, 8192, 16383, 16385, 49152, 16777215, 33554432, -16384, 4294983680, i64::MAX, i64::MIN];
    for piece_length in out {
        let piece_length = format!("i{piece_length}e").into();
        assert_number(&Parts { piece_length, ..Parts::good() }.torrent(), 24);
    }
    for piece_length in (14..=24).map(|power| 1 << power) {
        let piece_length = format!("i{piece_length}e").into();
        assert_number(&Parts { piece_length, ..Parts::good() }.torrent(), 0);
    }
}

// ---- 25

fn number_25_is_an_empty_or_wrong_tree() {
    let good = file("z", 1, Some([1; 32]));
    let wrong: [Vec<u8>; 9] = [
        Vec::new(),
        entry("a", b"de"),
        entry("a", &dictionary(&[&entry("b", b"de")])),
        entry("a", b"le"),
        entry("a", b"i0e"),
        entry("a", b"1:x"),
        // An empty key directly in the tree.
        entry("", &dictionary(&[&entry("length", b"i0e")])),
        // An empty key beside others.
        entry("a", &dictionary(&[&entry("", &dictionary(&[&entry("length", b"i0e")])), &good])),
        entry("a", &dictionary(&[&entry("", b"de"), &good])),
    ];
    for tree in &wrong {
        assert_number(&with_tree(&[tree]), 25);
        if !tree.is_empty() && !tree.starts_with(b"0:") {
            assert_number(&with_tree(&[tree, &good]), 25);
            assert_number(&with_tree(&[&entry("0", &dictionary(&[tree]))]), 25);
        }
    }
    // The value of an empty key that isn't a dictionary.
    for other in [&b"le"[..], b"i0e", b"1:x", b"0:"] {
        assert_number(&with_tree(&[&entry("a", &dictionary(&[&entry("", other)]))]), 25);
    }
}

/// A torrent of one file with this path.
fn with_path(path: &[&[u8]]) -> Vec<u8> {
    let properties = dictionary(&[&entry("length", b"i1e"), &entry("pieces root", &string(&[1; 32]))]);
    let node =
        path.iter().rev().fold(entry("", &properties), |below, name| [string(name), dictionary(&[&below])].concat());
    with_tree(&[&node])
}

/// The name at each place of paths of 1, 2, 3 and 28 elements: as a file's at the last place, as a directory's at the others.
fn assert_name(name: &[u8], number: u32) {
    for elements in [1, 2, 3, 28] {
        for place in [0, elements / 2, elements - 1] {
            let mut path = vec![&b"a"[..]; elements];
            path[place] = name;
            let torrent = with_path(&path);
            assert_number(&torrent, number);
            if number == 0 {
                let part = torrent_path(&torrent, 0, place as u64);
                assert_eq!(torrent[part.start as usize..][..part.size as usize], *name);
            }
        }
    }
}

fn number_25_is_an_element_that_climbs_out() {
    let wrong: [&[u8]; 15] = [
        b"", b".", b"..", b"/", b"\0", b"a/b", b"/a", b"a/", b"../x", b"x/..", b"a\0", b"\0a", b"a\0b", b"..\0", b"./",
    ];
    wrong.into_iter().for_each(|name| assert_name(name, 25));
    let longest: Vec<u8> = (0..300).map(|at| if at == 299 { b'/' } else { b'.' }).collect();
    assert_name(&longest, 25);
}

fn elements_that_only_look_so() {
    let right: [&[u8]; 15] = [
        b"...", b"....", b". ", b".. ", b" .", b"..a", b".a", b"a.", b"a..", b" ", b"\\", b"..\\", b"\x80",
        b"\xff\xfe", b"C:",
    ];
    right.into_iter().for_each(|name| assert_name(name, 0));
    assert_name(&[b'.'; 300], 0);
}

fn every_byte_of_an_element() {
    for byte in 0..=255 {
        let alone = matches!(byte, 0 | b'.' | b'/');
        assert_number(&with_path(&[&[byte]]), if alone { 25 } else { 0 });
        assert_number(&with_path(&[&[byte], b"a"]), if alone { 25 } else { 0 });
        for other in [0, b'.', b'/', b'a', 0xff] {
            for name in [[byte, other], [other, byte]] {
                let wrong = name == *b".." || name.contains(&0) || name.contains(&b'/');
                assert_number(&with_path(&[&name]), if wrong { 25 } else { 0 });
                assert_number(&with_path(&[&name, b"a"]), if wrong { 25 } else { 0 });
            }
        }
    }
}

fn a_wrong_element_comes_between_24_and_26() {
    let root = Some([1; 32]);
    let tree = dictionary(&[&file("..", 1, root), &file("b", 2, root)]);
    assert_number(&Parts { tree: tree.clone(), ..Parts::good() }.torrent(), 25);
    assert_number(&Parts { tree: tree.clone(), piece_length: b"i1e".to_vec(), ..Parts::good() }.torrent(), 24);
    assert_number(&Parts { tree, layers: b"le".to_vec(), ..Parts::good() }.torrent(), 22);
    // Behind files that are right, and before them.
    assert_number(&with_tree(&[&file("..", 1, root), &file("a", 1, Some([2; 32]))]), 25);
    assert_number(&with_tree(&[&file("-", 1, root), &file("..", 1, Some([2; 32]))]), 25);
    // `name` is no path element: nobody reads it.
    let info = Parts::good().info_with("name", b"2:..");
    assert_number(&dictionary(&[&entry("info", &info), &entry("piece layers", b"de")]), 0);
}

/// A tree of one file with these properties.
fn with_properties(properties: &[&[u8]]) -> Vec<u8> {
    with_tree(&[&entry("a", &dictionary(&[&entry("", &dictionary(properties))]))])
}

fn number_25_is_a_file_without_its_length_or_root() {
    let root = entry("pieces root", &string(&[1; 32]));
    assert_number(&with_properties(&[]), 25);
    assert_number(&with_properties(&[&root]), 25);
    for length in ["i-1e", "i17179869185e", "i9223372036854775807e", "i-9223372036854775808e", "1:5", "le", "de"] {
        assert_number(&with_properties(&[&entry("length", length.as_bytes()), &root]), 25);
        assert_number(&with_properties(&[&entry("length", length.as_bytes())]), 25);
    }
    let one = entry("length", b"i1e");
    assert_number(&with_properties(&[&one]), 25);
    for size in [0, 31, 33, 64] {
        assert_number(&with_properties(&[&one, &entry("pieces root", &string(&vec![1; size]))]), 25);
    }
    for other in [&b"i1e"[..], b"le", b"de"] {
        assert_number(&with_properties(&[&one, &entry("pieces root", other)]), 25);
    }
    assert_number(&with_properties(&[&one, &root]), 0);
}

/// A torrent of one file in the largest pieces, with a layer that gives its root.
fn of_a_long_file(length: u64) -> Vec<u8> {
    let pieces = length.div_ceil(LARGEST_PIECE_LENGTH) as usize;
    let mut layer = vec![[5; 32]; pieces];
    let content = layer.concat();
    layer.resize(pieces.next_power_of_two(), padding(10));
    let root = over_run(Position { layer: 10, index: 0 }, &layer).last().unwrap().1;
    let parts = Parts {
        tree: dictionary(&[&file("a", length as i64, Some(root))]),
        piece_length: format!("i{LARGEST_PIECE_LENGTH}e").into(),
        layers: dictionary(&[&string(&root), &string(&content)]),
        ..Parts::good()
    };
    parts.torrent()
}

/// Lengths of more than 32 bits are read whole.
fn number_25_is_a_file_above_the_longest() {
    for length in [1 << 30, (1 << 30) + 1, (1 << 32) + 1, LONGEST_FILE] {
        let torrent = of_a_long_file(length);
        assert_number(&torrent, 0);
        assert_eq!(torrent_file(&torrent, 0).length, length);
    }
    assert_number(&of_a_long_file(LONGEST_FILE + 1), 25);
    assert_number(&of_a_long_file(LONGEST_FILE + (1 << 32)), 25);
}

fn number_25_is_an_empty_file_with_any_root() {
    let empty = entry("length", b"i0e");
    assert_number(&with_properties(&[&empty]), 0);
    for root in [string(&[0; 32]), string(b""), b"i0e".to_vec(), b"le".to_vec(), b"de".to_vec()] {
        assert_number(&with_properties(&[&empty, &entry("pieces root", &root)]), 25);
    }
}

fn unknown_keys_are_skipped() {
    let empty = entry("length", b"i0e");
    assert_number(&with_properties(&[&entry("", b"le"), &entry("attr", b"1:x"), &empty, &entry("zz", b"de")]), 0);
    // Keys of v1 are unknown ones.
    let v1 = Parts::good().info_with("files", b"le");
    let outer = [&entry("announce", b"0:")[..], &entry("info", &v1), &entry("piece layers", b"de")].concat();
    assert_number(&dictionary(&[&outer]), 0);
}

// ---- 26 to 28

fn number_26_is_one_root_with_two_lengths() {
    let root = Some([1; 32]);
    assert_number(&with_tree(&[&file("a", 1, root), &file("b", 2, root)]), 26);
    assert_number(&with_tree(&[&file("a", 1, root), &file("b", 1, Some([2; 32])), &file("c", 2, root)]), 26);
    assert_number(&with_tree(&[&file("a", 1, root), &file("b", 1, Some([2; 32])), &file("c", 1, root)]), 0);
    assert_number(&with_tree(&[&entry("a", &dictionary(&[&file("a", 1, root)])), &file("b", 2, root)]), 26);
    // The zero root is a root like any other, and not that of the empty files.
    let zero = Some([0; 32]);
    assert_number(&with_tree(&[&file("a", 1, zero), &file("b", 2, zero)]), 26);
    assert_number(&with_tree(&[&file("a", 1, zero), &file("b", 1, zero)]), 0);
    assert_number(&with_tree(&[&file("a", 1, zero), &file("b", 0, None), &file("c", 0, None)]), 0);
    // Roots that differ in one bit, first or last.
    let (mut first, mut last) = ([1; 32], [1; 32]);
    first[0] ^= 0x80;
    last[31] ^= 1;
    assert_number(&with_tree(&[&file("a", 1, root), &file("b", 1, Some(first)), &file("c", 1, Some(last))]), 0);
}

/// Two files longer than a piece with their layers: of two hashes, and of three with a padding value of zeros.
struct Layered {
    roots: [Hash; 2],
    layers: [Vec<u8>; 2],
}

fn layered() -> Layered {
    let two = pair(&[5; 32], &[6; 32]);
    let three = pair(&pair(&[7; 32], &[8; 32]), &pair(&[9; 32], &[0; 32]));
    let layers = [[[5; 32], [6; 32]].concat(), [[7; 32], [8; 32], [9; 32]].concat()];
    Layered { roots: [two, three], layers }
}

impl Layered {
    /// The torrent with these entries of `piece layers`, which are put in order, and another short file.
    fn torrent(&self, entries: &[(&[u8], Vec<u8>)]) -> Vec<u8> {
        let mut entries = entries.to_vec();
        entries.sort();
        let layers: Vec<u8> = entries.iter().flat_map(|(key, value)| [&string(key)[..], value].concat()).collect();
        let files = [
            file("a", 16385, Some(self.roots[0])),
            file("b", 40000, Some(self.roots[1])),
            file("c", 16384, Some([3; 32])),
            file("d", 0, None),
        ];
        Parts { tree: dictionary(&[&files.concat()]), layers: dictionary(&[&layers]), ..Parts::good() }.torrent()
    }

    fn good(&self) -> [(&[u8], Vec<u8>); 2] {
        [(&self.roots[0], string(&self.layers[0])), (&self.roots[1], string(&self.layers[1]))]
    }
}

fn layers_that_are_right() {
    let layered = layered();
    let torrent = layered.torrent(&layered.good());
    assert_number(&torrent, 0);
    for (number, layer) in layered.layers.iter().enumerate() {
        let found = torrent_file(&torrent, number as u64);
        assert_eq!(torrent[found.layer_start as usize..][..found.layer_size as usize], layer[..]);
    }
    assert_eq!((torrent_file(&torrent, 2).layer_start, torrent_file(&torrent, 2).layer_size), (0, 0));
}

fn number_27_is_a_layer_too_few_or_too_many() {
    let layered = layered();
    let [first, second] = layered.good();
    assert_number(&layered.torrent(&[]), 27);
    assert_number(&layered.torrent(std::slice::from_ref(&first)), 27);
    assert_number(&layered.torrent(std::slice::from_ref(&second)), 27);
    let more: [(&[u8], Vec<u8>); 7] = [
        // The root of a file not longer than a piece, of an empty file, of none; no root at all.
        (&[3; 32], string(&[3; 32])),
        (&[3; 32], string(b"")),
        (&[0; 32], string(b"")),
        (&[0xff; 32], string(&[1; 32])),
        (b"", string(b"")),
        (&layered.roots[0][..31], string(&[1; 64])),
        (b"x", b"de".to_vec()),
    ];
    for one in more {
        assert_number(&layered.torrent(&[first.clone(), second.clone(), one]), 27);
    }
}

fn number_27_is_a_layer_of_another_size_or_type() {
    let layered = layered();
    let [first, second] = layered.good();
    for size in [0, 32, 63, 65, 96] {
        assert_number(&layered.torrent(&[(first.0, string(&vec![5; size])), second.clone()]), 27);
    }
    for other in [&b"le"[..], b"de", b"i64e"] {
        assert_number(&layered.torrent(&[(first.0, other.to_vec()), second.clone()]), 27);
    }
    // A layer by its place and not by its root.
    assert_number(&layered.torrent(&[(first.0, second.1), (second.0, first.1)]), 27);
}

fn number_28_is_a_layer_that_does_not_give_its_root() {
    let layered = layered();
    let [first, second] = layered.good();
    for at in [0, 31, 32, 63] {
        let mut changed = layered.layers[0].clone();
        changed[at] ^= 1;
        assert_number(&layered.torrent(&[(first.0, string(&changed)), second.clone()]), 28);
    }
    let swapped = [&layered.layers[0][32..], &layered.layers[0][..32]].concat();
    assert_number(&layered.torrent(&[(first.0, string(&swapped)), second]), 28);
}

/// Files of one root, each in a folder of its own, with these lengths and these entries of `piece layers`, which are put in order.
fn twins(root: Hash, lengths: &[i64], entries: &[(&[u8], Vec<u8>)]) -> Vec<u8> {
    let mut entries = entries.to_vec();
    entries.sort();
    let layers: Vec<u8> = entries.iter().flat_map(|(key, value)| [&string(key)[..], value].concat()).collect();
    let folder = |(number, length): (usize, &i64)| {
        entry(&format!("{number:05}"), &dictionary(&[&file("image", *length, Some(root))]))
    };
    let tree = dictionary(&[&lengths.iter().enumerate().flat_map(folder).collect::<Vec<u8>>()]);
    Parts { tree, layers: dictionary(&[&layers]), ..Parts::good() }.torrent()
}

fn files_of_one_root_and_length_share_a_layer() {
    let layered = layered();
    let [(root, layer), (other, other_layer)] = layered.good();
    for count in [2, 3, 1000] {
        let lengths = vec![16385; count];
        let with = |entries: &[(&[u8], Vec<u8>)]| twins(layered.roots[0], &lengths, entries);
        let good = with(&[(root, layer.clone())]);
        assert_number(&good, 0);
        let first = torrent_file(&good, 0);
        assert_eq!(good[first.layer_start as usize..][..first.layer_size as usize], layered.layers[0][..]);
        assert_eq!(torrent_file(&good, count as u64 - 1), first);
        // A layer that is missing, of no such file beside the right one and in its place, too short; and one that differs.
        assert_number(&with(&[]), 27);
        assert_number(&with(&[(root, layer.clone()), (other, other_layer.clone())]), 27);
        assert_number(&with(&[(root, layer.clone()), (&[3; 32], string(&[3; 32]))]), 27);
        assert_number(&with(&[(other, other_layer.clone())]), 27);
        assert_number(&with(&[(root, string(&layered.layers[0][..32]))]), 27);
        assert_number(&with(&[(root, string(&[1; 64]))]), 28);
    }
    // As many keys as files longer than a piece, but one of them no root.
    let keys = [(root, layer.clone()), (other, other_layer)];
    assert_number(&twins(layered.roots[0], &[16385, 16385], &keys), 27);
    // Another length, whichever stands first, longer than a piece or not.
    for length in [1, 16384, 16386, 32768] {
        for lengths in [[16385, length, 16385], [length, 16385, 16385], [16385, 16385, length]] {
            assert_number(&twins(layered.roots[0], &lengths, &[(root, layer.clone())]), 26);
        }
    }
    // Files that are not longer than a piece have no layer, also if they have one root.
    assert_number(&twins([9; 32], &[16384, 16384], &[]), 0);
    assert_number(&twins([9; 32], &[16384, 16384], &[(&[9; 32], string(&[1; 32]))]), 27);
}

/// The padding value of a layer above 0 is not zeros: three pieces of 32 KiB.
fn padding_above_the_leaves() {
    let tree = |filler: Hash| {
        let root = pair(&pair(&[7; 32], &[8; 32]), &pair(&[9; 32], &filler));
        let layers = dictionary(&[&string(&root), &string(&[[7; 32], [8; 32], [9; 32]].concat())]);
        let tree = dictionary(&[&file("a", 65537, Some(root))]);
        Parts { tree, layers, piece_length: b"i32768e".to_vec(), ..Parts::good() }.torrent()
    };
    assert_number(&tree(pair(&[0; 32], &[0; 32])), 0);
    assert_number(&tree([0; 32]), 28);
}

// ---- the lowest number wins, and 29 comes last

fn the_lowest_number_wins() {
    let layered = layered();
    let wrong_version = Parts { version: b"i3e".to_vec(), ..Parts::good() };
    let wrong_piece = |parts: Parts| Parts { piece_length: b"i5e".to_vec(), ..parts };
    assert_number(&Parts { layers: Vec::new(), ..wrong_version.clone() }.torrent(), 22);
    assert_number(&wrong_piece(wrong_version).torrent(), 23);
    assert_number(&wrong_piece(Parts { tree: b"de".to_vec(), ..Parts::good() }).torrent(), 24);
    let one_root = [file("a", 1, Some([1; 32])), file("b", 2, Some([1; 32]))].concat();
    assert_number(&with_tree(&[&one_root, &file("c", -1, None)]), 25);
    let layers = dictionary(&[&string(b"x"), b"0:"]);
    assert_number(&Parts { tree: dictionary(&[&one_root]), layers, ..Parts::good() }.torrent(), 26);
    // All of 27 comes before any 28, whichever file stands first.
    let [first, second] = layered.good();
    let differs = |key| (key, string(&[1; 64]));
    assert_number(&layered.torrent(&[differs(first.0), (second.0, string(&[1; 64]))]), 27);
    assert_number(&layered.torrent(&[(first.0, string(&[1; 32])), (second.0, string(&[1; 96]))]), 27);
    assert_number(&layered.torrent(&[differs(first.0), (second.0, string(&[1; 96]))]), 28);
}

fn number_29_comes_after_all_others() {
    let good = Parts::good().torrent();
    for (file, number) in [(0, 0), (1, 29), (u64::MAX, 29)] {
        assert_eq!(torrent_file(&good, file).number, number);
        assert_eq!(torrent_path(&good, file, 0).number, number);
    }
    assert_eq!(torrent_path(&good, 0, 1).number, 29);
    assert_eq!(torrent_file(&with_tree(&[]), 99).number, 25);
    assert_eq!(torrent_path(&with_tree(&[]), 99, 99).number, 25);
    assert_number(&good, 0);
}

/// Tree order goes by element, as raw bytes.
fn tree_order() {
    let root = |byte| Some([byte; 32]);
    let folder = entry("a", &dictionary(&[&file("b", 1, root(1)), &file("\u{e4}", 1, root(2))]));
    let torrent = with_tree(&[&folder, &file("a.txt", 1, root(3)), &file("b", 1, root(4))]);
    assert_number(&torrent, 0);
    let roots = [0, 1, 2, 3].map(|file| torrent_file(&torrent, file).root[0]);
    assert_eq!(roots, [1, 2, 3, 4]);
    let part = torrent_path(&torrent, 1, 1);
    assert_eq!(torrent[part.start as usize..][..part.size as usize], [0xc3, 0xa4]);
}

/// What the comparison asks for is what is counted here: every entry point, on a good torrent.
fn all_is_asked() {
    let mut compared = Comparison::new(&host_tests::call::by_reference);
    ask_all(&Parts::good().torrent(), &mut compared);
    let asked = |entry: Entry, number| compared.seen.get(&(entry, number)).copied().unwrap_or(0);
    assert_eq!((asked(Entry::TorrentRead, 0), asked(Entry::TorrentFile, 0), asked(Entry::TorrentFile, 29)), (1, 1, 2));
    assert_eq!((asked(Entry::TorrentPath, 0), asked(Entry::TorrentPath, 29)), (1, 6));
    assert_eq!((asked(Entry::TorrentList, 0), asked(Entry::TorrentList, 11)), (2, 2));
    let Given::Torrent(whole) = compared.ask(&host_tests::call::Call::new(Entry::TorrentRead)).given else { panic!() };
    assert_eq!((whole.number, whole.info_hash, whole.piece_length, whole.files), (20, [0; 32], 0, 0));
}

host_tests::tests! {
    number_19_is_above_a_mebibyte,
    values_that_are_strict,
    number_20_is_a_value_that_is_not_strict,
    number_20_is_not_one_dictionary,
    number_21_is_level_33,
    the_first_from_the_left_of_20_and_21,
    a_path_of_28_elements,
    number_22_is_missing_or_of_another_type,
    number_23_is_another_version,
    number_24_is_a_piece_length_out_of_range,
    number_25_is_an_empty_or_wrong_tree,
    number_25_is_an_element_that_climbs_out,
    elements_that_only_look_so,
    every_byte_of_an_element,
    a_wrong_element_comes_between_24_and_26,
    number_25_is_a_file_without_its_length_or_root,
    number_25_is_a_file_above_the_longest,
    number_25_is_an_empty_file_with_any_root,
    unknown_keys_are_skipped,
    number_26_is_one_root_with_two_lengths,
    layers_that_are_right,
    number_27_is_a_layer_too_few_or_too_many,
    number_27_is_a_layer_of_another_size_or_type,
    number_28_is_a_layer_that_does_not_give_its_root,
    files_of_one_root_and_length_share_a_layer,
    padding_above_the_leaves,
    the_lowest_number_wins,
    number_29_comes_after_all_others,
    tree_order,
    all_is_asked,
}
