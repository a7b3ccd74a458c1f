//! Sessions for the replay program with what document 01 says they print, written out. Each goes through the reference,
//! and through the proved program if it has been built, a byte at a time, seven, and as large as they come.

use host_tests::random::Random;
use host_tests::replays::{self, by_program, message, opening, opening_of, record, true_message};
use host_tests::truth::Truth;
use reference::limits::{LONGEST_FILE, LONGEST_RUN};
use reference::messages::{Header, HASHES};
use reference::replay::replay;
use std::env;
use std::time::{SystemTime, UNIX_EPOCH};

const PIECES: [usize; 3] = [1, 7, 4096];

fn assert_prints(records: &[&[u8]], expected: &str) {
    let input = records.concat();
    assert_eq!(replay(&input), expected, "the reference");
    if let Some(program) = replays::program() {
        for piece in PIECES {
            assert_eq!(by_program(&program, &input, piece), expected, "the program, {piece} bytes at a time");
        }
    }
}

/// The file of 01's session: N = 81920, B = 5, h = 3.
fn five_blocks() -> Truth {
    Truth::of_leaves(81920, 65536, &mut Random::new(5))
}

/// A header with these words about a file, as a record that begins a message.
fn header(truth: &Truth, [base, index, length, proof]: [u32; 4]) -> Vec<u8> {
    record(2, &Header { root: truth.facts.root, base, index, length, proof }.write(HASHES)[1..])
}

/// An opening with these facts; the root says nothing.
fn facts(length: u64, piece_length: u64) -> Vec<u8> {
    opening(length, piece_length, &[7; 32])
}

fn hash() -> Vec<u8> {
    record(3, &[0; 32])
}

const END: &[u8] = &[4];

// ---- sessions that don't stop

fn no_input() {
    assert_prints(&[], "end\n");
}

fn an_input_that_can_not_be_read() {
    if let Some(program) = replays::program() {
        assert_eq!(replays::by_program_without_input(&program), "end\n");
    }
}

fn the_session_of_the_document() {
    let file = five_blocks();
    let first = true_message(&file, [0, 0, 4, 1]);
    let session: [&[u8]; 5] = [&opening_of(&file), &first, &true_message(&file, [2, 0, 2, 0]), &first, &first];
    assert_prints(&session, "0 1\n6 0\n0 2\n0 6\n0 0\nend\n");
    assert_prints(&[include_bytes!("../../../crates/replay/stdin")], "0 1\n6 0\n0 2\n0 6\n0 0\nend\n");
}

fn openings_alone() {
    assert_prints(&[&facts(1, 16384)], "0 1\nend\n");
    assert_prints(&[&facts(1, 16777216)], "0 1\nend\n");
    assert_prints(&[&facts(512 * 16384, 16384)], "0 1\nend\n");
    assert_prints(&[&facts(1, 16384), &facts(81920, 65536)], "0 1\n0 1\nend\n");
}

fn an_opening_forgets_what_was_held() {
    let file = five_blocks();
    let (upper, leaves) = (true_message(&file, [2, 0, 2, 0]), true_message(&file, [0, 0, 4, 1]));
    let session: [&[u8]; 5] = [&opening_of(&file), &upper, &leaves, &opening_of(&file), &leaves];
    assert_prints(&session, "0 1\n0 2\n0 6\n0 1\n6 0\nend\n");
}

/// Each number that a message can get here. 1 and 9 can't come up, since a header is whole and the store is ours, and 8
/// would take two strings with one SHA-256.
fn every_number() {
    let file = five_blocks();
    let other = Truth::of_leaves(81920, 65536, &mut Random::new(6));
    // The message with one byte of its last hash changed.
    let damaged = |words| {
        let mut records = true_message(&file, words);
        let last = records.len() - 2;
        records[last] ^= 1;
        records
    };
    let begun = |words| {
        let mut records = true_message(&file, words);
        records.pop();
        records
    };
    let bare = |words| [header(&file, words), END.to_vec()].concat();
    let steps: [(Vec<u8>, &str); 24] = [
        (opening_of(&file), "0 1\n"),
        (true_message(&file, [0, 0, 2, 2]), "0 6\n"),
        (true_message(&other, [0, 0, 2, 2]), "2 0\n"),
        (bare([0, 0, 2, 3]), "3 0\n"),
        (bare([0, 8, 2, 0]), "3 0\n"),
        (bare([0, 6, 2, 0]), "4 0\n"),
        (true_message(&file, [0, 6, 2, 0]), "6 0\n"),
        (bare([0, 2, 4, 0]), "3 0\n"),
        (bare([0, 0, 0, 0]), "3 0\n"),
        (bare([0, 0, 1, 0]), "3 0\n"),
        (bare([0, 0, 3, 0]), "3 0\n"),
        (bare([0, 0, 1024, 0]), "3 0\n"),
        (bare([1, 0, 2, 4294967295]), "3 0\n"),
        (bare([0, 0, 2, 2]), "4 0\n"),
        ([begun([0, 0, 2, 2]), hash(), END.to_vec()].concat(), "4 0\n"),
        (damaged([0, 4, 4, 0]), "5 0\n"),
        (true_message(&file, [0, 4, 2, 0]), "6 0\n"),
        (damaged([0, 2, 2, 0]), "7 0\n"),
        (true_message(&file, [0, 2, 2, 0]), "0 2\n"),
        (true_message(&file, [0, 4, 4, 2]), "0 6\n"),
        (true_message(&file, [0, 6, 2, 0]), "0 0\n"),
        (true_message(&file, [0, 0, 8, 0]), "0 0\n"),
        (true_message(&file, [0, 0, 8, 2]), "0 0\n"),
        (true_message(&file, [1, 2, 2, 1]), "0 0\n"),
    ];
    let records: Vec<&[u8]> = steps.iter().map(|(records, _)| &records[..]).collect();
    let lines: String = steps.iter().map(|(_, line)| *line).collect();
    assert_prints(&records, &(lines + "end\n"));
}

/// The largest file, 512 blocks: layer 8, then layers 5 to 7, then each run of 32 leaves, whose anchor is in layer 5; that
/// makes 1 + 2 + 28 + 16 · 62 = 1023 positions, which is all. Then all leaves at once, and the file opened once more.
fn a_long_session() {
    let file = Truth::of_leaves(512 * 16384, 16384, &mut Random::new(512));
    let mut session = vec![opening_of(&file), true_message(&file, [0, 0, 32, 4])];
    session.push(true_message(&file, [8, 0, 2, 0]));
    session.push(true_message(&file, [5, 0, 16, 2]));
    session.extend((0..16).map(|run| true_message(&file, [0, 32 * run, 32, 4])));
    session.push(true_message(&file, [0, 0, 512, 0]));
    session.push(opening_of(&file));
    session.push(true_message(&file, [0, 0, 512, 0]));
    let records: Vec<&[u8]> = session.iter().map(|records| &records[..]).collect();
    assert_prints(
        &records,
        "0 1\n6 0\n0 2\n0 28\n\
         0 62\n0 62\n0 62\n0 62\n0 62\n0 62\n0 62\n0 62\n0 62\n0 62\n0 62\n0 62\n0 62\n0 62\n0 62\n0 62\n\
         0 0\n0 1\n0 1022\nend\n",
    );
}

/// Sixteen blocks, two leaves at a time, each with its uncles up to the root: 8 new at first, then 2 and for each layer
/// that no message has come through yet 2 more. With the root that makes 31.
fn leaves_two_by_two() {
    let file = Truth::of_leaves(16 * 16384, 16384, &mut Random::new(16));
    let mut session = vec![opening_of(&file)];
    session.extend((0..8).map(|run| true_message(&file, [0, 2 * run, 2, 3])));
    let records: Vec<&[u8]> = session.iter().map(|records| &records[..]).collect();
    assert_prints(&records, "0 1\n0 8\n0 2\n0 4\n0 2\n0 6\n0 2\n0 4\n0 2\nend\n");
}

fn the_528th_hash_is_taken() {
    let file = five_blocks();
    let leaves = true_message(&file, [0, 0, 8, 0]);
    let session: [&[u8]; 5] = [&opening_of(&file), &header(&file, [0, 0, 8, 0]), &hash().repeat(528), END, &leaves];
    assert_prints(&session, "0 1\n4 0\n0 14\nend\n");
}

// ---- the stops; each has a good opening behind it, which says nothing any more

/// The records after a good opening stop the session with `1 0`.
fn assert_broken(records: &[&[u8]]) {
    let (first, again) = (opening_of(&five_blocks()), facts(1, 16384));
    assert_prints(&[&[&first[..]], records, &[&again[..]]].concat(), "0 1\n1 0\nend\n");
}

fn the_529th_hash() {
    let file = five_blocks();
    let header = header(&file, [0, 0, 8, 0]);
    assert_broken(&[&header, &hash().repeat(529), END]);
    // Its kind byte alone stops: no body follows, or another record does.
    assert_broken(&[&header, &hash().repeat(528), &[3]]);
    assert_prints(&[&opening_of(&file), &header, &hash().repeat(528), &[3]], "0 1\n1 0\nend\n");
}

/// The limit is the replay's own: a run that the store would take is too long for it, whole or with more uncles than 16. A header
/// that says so, with a few hashes, is a message like any other.
fn a_message_of_more_than_528_hashes() {
    let file = Truth::of_leaves(512 * 16384, 16384, &mut Random::new(512));
    for length in [1024, LONGEST_RUN, 2 * LONGEST_RUN] {
        let header = header(&file, [0, 0, length, 0]);
        assert_broken(&[&header, &hash().repeat(length as usize), END]);
        assert_prints(&[&opening_of(&file), &header, &hash(), END, &header, END], "0 1\n3 0\n3 0\nend\n");
    }
    let most = header(&file, [0, 0, 512, 0]);
    assert_broken(&[&most, &hash().repeat(512 + 17), END]);
}

fn an_unknown_kind() {
    let header = header(&five_blocks(), [0, 0, 8, 0]);
    for kind in [0, 5, 21, 22, 255] {
        assert_prints(&[&[kind]], "1 0\nend\n");
        assert_prints(&[&[kind], &facts(1, 16384)], "1 0\nend\n");
        assert_broken(&[&[kind]]);
        assert_broken(&[&header, &[kind]]);
        assert_broken(&[&header, &hash(), &[kind], END]);
    }
}

fn a_cut_record() {
    let file = five_blocks();
    let (opening, header) = (opening_of(&file), header(&file, [0, 0, 8, 0]));
    for size in [1, 2, 9, 13, 44] {
        assert_prints(&[&opening[..size]], "1 0\nend\n");
        assert_prints(&[&opening, &opening[..size]], "0 1\n1 0\nend\n");
    }
    for size in [1, 2, 33, 48] {
        assert_prints(&[&opening, &header[..size]], "0 1\n1 0\nend\n");
    }
    for size in [1, 2, 32] {
        assert_prints(&[&opening, &header, &hash()[..size]], "0 1\n1 0\nend\n");
        assert_prints(&[&opening, &header, &hash(), &hash()[..size]], "0 1\n1 0\nend\n");
    }
    // A cut opening is cut, whatever its facts: the too large file does not count.
    assert_prints(&[&facts(u64::MAX, 0)[..44]], "1 0\nend\n");
}

fn an_input_that_ends_inside_a_message() {
    let file = five_blocks();
    let (opening, header) = (opening_of(&file), header(&file, [0, 0, 8, 0]));
    assert_prints(&[&opening, &header], "0 1\n1 0\nend\n");
    assert_prints(&[&opening, &header, &hash().repeat(8)], "0 1\n1 0\nend\n");
    assert_prints(&[&opening, &header, &hash().repeat(528)], "0 1\n1 0\nend\n");
    let whole = true_message(&file, [2, 0, 2, 0]);
    assert_prints(&[&opening, &whole, &whole[..whole.len() - 1]], "0 1\n0 2\n1 0\nend\n");
}

fn a_header_before_any_opening() {
    let file = five_blocks();
    assert_prints(&[&true_message(&file, [2, 0, 2, 0]), &opening_of(&file)], "1 0\nend\n");
    assert_prints(&[&[2]], "1 0\nend\n");
}

fn an_opening_inside_a_message() {
    let file = five_blocks();
    let header = header(&file, [0, 0, 8, 0]);
    assert_broken(&[&header, &opening_of(&file)]);
    assert_broken(&[&header, &hash(), &opening_of(&file)]);
    // Whatever its facts, and from its kind byte on.
    assert_broken(&[&header, &facts(0, 0)]);
    assert_prints(&[&opening_of(&file), &header, &[1]], "0 1\n1 0\nend\n");
}

fn a_header_inside_a_message() {
    let file = five_blocks();
    let header = header(&file, [0, 0, 8, 0]);
    assert_broken(&[&header, &header]);
    assert_broken(&[&header, &hash(), &true_message(&file, [0, 0, 8, 0])]);
    assert_prints(&[&opening_of(&file), &header, &[2]], "0 1\n1 0\nend\n");
}

fn a_hash_outside_a_message() {
    let file = five_blocks();
    assert_prints(&[&hash(), &opening_of(&file)], "1 0\nend\n");
    assert_broken(&[&hash()]);
    let whole = true_message(&file, [2, 0, 2, 0]);
    assert_prints(&[&opening_of(&file), &whole, &hash(), &whole], "0 1\n0 2\n1 0\nend\n");
    assert_prints(&[&opening_of(&file), &[3]], "0 1\n1 0\nend\n");
}

fn an_end_outside_a_message() {
    let file = five_blocks();
    assert_prints(&[END, &opening_of(&file)], "1 0\nend\n");
    assert_broken(&[END]);
    let whole = true_message(&file, [2, 0, 2, 0]);
    assert_prints(&[&opening_of(&file), &whole, END, &whole], "0 1\n0 2\n1 0\nend\n");
}

/// The opening stops the session with `10 0`, as the first one and after a good one.
fn assert_refused(length: u64, piece_length: u64) {
    let good = five_blocks();
    let refused = facts(length, piece_length);
    assert_prints(&[&refused, &opening_of(&good)], "10 0\nend\n");
    let whole = true_message(&good, [2, 0, 2, 0]);
    assert_prints(&[&opening_of(&good), &whole, &refused, &whole], "0 1\n0 2\n10 0\nend\n");
}

fn a_file_of_513_blocks() {
    assert_refused(512 * 16384 + 1, 16384);
    assert_refused(513 * 16384, 16384);
    assert_refused(1 << 30, 16384);
    assert_refused(LONGEST_FILE, 16384);
}

fn an_opening_of_no_bytes() {
    assert_refused(0, 16384);
}

fn an_opening_of_more_bytes_than_a_file_may_have() {
    assert_refused(LONGEST_FILE + 1, 16384);
    assert_refused(u64::MAX, 16384);
}

fn an_opening_with_a_wrong_piece_length() {
    for piece_length in [0, 1, 8192, 16383, 16385, 49152, 33554432, 4294967295] {
        assert_refused(81920, piece_length);
    }
}

/// A message about a file of one block, of which every header is refused, does not stop the session.
fn a_refused_message_goes_on() {
    let file = Truth::of_leaves(1, 16384, &mut Random::new(1));
    let refused = [header(&file, [0, 0, 2, 0]), hash(), hash(), END.to_vec()].concat();
    assert_prints(&[&opening_of(&file), &refused, &refused, &opening_of(&file)], "0 1\n3 0\n3 0\n0 1\nend\n");
}

/// The message's bytes are the header's and the hashes': the kind bytes between them are not among them.
fn a_message_as_records() {
    let bytes = [&[HASHES][..], &[9; 48], &[8; 64]].concat();
    let records = message(&bytes);
    assert_eq!(records, [&[2][..], &[9; 48], &[3], &[8; 32], &[3], &[8; 32], &[4]].concat());
}

// ---- generated sessions

const GENERATED: usize = 200;

/// Against what the reference prints; KD_SEED sets the seed.
fn generated_sessions() {
    let Some(program) = replays::program() else { return };
    let clock = || SystemTime::now().duration_since(UNIX_EPOCH).unwrap().as_secs();
    let seed = env::var("KD_SEED").map_or_else(|_| clock(), |text| text.parse().expect("a whole number"));
    println!("replays: seed {seed}, {GENERATED} inputs compared");
    let mut random = Random::new(seed);
    for _ in 0..GENERATED {
        let input = replays::any(&mut random);
        let piece = random.pick(&PIECES);
        assert_eq!(by_program(&program, &input, piece), replay(&input), "seed {seed}, input {input:02x?}");
    }
}

host_tests::tests! {
    no_input,
    an_input_that_can_not_be_read,
    the_session_of_the_document,
    openings_alone,
    an_opening_forgets_what_was_held,
    every_number,
    a_long_session,
    leaves_two_by_two,
    the_528th_hash_is_taken,
    the_529th_hash,
    a_message_of_more_than_528_hashes,
    an_unknown_kind,
    a_cut_record,
    an_input_that_ends_inside_a_message,
    a_header_before_any_opening,
    an_opening_inside_a_message,
    a_header_inside_a_message,
    a_hash_outside_a_message,
    an_end_outside_a_message,
    a_file_of_513_blocks,
    an_opening_of_no_bytes,
    an_opening_of_more_bytes_than_a_file_may_have,
    an_opening_with_a_wrong_piece_length,
    a_refused_message_goes_on,
    a_message_as_records,
    generated_sessions,
}
