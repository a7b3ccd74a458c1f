//! The comparison itself is tried: libraries that are wrong in one way have to be found out, and every number of every
//! entry point has to come up.

use host_tests::call::{by_reference, Call, Entry, Given, Outcome};
use host_tests::compare::{report, Comparison, Library};
use host_tests::lists::{read_back, Planned};
use host_tests::random::Random;
use host_tests::states::{hashing_bytes, hashing_of, history_bytes, history_of, stream_bytes, stream_of};
use host_tests::{bursts, lists, places, saves, sessions, streams, torrents};
use reference::asking::{Choice, Request};
use reference::extends::extends;
use reference::hosts::{Named, Placed};
use reference::hybrid::{Hybrid, V1Part, V1Piece};
use reference::limits::{BLOCK, LONGEST_FRAME, RECORD};
use reference::marks::{clear, is_on_disk, mark, marked};
use reference::messages::{Header, HEAD, REQUEST};
use reference::number::*;
use reference::saved::Repaired;
use reference::sha1::sha1;
use reference::sha256::sha256;
use reference::store::{facts_of, held_at, hold, size_of, CELL};
use reference::torrent::{contents, File, Part, Torrent};
use reference::tree::{Facts, Position};
use reference::{Answer, Hashed};

const CASES: u64 = 150_000;
const SEED: u64 = 1;

fn sessions(library: Library<'_>) -> Comparison<'_> {
    let mut compared = Comparison::new(library);
    sessions::run(&mut Random::new(SEED), &mut compared, |compared| {
        compared.difference.is_none() && compared.compared < CASES
    });
    compared
}

fn torrents(library: Library<'_>) -> Comparison<'_> {
    let mut compared = Comparison::new(library);
    torrents::run(&mut Random::new(SEED), &mut compared, |compared| {
        compared.difference.is_none() && compared.compared < CASES
    });
    compared
}

fn bursts(library: Library<'_>) -> Comparison<'_> {
    let mut compared = Comparison::new(library);
    bursts::run(&mut Random::new(SEED), &mut compared, |compared| {
        compared.difference.is_none() && compared.compared < CASES / 6
    });
    compared
}

fn lists(library: Library<'_>) -> Comparison<'_> {
    let mut compared = Comparison::new(library);
    lists::run(&mut Random::new(SEED), &mut compared, |compared| {
        compared.difference.is_none() && compared.compared < CASES / 2
    });
    compared
}

fn places(library: Library<'_>) -> Comparison<'_> {
    let mut compared = Comparison::new(library);
    places::run(&mut Random::new(SEED), &mut compared, |compared| {
        compared.difference.is_none() && compared.compared < CASES / 6
    });
    compared
}

fn saves(library: Library<'_>) -> Comparison<'_> {
    let mut compared = Comparison::new(library);
    saves::run(&mut Random::new(SEED), &mut compared, |compared| {
        compared.difference.is_none() && compared.compared < CASES / 6
    });
    compared
}

fn streams(library: Library<'_>) -> Comparison<'_> {
    let mut compared = Comparison::new(library);
    streams::run(&mut Random::new(SEED), &mut compared, |compared| {
        compared.difference.is_none() && compared.compared < CASES / 2
    });
    streams::run_through_every_length(&mut Random::new(SEED), &mut compared);
    compared
}

/// A library that differs where `change` does, on one entry point of streams.
fn assert_stream_found_out(name: &str, entry: Entry, change: impl Fn(&Call, &mut Outcome)) {
    let impostor = |call: &Call| {
        let mut outcome = by_reference(call);
        if call.entry == entry {
            change(call, &mut outcome);
        }
        outcome
    };
    assert!(streams(&impostor).difference.is_some(), "not found out: {name}");
}

fn assert_list_found_out(name: &str, impostor: Library) {
    assert!(lists(impostor).difference.is_some(), "not found out: {name}");
}

fn assert_burst_found_out(name: &str, impostor: Library) {
    assert!(bursts(impostor).difference.is_some(), "not found out: {name}");
}

fn assert_found_out(name: &str, impostor: Library) {
    assert!(sessions(impostor).difference.is_some(), "not found out: {name}");
}

fn assert_torrent_found_out(name: &str, impostor: Library) {
    assert!(torrents(impostor).difference.is_some(), "not found out: {name}");
}

fn answered(call: &Call, number: u32, count: u64) -> Outcome {
    Outcome { given: Given::Answer(Answer { number, count }), ..untouched(call) }
}

fn untouched(call: &Call) -> Outcome {
    Outcome {
        given: Given::Answer(Answer::done(0)),
        store: call.store.clone(),
        input: call.input.clone(),
        out: call.out.clone(),
        name: call.name.clone(),
    }
}

fn every_number_comes_up() {
    let expected: [(Entry, &[u32]); 18] = [
        (Entry::StoreSize, &[0, 10]),
        (Entry::Open, &[0, 9, 10]),
        (Entry::Facts, &[0, 9]),
        (Entry::Held, &[0, 3, 6, 9]),
        (Entry::Take, &[0, 1, 2, 3, 4, 5, 6, 7, 8, 9]),
        (Entry::TakeReject, &[0, 1, 2, 3, 9]),
        (Entry::Serve, &[0, 1, 2, 3, 9, 11, 12]),
        (Entry::LoadLayer, &[0, 3, 4, 6, 7, 8, 9]),
        (Entry::JudgeBlock, &[0, 3, 4, 6, 7, 9]),
        (Entry::JudgePiece, &[0, 3, 4, 6, 7, 8, 9]),
        (Entry::JudgeHybridPiece, &[0, 3, 4, 6, 7, 8, 9]),
        (Entry::PieceHashes, &[0, 3, 4, 6, 7, 8, 9, 11]),
        (Entry::Marked, &[0, 3, 9]),
        (Entry::Clear, &[0, 3, 9]),
        (Entry::Bitfield, &[0, 9, 11]),
        (Entry::NextRequest, &[0, 3, 6, 9]),
        (Entry::PickPiece, &[0, 4, 9]),
        (Entry::Extends, &[0, 3, 4, 6, 7, 9]),
    ];
    assert_seen(&sessions(&by_reference), &expected);
}

fn every_number_of_a_torrent_comes_up() {
    let refused = [19, 20, 21, 22, 23, 24, 25, 26, 27, 28];
    let expected: [(Entry, &[u32]); 9] = [
        (Entry::TorrentRead, &[&[0], &refused[..], &[31]].concat()),
        (Entry::TorrentFile, &[&[0], &refused[..], &[29, 31]].concat()),
        (Entry::TorrentPath, &[&[0], &refused[..], &[29, 31]].concat()),
        (Entry::TorrentList, &[&[0, 11], &refused[..], &[31]].concat()),
        (Entry::TorrentInfo, &[&[0], &refused[..], &[31]].concat()),
        (Entry::TorrentName, &[&[0], &refused[..], &[29, 31]].concat()),
        (Entry::TorrentHybrid, &[&[0], &refused[..], &[31]].concat()),
        (Entry::TorrentV1Piece, &[&[0, 3], &refused[..], &[29, 31]].concat()),
        (Entry::TorrentV1Pieces, &[&[0, 3], &refused[..], &[29, 31]].concat()),
    ];
    assert_seen(&torrents(&by_reference), &expected);
    assert_seen(&places(&by_reference), &[(Entry::Place, &[0, 4, 24, 29]), (Entry::FirstPiece, &[0, 4, 24, 29])]);
}

fn every_number_of_the_running_forms_comes_up() {
    let expected: [(Entry, &[u32]); 5] = [
        (Entry::HashingMore, &[0, 4, 9]),
        (Entry::HashingEnd, &[0, 9]),
        (Entry::HistoryBegin, &[0, 10]),
        (Entry::HistoryMore, &[0, 9, 10, 11]),
        (Entry::HistoryEnd, &[0, 9, 11]),
    ];
    assert_seen(&bursts(&by_reference), &expected);
}

fn every_number_of_a_stream_comes_up() {
    assert_seen(&streams(&by_reference), &[(Entry::StreamHear, &[0, 1, 9, 11, 30]), (Entry::Frame, &[0, 1, 11, 30])]);
}

fn streams_that_are_wrong_in_one_way() {
    assert_stream_found_out("300,000 itself refused", Entry::StreamHear, |_, outcome| {
        let mut state = stream_of(&outcome.store);
        if (state.length as usize, state.length_size, state.read) == (LONGEST_FRAME, 4, 0) {
            state.mode = 4;
            outcome.store = stream_bytes(&state);
        }
    });
    assert_stream_found_out("11 before 1", Entry::StreamHear, |call, outcome| match outcome.given {
        Given::Heard(NO_MESSAGE, event, used, size) if stream_of(&call.store).length as usize > call.out.len() => {
            outcome.given = Given::Heard(NO_ROOM, event, used, size);
        }
        _ => (),
    });
    assert_stream_found_out("the prefix counted into the room", Entry::StreamHear, |call, outcome| {
        match outcome.given {
            Given::Heard(DONE, 1, used, size) if size as usize + 4 > call.out.len() => {
                outcome.given = Given::Heard(NO_ROOM, 0, used, 0);
            }
            _ => (),
        }
    });
    assert_stream_found_out("a skipped frame one byte short", Entry::StreamHear, |_, outcome| {
        let mut state = stream_of(&outcome.store);
        if (1..=3).contains(&state.mode) && state.read + 1 == state.length {
            state = Default::default();
        }
        outcome.store = stream_bytes(&state);
    });
    assert_stream_found_out("a byte behind the message", Entry::StreamHear, |_, outcome| match outcome.given {
        Given::Heard(DONE, 1, _, size) if (size as usize) < outcome.out.len() => outcome.out[size as usize] ^= 1,
        _ => (),
    });
    assert_stream_found_out("a refused stream that goes on", Entry::StreamHear, |_, outcome| {
        if let Given::Heard(FRAME_TOO_LONG, event, 0, size) = outcome.given {
            outcome.given = Given::Heard(DONE, event, 0, size)
        }
    });
    assert_stream_found_out("an unusable state begun afresh", Entry::StreamHear, |_, outcome| {
        if let Given::Heard(UNUSABLE, ..) = outcome.given {
            outcome.store.fill(0)
        }
    });
    assert_stream_found_out("the prefix counted into the length", Entry::Frame, |_, outcome| {
        if outcome.given.number() == DONE {
            outcome.out[3] = outcome.out[3].wrapping_add(4);
        }
    });
    assert_stream_found_out("room for the message alone", Entry::Frame, |call, outcome| {
        if outcome.given.number() == NO_ROOM && call.out.len() >= call.input.len() {
            outcome.given = Given::Answer(Answer::done(call.input.len() as u64));
        }
    });
}

/// 20, 22 and 23 hold of no list.
fn every_number_of_a_written_torrent_comes_up() {
    assert_seen(&lists(&by_reference), &[(Entry::TorrentWrite, &[0, 4, 11, 19, 21, 24, 25, 26, 27, 28])]);
}

/// A writer whose torrent is changed by `change`, and nothing else.
fn assert_writing_found_out(name: &str, change: impl Fn(&[u8], Vec<Planned>) -> Vec<u8>) {
    assert_list_found_out(name, &|call| match (call.entry, by_reference(call)) {
        (Entry::TorrentWrite, mut outcome) if outcome.given.number() == DONE => {
            let torrent = outcome.out[..outcome.given.count() as usize].to_vec();
            let changed = change(&torrent, read_back(&torrent).unwrap());
            outcome.given = Given::Answer(Answer::done(changed.len() as u64));
            outcome.out = call.out.clone();
            outcome.out.splice(..changed.len().min(call.out.len()), changed);
            outcome.out.truncate(call.out.len());
            outcome
        }
        (_, outcome) => outcome,
    });
}

fn writers_that_are_wrong_in_one_way() {
    assert_writing_found_out("a key too much", |torrent, _| {
        let end = torrent.len() - 1;
        [&torrent[..end], b"3:zzzi0ee"].concat()
    });
    assert_writing_found_out("a twin's layer written twice", |torrent, files| {
        let mut roots: Vec<_> = files.iter().filter(|file| !file.layer.is_empty()).map(|file| file.root).collect();
        roots.sort();
        let twin = roots.windows(2).any(|two| two[0] == two[1]);
        [torrent, if twin { b"x" } else { b"" }].concat()
    });
    assert_list_found_out("11 after the first byte", &|call| match (call.entry, by_reference(call)) {
        (Entry::TorrentWrite, mut outcome) if outcome.given.number() == NO_ROOM && !call.out.is_empty() => {
            outcome.out[0] = b'd';
            outcome
        }
        (_, outcome) => outcome,
    });
    assert_list_found_out("the byte behind the torrent", &|call| match (call.entry, by_reference(call)) {
        (Entry::TorrentWrite, mut outcome) if outcome.given.number() == DONE => {
            let size = outcome.given.count() as usize;
            outcome.out.iter_mut().skip(size).take(1).for_each(|byte| *byte = 0);
            outcome
        }
        (_, outcome) => outcome,
    });
    for number in [4, 11, 19, 21, 24, 25, 26, 27, 28] {
        assert_list_found_out("a check left out", &|call| match (call.entry, by_reference(call)) {
            (Entry::TorrentWrite, outcome) if outcome.given.number() == number => untouched(call),
            (_, outcome) => outcome,
        });
    }
}

fn running_forms_that_are_wrong_in_one_way() {
    assert_burst_found_out("what stood behind the tail is kept", &|call| match (call.entry, by_reference(call)) {
        (Entry::HashingMore, mut outcome) if outcome.given.number() == DONE && call.input.is_empty() => {
            outcome.store.clone_from(&call.store);
            outcome
        }
        (_, outcome) => outcome,
    });
    assert_burst_found_out("a total modulo 64 in place of the total", &|call| match (call.entry, by_reference(call)) {
        (Entry::HashingEnd, outcome) if outcome.given.number() == DONE => {
            let mut state = hashing_of(&call.store);
            state.total %= 64;
            Outcome { given: Given::Hashed(state.end()), ..outcome }
        }
        (_, outcome) => outcome,
    });
    assert_burst_found_out("a piece's hash written at its boundary", &|call| match (call.entry, by_reference(call)) {
        (Entry::HistoryMore, mut outcome) if outcome.given.number() == DONE => {
            let state = history_of(&outcome.store);
            let place = 32 * (state.length / state.piece_length) as usize;
            if state.length.is_multiple_of(state.piece_length) && place > 0 && place <= outcome.out.len() {
                let layer = (state.piece_length / 16384).ilog2() as usize;
                outcome.out[place - 32..place].copy_from_slice(&state.nodes[layer]);
            }
            outcome
        }
        (_, outcome) => outcome,
    });
    assert_burst_found_out("a burst without room leaves its first hashes", &|call| match (
        call.entry,
        by_reference(call),
    ) {
        (Entry::HistoryMore, mut outcome) if outcome.given.number() == NO_ROOM => {
            outcome.out.iter_mut().take(32).for_each(|byte| *byte ^= 1);
            outcome
        }
        (_, outcome) => outcome,
    });
    assert_burst_found_out(
        "a finished piece forgotten as it is folded",
        &|call| match (call.entry, by_reference(call)) {
            (Entry::HistoryMore, mut outcome) if outcome.given.number() == DONE => {
                let mut state = history_of(&outcome.store);
                if state.length.is_multiple_of(32768) {
                    state.nodes[0] = [0; 32];
                }
                outcome.store = history_bytes(&state);
                outcome
            }
            (_, outcome) => outcome,
        },
    );
    assert_burst_found_out("a refused burst counted", &|call| match (call.entry, by_reference(call)) {
        (Entry::HashingMore, mut outcome) if outcome.given.number() == WRONG_SIZE => {
            let mut state = hashing_of(&outcome.store);
            state.total += 1;
            outcome.store = hashing_bytes(&state);
            outcome
        }
        (_, outcome) => outcome,
    });
}

fn assert_seen(compared: &Comparison, expected: &[(Entry, &[u32])]) {
    assert_eq!(compared.difference, None);
    for (entry, numbers) in expected {
        let seen: Vec<u32> = compared.seen.keys().filter(|(of, _)| of == entry).map(|(_, number)| *number).collect();
        assert_eq!(seen, *numbers, "{}", entry.name());
    }
}

fn takes_that_never_or_always_say_yes() {
    assert_found_out("always 6", &|call| match call.entry {
        Entry::Take => answered(call, NO_ANCHOR, 0),
        _ => by_reference(call),
    });
    assert_found_out("0 with nothing stored", &|call| match (call.entry, by_reference(call)) {
        (Entry::Take, outcome) if outcome.given.number() == DONE => answered(call, DONE, outcome.given.count()),
        (_, outcome) => outcome,
    });
    assert_found_out("an invented count", &|call| match (call.entry, by_reference(call)) {
        (Entry::Take, mut outcome) if outcome.given.number() == DONE => {
            let header = Header::read(&call.input);
            outcome.given = Given::Answer(Answer::done(2 * header.length as u64 - 2 + 2 * header.uncles()));
            outcome
        }
        (_, outcome) => outcome,
    });
}

fn openings_that_hold_or_leave_too_much() {
    assert_found_out("all held at opening", &|call| match (call.entry, by_reference(call)) {
        (Entry::Open, mut outcome) if outcome.given.number() == DONE => {
            let facts = facts_of(&outcome.store).unwrap();
            outcome.store[64..size_of(&facts) as usize].iter_mut().step_by(CELL).for_each(|mark| *mark = 1);
            outcome
        }
        (_, outcome) => outcome,
    });
    assert_found_out("bytes beyond the store cleared", &|call| match (call.entry, by_reference(call)) {
        (Entry::Open, mut outcome) if outcome.given.number() == DONE => {
            let facts = facts_of(&outcome.store).unwrap();
            outcome.store[size_of(&facts) as usize..].fill(0);
            outcome
        }
        (_, outcome) => outcome,
    });
}

fn stores_written_before_the_anchor_is_compared() {
    for number in [WRONG_PADDING, NO_ANCHOR, DIFFERS, CONFLICT] {
        assert_found_out("written too early", &|call| match (call.entry, by_reference(call)) {
            (Entry::Take, mut outcome) if outcome.given.number() == number => {
                let facts = facts_of(&call.store).unwrap();
                let header = Header::read(&call.input);
                let hashes: Vec<_> = call.input[HEAD..].chunks(32).map(|bytes| bytes.try_into().unwrap()).collect();
                hold(&mut outcome.store, &facts, &header.settled(&hashes));
                outcome
            }
            (_, outcome) => outcome,
        });
    }
}

/// A library that never gives `number`, but 0 and nothing else.
fn assert_needed(entry: Entry, number: u32) {
    assert_found_out(entry.name(), &|call| match (call.entry, by_reference(call)) {
        (this, outcome) if this == entry && outcome.given.number() == number => untouched(call),
        (_, outcome) => outcome,
    });
}

fn checks_that_are_left_out() {
    for number in 1..=9 {
        assert_needed(Entry::Take, number);
    }
    for number in [3, 4, 6, 7, 8, 9] {
        assert_needed(Entry::LoadLayer, number);
        assert_needed(Entry::JudgePiece, number);
        assert_needed(Entry::JudgeHybridPiece, number);
    }
}

fn marks_that_say_neither_read_as_held() {
    assert_found_out("mark 2 is held", &|call| match call.entry {
        Entry::Held => {
            let mut call = call.clone();
            if let Some(facts) = facts_of(&call.store) {
                let cells = call.store[64..size_of(&facts) as usize].iter_mut().step_by(CELL);
                cells.filter(|mark| **mark == 2).for_each(|mark| *mark = 1);
            }
            Outcome { given: by_reference(&call).given, ..untouched(&call) }
        }
        _ => by_reference(call),
    });
}

fn marks_of_blocks_that_are_wrong_in_one_way() {
    assert_found_out("marked before the verdict", &|call| match (call.entry, by_reference(call)) {
        (Entry::JudgeBlock, mut outcome) if outcome.given.number() == DIFFERS => {
            let facts = facts_of(&call.store).unwrap();
            mark(&mut outcome.store, &facts, call.numbers[0]..call.numbers[0] + 1);
            outcome
        }
        (_, outcome) => outcome,
    });
    assert_found_out("a last piece as long as the others", &|call| match (call.entry, by_reference(call)) {
        (Entry::JudgePiece, mut outcome) if outcome.given.number() == DONE => {
            let facts = facts_of(&call.store).unwrap();
            let each = facts.piece_length / BLOCK;
            let first = call.numbers[0] * each;
            mark(&mut outcome.store, &facts, first..facts.width(0).min(first + each));
            outcome
        }
        (_, outcome) => outcome,
    });
    assert_found_out("the low bit first", &|call| match (call.entry, by_reference(call)) {
        (Entry::Bitfield, mut outcome) => {
            let size = outcome.given.count() as usize;
            outcome.out[..size].iter_mut().for_each(|byte| *byte = byte.reverse_bits());
            outcome
        }
        (_, outcome) => outcome,
    });
    assert_found_out("cleared beside 3", &|call| match (call.entry, by_reference(call)) {
        (Entry::Clear, mut outcome) if outcome.given.number() == RULE_BROKEN => {
            let facts = facts_of(&call.store).unwrap();
            if call.numbers[0] < facts.width(0) {
                let end = size_of(&facts) as usize;
                outcome.store[end - (facts.width(0) - call.numbers[0]) as usize] = 0;
            }
            outcome
        }
        (_, outcome) => outcome,
    });
    assert_found_out("an answer by the mark", &|call| match (call.entry, by_reference(call)) {
        (Entry::JudgeBlock, mut outcome) if outcome.given.number() == DONE => {
            outcome.given = Given::Answer(Answer::done(marked(&call.store, call.numbers[0]).count));
            outcome
        }
        (_, outcome) => outcome,
    });
    assert_found_out("7 takes the mark back", &|call| match (call.entry, by_reference(call)) {
        (Entry::JudgeBlock, mut outcome) if outcome.given.number() == DIFFERS => {
            clear(&mut outcome.store, call.numbers[0]);
            outcome
        }
        (_, outcome) => outcome,
    });
    assert_found_out("any byte but 0 is a mark", &|call| match (call.entry, by_reference(call)) {
        (Entry::Marked, mut outcome) if outcome.given.number() == DONE => {
            let facts = facts_of(&call.store).unwrap();
            let at = size_of(&facts) as usize - (facts.width(0) - call.numbers[0]) as usize;
            outcome.given = Given::Answer(Answer::done((call.store[at] != 0) as u64));
            outcome
        }
        (_, outcome) => outcome,
    });
}

/// A library whose next request has a header that `change` gives for the file and the right header.
fn assert_asking_found_out(name: &str, change: impl Fn(&[u8], &Facts, Header) -> Header) {
    assert_found_out(name, &|call| match (call.entry, by_reference(call)) {
        (Entry::NextRequest, outcome) => match outcome.given {
            Given::Request(request) if request.asks == 1 => {
                let facts = facts_of(&call.store).unwrap();
                let header = change(&call.store, &facts, Header::read(&request.message));
                Outcome { given: Given::Request(asking(&header)), ..outcome }
            }
            _ => outcome,
        },
        (_, outcome) => outcome,
    });
}

fn asking(header: &Header) -> Request {
    let Header { base, index, length, proof, .. } = *header;
    let message = header.write(REQUEST).try_into().unwrap();
    Request { number: DONE, asks: 1, base, index, length, proof, message }
}

fn requests_that_are_wrong_in_one_way() {
    assert_asking_found_out("one proof layer more", |_, facts, header| {
        let more = Header { proof: header.proof + 1, ..header };
        if more.obeys_the_rules(facts) {
            more
        } else {
            header
        }
    });
    assert_asking_found_out("proof layers up to the root", |_, facts, header| Header {
        proof: facts.height() as u32 - 1 - header.base,
        ..header
    });
    assert_asking_found_out("half the run", |_, _, header| match header.length {
        2 => header,
        length => Header { length: length / 2, ..header },
    });
    assert_found_out("padding asked for", &|call| match (call.entry, by_reference(call)) {
        (Entry::NextRequest, outcome) if outcome.given == Given::Request(Request::none(DONE)) => {
            let facts = facts_of(&call.store).unwrap();
            let (layer, length) = (call.numbers[0], facts.width(call.numbers[0]));
            let is_held = |index: &u64| held_at(&call.store, &facts, Position { layer, index: *index }).is_some();
            let header = Header { root: facts.root, base: layer as u32, index: 0, length: length as u32, proof: 0 };
            match (0..length).all(|index| is_held(&index)) {
                true => outcome,
                false => Outcome { given: Given::Request(asking(&header)), ..outcome },
            }
        }
        (_, outcome) => outcome,
    });
    assert_found_out("numbers without the bytes", &|call| match (call.entry, by_reference(call)) {
        (Entry::NextRequest, mut outcome) => {
            if let Given::Request(request) = &mut outcome.given {
                request.message = [0; HEAD];
            }
            outcome
        }
        (_, outcome) => outcome,
    });
    for number in [3, 6, 9] {
        assert_needed(Entry::NextRequest, number);
    }
}

/// A picker that chooses the piece that `best` gives for the counts and for whether each piece is on disk.
fn assert_picking_found_out(name: &str, best: impl Fn(&[u32], &[bool]) -> Option<usize>) {
    assert_found_out(name, &|call| match (call.entry, by_reference(call)) {
        (Entry::PickPiece, outcome) if outcome.given.number() == DONE => {
            let facts = facts_of(&call.store).unwrap();
            let counts: Vec<u32> =
                call.input.chunks(4).map(|count| u32::from_le_bytes(count.try_into().unwrap())).collect();
            let disk: Vec<bool> = (0..facts.pieces()).map(|piece| is_on_disk(&call.store, &facts, piece)).collect();
            let choice = best(&counts, &disk).map_or(Choice::none(DONE), |piece| Choice {
                number: DONE,
                found: 1,
                piece: piece as u64,
            });
            Outcome { given: Given::Choice(choice), ..outcome }
        }
        (_, outcome) => outcome,
    });
}

fn pieces_picked_wrong() {
    let pieces = |counts: &[u32]| 0..counts.len();
    assert_picking_found_out("the last of a tie", |counts, disk| {
        pieces(counts).rev().filter(|piece| counts[*piece] > 0 && !disk[*piece]).min_by_key(|piece| counts[*piece])
    });
    assert_picking_found_out("a piece that no one has", |counts, disk| {
        pieces(counts).filter(|piece| !disk[*piece]).min_by_key(|piece| counts[*piece])
    });
    assert_picking_found_out("a piece on disk", |counts, _| {
        pieces(counts).filter(|piece| counts[*piece] > 0).min_by_key(|piece| counts[*piece])
    });
    assert_picking_found_out("the most common", |counts, disk| {
        let to_fetch = pieces(counts).filter(|piece| counts[*piece] > 0 && !disk[*piece]);
        to_fetch.rev().max_by_key(|piece| counts[*piece])
    });
    assert_found_out("marks of padding leaves asked for", &|call| match (call.entry, by_reference(call)) {
        (Entry::PickPiece, outcome) if outcome.given.number() == DONE => {
            let facts = facts_of(&call.store).unwrap();
            let longer = Facts { length: facts.width(0) * BLOCK, ..facts };
            let counts: Vec<u32> =
                call.input.chunks(4).map(|count| u32::from_le_bytes(count.try_into().unwrap())).collect();
            let to_fetch = (0..facts.pieces())
                .filter(|piece| counts[*piece as usize] > 0 && !is_on_disk(&call.store, &longer, *piece));
            let rarest = to_fetch.min_by_key(|piece| counts[*piece as usize]);
            let choice = rarest.map_or(Choice::none(DONE), |piece| Choice { number: DONE, found: 1, piece });
            Outcome { given: Given::Choice(choice), ..outcome }
        }
        (_, outcome) => outcome,
    });
    for number in [4, 9] {
        assert_needed(Entry::PickPiece, number);
    }
}

/// A comparison that answers by another store, length, root or block where the reference's number passes `when`.
fn assert_younger_found_out(name: &str, when: impl Fn(u32) -> bool, other: impl Fn(&Call, &Facts) -> u32) {
    assert_found_out(name, &|call| match (call.entry, by_reference(call)) {
        (Entry::Extends, outcome) if when(outcome.given.number()) => {
            let facts = facts_of(&call.store).expect("it was not 9");
            let number = other(call, &facts);
            let count = if number == DONE { call.numbers[0] } else { 0 };
            Outcome { given: Given::Answer(Answer { number, count }), ..outcome }
        }
        (_, outcome) => outcome,
    });
}

fn a_younger_battery() {
    let compared = |number: u32| [DONE, NO_ANCHOR, DIFFERS].contains(&number);
    let asked = |call: &Call, length: u64, block: &[u8]| extends(&call.store, length, call.root, block).number;
    let rest = |call: &Call| (call.numbers[0] % BLOCK) as usize;
    assert_younger_found_out("any root", |number| number == DIFFERS, |_, _| DONE);
    assert_younger_found_out("7 where it is 6", |number| number == NO_ANCHOR, |_, _| DIFFERS);
    assert_younger_found_out("6 where it is 7", |number| number == DIFFERS, |_, _| NO_ANCHOR);
    assert_younger_found_out("the leaf of the whole block", compared, |call, facts| {
        let whole = call.numbers[0].next_multiple_of(BLOCK).min(facts.length);
        asked(call, whole, if rest(call) == 0 || whole % BLOCK == 0 { &[] } else { &call.input })
    });
    assert_younger_found_out(
        "the block not held against its leaf",
        |number| number == DIFFERS,
        |call, facts| {
            let at = Position { layer: 0, index: call.numbers[0] / BLOCK };
            if rest(call) == 0 {
                return DIFFERS;
            }
            let mut store = call.store.clone();
            hold(&mut store, facts, &[(at, sha256(&call.input))]);
            extends(&store, call.numbers[0], call.root, &call.input).number
        },
    );
    assert_found_out("whole blocks counted", &|call| match (call.entry, by_reference(call)) {
        (Entry::Extends, outcome) if outcome.given.number() == DONE => {
            Outcome { given: Given::Answer(Answer::done(call.numbers[0] / BLOCK)), ..outcome }
        }
        (_, outcome) => outcome,
    });
    assert_found_out("a mark set", &|call| match (call.entry, by_reference(call)) {
        (Entry::Extends, mut outcome) if outcome.given.number() == DONE && rest(call) != 0 => {
            let facts = facts_of(&call.store).unwrap();
            let block = call.numbers[0] / BLOCK;
            mark(&mut outcome.store, &facts, block..block + 1);
            outcome
        }
        (_, outcome) => outcome,
    });
    for number in [3, 4, 6, 7, 9] {
        assert_needed(Entry::Extends, number);
    }
}

/// A library whose message of a piece's hashes `change` makes another where there is one.
fn assert_teaching_found_out(name: &str, change: impl Fn(&Call, &mut Outcome)) {
    assert_found_out(name, &|call| match (call.entry, by_reference(call)) {
        (Entry::PieceHashes, mut outcome) if outcome.given.number() == DONE && outcome.given.count() > 0 => {
            change(call, &mut outcome);
            outcome
        }
        (_, outcome) => outcome,
    });
}

fn hashes_of_a_piece_that_are_wrong_in_one_way() {
    assert_teaching_found_out("padding left out", |call, outcome| {
        let blocks = call.input.len().div_ceil(BLOCK as usize);
        outcome.given = Given::Answer(Answer::done((HEAD + 32 * blocks) as u64));
    });
    assert_teaching_found_out("the piece's number for its first leaf", |call, outcome| {
        outcome.out[37..41].copy_from_slice(&(call.numbers[0] as u32).to_be_bytes());
    });
    assert_teaching_found_out("with the proof layers up to the root", |call, outcome| {
        let facts = facts_of(&call.store).unwrap();
        outcome.out[45..49].copy_from_slice(&(facts.height() as u32 - 1).to_be_bytes());
    });
    assert_teaching_found_out("the last block filled up before it is hashed", |call, outcome| {
        let blocks = call.input.len().div_ceil(BLOCK as usize);
        let mut last = call.input[(blocks - 1) * BLOCK as usize..].to_vec();
        last.resize(BLOCK as usize, 0);
        outcome.out[HEAD + 32 * (blocks - 1)..][..32].copy_from_slice(&sha256(&last));
    });
    assert_teaching_found_out("marked as if it were judged", |call, outcome| {
        let facts = facts_of(&call.store).unwrap();
        mark(&mut outcome.store, &facts, facts.blocks_of_piece(call.numbers[0]));
    });
    assert_found_out("a header where there is nothing to say", &|call| match (call.entry, by_reference(call)) {
        (Entry::PieceHashes, outcome) if outcome.given.number() == DONE && outcome.given.count() == 0 => {
            Outcome { given: Given::Answer(Answer::done(HEAD as u64)), ..outcome }
        }
        (_, outcome) => outcome,
    });
    for number in [3, 4, 6, 7, 8, 9, 11] {
        assert_needed(Entry::PieceHashes, number);
    }
}

/// A library that differs where `change` does, on one entry point of saved stores.
fn assert_save_found_out(name: &str, entry: Entry, change: impl Fn(&Call, &mut Outcome)) {
    let impostor = |call: &Call| {
        let mut outcome = by_reference(call);
        if call.entry == entry && outcome.given.number() == DONE {
            change(call, &mut outcome);
        }
        outcome
    };
    assert!(saves(&impostor).difference.is_some(), "not found out: {name}");
}

fn stores_saved_and_loaded_wrong() {
    assert_save_found_out("a save whose end record counts no marks", Entry::Save, |_, outcome| {
        if let Given::Answer(answer) = outcome.given {
            outcome.out[answer.count as usize - 1] = 0;
        }
    });
    assert_save_found_out("a load that forgets the marks", Entry::Load, |_, outcome| {
        let facts = facts_of(&outcome.store).expect("a store");
        for block in 0..facts.length.div_ceil(BLOCK) {
            clear(&mut outcome.store, block);
        }
    });
    assert_save_found_out("a load that counts the root alone", Entry::Load, |_, outcome| {
        outcome.given = Given::Answer(Answer::done(1));
    });
    assert_save_found_out("a repair that leaves the memory", Entry::Repair, |call, outcome| {
        if let Given::Repaired(repaired) = outcome.given {
            outcome.given = Given::Repaired(Repaired { dropped: 0, ..repaired });
            outcome.store.clone_from(&call.store);
        }
    });
    assert_save_found_out("held counted as dropped", Entry::Repair, |_, outcome| {
        if let Given::Repaired(repaired) = &mut outcome.given {
            std::mem::swap(&mut repaired.dropped, &mut repaired.held);
        }
    });
}

fn every_number_of_a_save_comes_up() {
    let expected: [(Entry, &[u32]); 3] =
        [(Entry::Save, &[0, 9, 11]), (Entry::Load, &[0, 9, 10, 32]), (Entry::Repair, &[0, 9, 10, 32])];
    assert_seen(&saves(&by_reference), &expected);
}

fn what_hosts_need_answered_wrong() {
    assert_found_out("the piece length where the file's length should be", &|call| {
        let outcome = by_reference(call);
        match outcome.given {
            Given::Named(named) => {
                Outcome { given: Given::Named(Named { length: named.piece_length, ..named }), ..outcome }
            }
            _ => outcome,
        }
    });
    assert_torrent_found_out("the name with its length prefix", &|call| {
        let outcome = by_reference(call);
        match (call.entry, outcome.given) {
            (Entry::TorrentName, Given::Part(part)) if part.number == DONE => {
                let part = Part { start: part.start - 2, size: part.size + 2, ..part };
                Outcome { given: Given::Part(part), ..outcome }
            }
            _ => outcome,
        }
    });
    let counted_over_all = |call: &Call| {
        let outcome = by_reference(call);
        match outcome.given {
            Given::Placed(placed) if placed.number == DONE => {
                Outcome { given: Given::Placed(Placed { piece: call.numbers[1], ..placed }), ..outcome }
            }
            _ => outcome,
        }
    };
    assert!(places(&counted_over_all).difference.is_some(), "not found out: a piece counted over all files");
}

fn replies_with_wrong_bytes() {
    assert_found_out("a reject with the request's id", &|call| match (call.entry, by_reference(call)) {
        (Entry::Serve, mut outcome) if outcome.given.count() == 49 => {
            outcome.out[0] = 21;
            outcome
        }
        (_, outcome) => outcome,
    });
    assert_found_out("11 writes the head", &|call| match (call.entry, by_reference(call)) {
        (Entry::Serve, mut outcome) if outcome.given.number() == NO_ROOM && call.out.len() >= HEAD => {
            outcome.out[..HEAD].copy_from_slice(&call.input);
            outcome
        }
        (_, outcome) => outcome,
    });
    assert_found_out("a request past the last block rejected", &|call| {
        let outcome = by_reference(call);
        match (call.entry, outcome.given.number(), facts_of(&call.store)) {
            (Entry::Serve, DONE | NOT_HELD, Some(facts)) => {
                let Header { base, index, .. } = Header::read(&call.input);
                let is_past = facts.is_padding(Position { layer: base as u64, index: index as u64 });
                let rejected = Given::Answer(Answer { number: RULE_BROKEN, count: HEAD as u64 });
                Outcome { given: if is_past { rejected } else { outcome.given }, ..outcome }
            }
            _ => outcome,
        }
    });
    assert_found_out("a small room rejects", &|call| match (call.entry, by_reference(call)) {
        (Entry::Serve, outcome) if outcome.given.number() == NO_ROOM && call.out.len() >= HEAD => {
            answered(call, NOT_HELD, 49)
        }
        (_, outcome) => outcome,
    });
}

fn hashes_that_look_right() {
    assert_found_out("a piece hashed flat", &|call| match (call.entry, facts_of(&call.store)) {
        (Entry::JudgePiece, Some(facts)) if facts.piece_size(call.numbers[0]) == Some(call.input.len() as u64) => {
            let node = facts.piece_position(call.numbers[0]);
            let held = reference::store::held(&call.store, node.layer, node.index);
            let number = match held {
                Hashed { number: DONE, hash } if hash == sha256(&call.input) => DONE,
                Hashed { number: DONE, .. } => DIFFERS,
                _ => NO_ANCHOR,
            };
            answered(call, number, 0)
        }
        _ => by_reference(call),
    });
    assert_found_out("the last block filled up", &|call| match (call.entry, facts_of(&call.store)) {
        (Entry::JudgeBlock, Some(_)) if call.input.len() < 16384 => {
            let mut filled = call.input.clone();
            filled.resize(16384, 0);
            match (by_reference(call).given.number(), reference::store::held(&call.store, 0, call.numbers[0])) {
                (DONE, held) if held.hash != sha256(&filled) => answered(call, DIFFERS, 0),
                _ => by_reference(call),
            }
        }
        _ => by_reference(call),
    });
    assert_found_out("the root among the facts is judged against", &|call| {
        let mut changed = call.clone();
        if let (Entry::JudgeBlock | Entry::JudgePiece | Entry::LoadLayer, Some(facts)) =
            (call.entry, facts_of(&call.store))
        {
            hold(&mut changed.store, &facts, &[(facts.top(), facts.root)]);
        }
        let outcome = by_reference(&changed);
        Outcome { store: if outcome.given.number() == DONE { outcome.store } else { call.store.clone() }, ..outcome }
    });
}

/// A number that is never given: the answer is 0 with what the call would give for a good torrent of nothing.
fn numbers_of_a_torrent_that_are_left_out() {
    for left_out in (19..=28).chain([31]) {
        assert_torrent_found_out("a number left out", &|call| {
            let mut outcome = by_reference(call);
            if let Given::Torrent(torrent) = &mut outcome.given {
                torrent.number = if torrent.number == left_out { DONE } else { torrent.number };
            }
            outcome
        });
    }
}

fn torrents_read_wrong() {
    assert_torrent_found_out("the info hash of the whole torrent", &|call| match by_reference(call) {
        Outcome { given: Given::Torrent(torrent), .. } if torrent.number == DONE => {
            let given = Given::Torrent(Torrent { info_hash: sha256(&call.input), ..torrent });
            Outcome { given, ..untouched(call) }
        }
        outcome => outcome,
    });
    assert_torrent_found_out("a layer with its length prefix", &|call| match by_reference(call) {
        Outcome { given: Given::File(file), .. } if file.layer_size == 64 => {
            let given = Given::File(File { layer_start: file.layer_start - 3, layer_size: 67, ..file });
            Outcome { given, ..untouched(call) }
        }
        outcome => outcome,
    });
    assert_torrent_found_out("29 before the torrent's own number", &|call| match (call.entry, by_reference(call)) {
        (Entry::TorrentFile, outcome) if outcome.given.number() == DONE => outcome,
        (Entry::TorrentFile, outcome) => Outcome { given: torrent_file_refused(NO_SUCH_PART), ..outcome },
        (_, outcome) => outcome,
    });
}

/// A wrong path element is let through: where it stands, the reference reads a right one of the same size, next to it in order.
fn path_elements_that_are_let_through() {
    let elements: [(&str, &[u8], &[u8]); 4] = [
        ("..", b"2:..d", b"2:.-d"),
        (".", b"1:.d", b"1:-d"),
        ("a/b", b"3:a/bd", b"3:a.bd"),
        ("a zero byte", b"2:a\0d", b"2:a\x01d"),
    ];
    for (name, wrong, right) in elements {
        assert_torrent_found_out(name, &|call| {
            let outcome = by_reference(call);
            match call.input.windows(wrong.len()).position(|part| part == wrong) {
                Some(at) if outcome.given.number() == WRONG_TREE => {
                    let mut changed = call.clone();
                    changed.input[at..at + right.len()].copy_from_slice(right);
                    by_reference(&changed)
                }
                _ => outcome,
            }
        });
    }
}

/// Whether an earlier file has the same root, and is not empty.
fn is_a_later_twin(torrent: &[u8], file: u64) -> bool {
    contents(torrent).is_ok_and(|all| {
        let (before, rest) = all.files.split_at(file as usize);
        rest[0].length > 0 && before.iter().any(|other| other.length > 0 && other.root == rest[0].root)
    })
}

fn twins_read_wrong() {
    assert_torrent_found_out("two equal files refused", &|call| match by_reference(call) {
        Outcome { given: Given::Torrent(torrent), .. }
            if torrent.number == DONE && (0..torrent.files).any(|file| is_a_later_twin(&call.input, file)) =>
        {
            let given = Given::Torrent(Torrent { number: TWO_LENGTHS, info_hash: [0; 32], piece_length: 0, files: 0 });
            Outcome { given, ..untouched(call) }
        }
        outcome => outcome,
    });
    assert_torrent_found_out("a layer for the first twin alone", &|call| match by_reference(call) {
        Outcome { given: Given::File(file), .. }
            if file.layer_size > 0 && is_a_later_twin(&call.input, call.numbers[0]) =>
        {
            let given = Given::File(File { layer_start: 0, layer_size: 0, ..file });
            Outcome { given, ..untouched(call) }
        }
        outcome => outcome,
    });
}

/// Whether the v2 half of a call that judges by both halves agrees.
fn agrees_by_v2(call: &Call) -> bool {
    let by_v2 = || by_reference(&Call { entry: Entry::JudgePiece, ..call.clone() });
    call.entry == Entry::JudgeHybridPiece && by_v2().given.number() == DONE
}

fn pieces_judged_by_one_half() {
    assert_found_out("the v2 half alone", &|call| match call.entry {
        Entry::JudgeHybridPiece => by_reference(&Call { entry: Entry::JudgePiece, ..call.clone() }),
        _ => by_reference(call),
    });
    assert_found_out("marked before the v1 half", &|call| match by_reference(call) {
        outcome if agrees_by_v2(call) && outcome.given.number() == DIFFERS => {
            let marked = by_reference(&Call { entry: Entry::JudgePiece, ..call.clone() }).store;
            Outcome { store: marked, ..outcome }
        }
        outcome => outcome,
    });
    assert_found_out("zeros left out of the v1 hash", &|call| match call.entry {
        Entry::JudgeHybridPiece if agrees_by_v2(call) && call.numbers[1] < 1 << 20 => {
            by_reference(&call.clone().numbers(call.numbers[0], 0))
        }
        _ => by_reference(call),
    });
    assert_found_out("the v1 hash of a piece compared in part", &|call| match by_reference(call) {
        outcome if agrees_by_v2(call) && outcome.given.number() == DIFFERS => {
            // Data and zeros are at most a piece, or it would be 4.
            let covered = [&call.input[..], &vec![0; call.numbers[1] as usize]].concat();
            match sha1(&covered)[..16] == call.root[..16] {
                true => by_reference(&Call { entry: Entry::JudgePiece, ..call.clone() }),
                false => outcome,
            }
        }
        outcome => outcome,
    });
    assert_found_out("4 for the zeros before the v2 answer", &|call| match (call.entry, facts_of(&call.store)) {
        (Entry::JudgeHybridPiece, Some(facts)) if call.numbers[1] > facts.piece_length => answered(call, WRONG_SIZE, 0),
        _ => by_reference(call),
    });
}

fn hybrids_read_wrong() {
    assert_torrent_found_out("every torrent a hybrid", &|call| match by_reference(call) {
        Outcome { given: Given::Hybrid(hybrid), .. } if hybrid.number == DONE => {
            Outcome { given: Given::Hybrid(Hybrid { hybrid: 1, ..hybrid }), ..untouched(call) }
        }
        outcome => outcome,
    });
    assert_torrent_found_out("a v1 hash by the file's own piece number", &|call| match by_reference(call) {
        Outcome { given: Given::V1Piece(piece), .. } if piece.number == DONE => {
            let first = reference::hybrid::torrent_v1_pieces(&call.input, 0);
            let at = first.start as usize + 20 * call.numbers[1] as usize;
            let hash = call.input.get(at..at + 20).map_or(piece.hash, |hash| hash.try_into().unwrap());
            Outcome { given: Given::V1Piece(V1Piece { hash, ..piece }), ..untouched(call) }
        }
        outcome => outcome,
    });
    assert_torrent_found_out("zeros up to the boundary past the end", &|call| match by_reference(call) {
        Outcome { given: Given::V1Part(part), .. } if part.number == DONE && part.size > 0 => {
            let all = contents(&call.input).unwrap();
            let length = all.files[call.numbers[0] as usize].length;
            let zeros = length.next_multiple_of(all.piece_length) - length;
            Outcome { given: Given::V1Part(V1Part { zeros, ..part }), ..untouched(call) }
        }
        outcome => outcome,
    });
    assert_torrent_found_out("3 before 29", &|call| match by_reference(call) {
        Outcome { given: Given::V1Part(part), .. } if part.number == NO_SUCH_PART => {
            Outcome { given: Given::V1Part(V1Part { number: RULE_BROKEN, ..part }), ..untouched(call) }
        }
        outcome => outcome,
    });
    assert_torrent_found_out("31 after 29", &|call| match by_reference(call) {
        Outcome { given: Given::File(file), .. } if file.number == HALVES_DIFFER => {
            Outcome { given: torrent_file_refused(NO_SUCH_PART), ..untouched(call) }
        }
        outcome => outcome,
    });
}

fn torrent_file_refused(number: u32) -> Given {
    Given::File(File { number, length: 0, root: [0; 32], elements: 0, layer_start: 0, layer_size: 0 })
}

fn lists_written_wrong() {
    assert_torrent_found_out("11 before the torrent's own number", &|call| match (call.entry, by_reference(call)) {
        (Entry::TorrentList, outcome) if outcome.given.number() != DONE => answered(call, NO_ROOM, 0),
        (_, outcome) => outcome,
    });
    assert_torrent_found_out("what fits is written before 11", &|call| match (call.entry, by_reference(call)) {
        (Entry::TorrentList, mut outcome) if outcome.given.number() == NO_ROOM => {
            outcome.out.iter_mut().take(8).for_each(|byte| *byte = 0);
            outcome
        }
        (_, outcome) => outcome,
    });
    assert_torrent_found_out("the room behind is cleared", &|call| match (call.entry, by_reference(call)) {
        (Entry::TorrentList, mut outcome) if outcome.given.number() == DONE => {
            let written = outcome.given.count() as usize;
            outcome.out[written..].fill(0);
            outcome
        }
        (_, outcome) => outcome,
    });
    assert_torrent_found_out("unused path elements are left", &|call| match (call.entry, by_reference(call)) {
        (Entry::TorrentList, mut outcome) if outcome.given.number() == DONE => {
            outcome.out[RECORD - 8..RECORD].copy_from_slice(&call.out[RECORD - 8..RECORD]);
            outcome
        }
        (_, outcome) => outcome,
    });
}

fn a_difference_is_shown_small() {
    let impostor: Library = &|call| match (call.entry, by_reference(call)) {
        (Entry::Take, outcome) if outcome.given.number() == WRONG_PADDING => answered(call, DIFFERS, 0),
        (_, outcome) => outcome,
    };
    let text = report(impostor, &sessions(impostor).difference.unwrap());
    assert!(text.contains("reference: Answer(Answer { number: 5, count: 0 })"), "{text}");
    assert!(text.contains("library:   Answer(Answer { number: 7, count: 0 })"), "{text}");
    assert!(text.len() < 1000, "{text}");
}

host_tests::tests! {
    every_number_comes_up,
    every_number_of_a_torrent_comes_up,
    every_number_of_the_running_forms_comes_up,
    every_number_of_a_written_torrent_comes_up,
    every_number_of_a_stream_comes_up,
    streams_that_are_wrong_in_one_way,
    writers_that_are_wrong_in_one_way,
    running_forms_that_are_wrong_in_one_way,
    takes_that_never_or_always_say_yes,
    openings_that_hold_or_leave_too_much,
    stores_written_before_the_anchor_is_compared,
    checks_that_are_left_out,
    marks_that_say_neither_read_as_held,
    marks_of_blocks_that_are_wrong_in_one_way,
    requests_that_are_wrong_in_one_way,
    pieces_picked_wrong,
    a_younger_battery,
    hashes_of_a_piece_that_are_wrong_in_one_way,
    stores_saved_and_loaded_wrong,
    every_number_of_a_save_comes_up,
    what_hosts_need_answered_wrong,
    replies_with_wrong_bytes,
    hashes_that_look_right,
    numbers_of_a_torrent_that_are_left_out,
    torrents_read_wrong,
    path_elements_that_are_let_through,
    twins_read_wrong,
    lists_written_wrong,
    pieces_judged_by_one_half,
    hybrids_read_wrong,
    a_difference_is_shown_small,
}
