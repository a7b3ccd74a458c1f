//! Streams of frames cut anywhere, rooms of every kind, hostile states, and messages that are framed.

use crate::call::{Call, Entry, Given};
use crate::compare::Comparison;
use crate::random::Random;
use crate::states::{stream_bytes, stream_of, STREAM};
use reference::limits::LONGEST_FRAME;
use reference::number::FRAME_TOO_LONG;
use reference::stream::{lengths, Stream};

/// Each known id, and one that isn't.
fn ids() -> Vec<u8> {
    (0..=u8::MAX).filter(|id| lengths(*id).is_some()).chain([9]).collect()
}

/// A prefix and so many bytes.
fn frame(message: &[u8]) -> Vec<u8> {
    [&(message.len() as u32).to_be_bytes()[..], message].concat()
}

/// A message of an id and a length, which need not be right.
fn message(random: &mut Random, id: u8, length: usize) -> Vec<u8> {
    let mut message = random.bytes(length);
    if let Some(first) = message.first_mut() {
        *first = id;
    }
    message
}

/// Offers a piece until all of it is used, or the stream is refused. Gives the state and the room that the last call leaves.
fn offer(compared: &mut Comparison, mut state: Vec<u8>, mut room: Vec<u8>, piece: &[u8]) -> (Vec<u8>, Vec<u8>, bool) {
    let mut rest = piece;
    loop {
        let left = compared.ask(&Call::new(Entry::StreamHear).on(&state).input(rest.to_vec()).out(room));
        let Given::Heard(number, event, used, _) = left.given else { panic!("an answer of another call") };
        (state, room, rest) = (left.store, left.out, &rest[used as usize..]);
        let is_refused = number == FRAME_TOO_LONG;
        if is_refused || used == 0 || (number == 0 && event == 0) {
            return (state, room, is_refused);
        }
    }
}

/// A stream in pieces that end at these places.
fn hear_cut(compared: &mut Comparison, stream: &[u8], cuts: &[usize], room: usize) {
    let mut state = compared.ask(&Call::new(Entry::StreamBegin).on(&[0; STREAM])).store;
    let mut lent = vec![0x5a; room];
    let mut at = 0;
    for &cut in cuts.iter().chain([&stream.len()]) {
        (state, lent, _) = offer(compared, state, lent, &stream[at..cut]);
        at = cut;
    }
}

/// Short streams: a frame of each fate between others, and a prefix that is too long.
fn short_streams(random: &mut Random) -> Vec<Vec<u8>> {
    let mut of = |list: &[(u8, usize)]| {
        list.iter().flat_map(|(id, length)| frame(&message(random, *id, *length))).collect::<Vec<u8>>()
    };
    let mut streams = vec![
        of(&[(0, 0), (0, 1), (4, 5), (0, 0)]),
        of(&[(9, 3), (5, 4), (9, 1), (5, 3)]),
        of(&[(0, 2), (5, 9), (5, 6), (4, 4)]),
        of(&[(9, 1), (9, 2), (9, 3), (1, 1)]),
        of(&[(6, 13), (20, 2)]),
    ];
    streams.push([of(&[(9, 2), (2, 1)]), vec![0, 4, 0x93, 0xe1, 0, 0, 0, 1]].concat());
    streams
}

/// Every cutting of short streams into two and three pieces.
pub fn run_through_every_cut(random: &mut Random, compared: &mut Comparison) {
    for stream in short_streams(random) {
        for room in [0, 1, 5, 6, 13, 64] {
            for one in 0..=stream.len() {
                for two in one..=stream.len() {
                    hear_cut(compared, &stream, &[one, two], room);
                }
            }
        }
    }
}

/// Rooms for a frame of so many bytes: none, one, a header's less one and whole, the frame's less one and whole.
fn rooms(length: usize) -> [usize; 6] {
    [0, 1, 48, 49, length.saturating_sub(1), length]
}

/// Every length of every id up to 60, and those around the longest; each read in every room, and written.
pub fn run_through_every_length(random: &mut Random, compared: &mut Comparison) {
    for id in ids() {
        for length in (0..=60).chain([LONGEST_FRAME - 1, LONGEST_FRAME, LONGEST_FRAME + 1]) {
            let message = message(random, id, length);
            let stream = [frame(&message), frame(&[1])].concat();
            for room in rooms(length) {
                if length <= 60 || room + 1 >= length {
                    hear_cut(compared, &stream, &[4, 5], room);
                }
            }
            for room in rooms(length + 4) {
                compared.ask(&Call::new(Entry::Frame).input(message.clone()).out(vec![0x5a; room]));
            }
        }
    }
    for length in [
        LONGEST_FRAME as u32 - 1,
        LONGEST_FRAME as u32,
        LONGEST_FRAME as u32 + 1,
        1 << 24,
        1 << 31,
        u32::MAX - 1,
        u32::MAX,
    ] {
        let stream = [&length.to_be_bytes()[..], &[5, 1, 2, 3]].concat();
        for cut in 0..=4 {
            for room in [0, 8] {
                hear_cut(compared, &stream, &[cut], room);
            }
        }
    }
}

/// A state that need not be ours: a field changed, or any numbers at all.
fn spoiled(random: &mut Random, state: &[u8], room: usize) -> Vec<u8> {
    let mut state = stream_of(state);
    let longest = LONGEST_FRAME as u32;
    match random.below(6) {
        0 => state.length = random.pick(&[0, 1, 255, 256, 65535, 65536, 1 << 24, longest, longest + 1, u32::MAX]),
        1 => state.length_size = random.pick(&[0, 1, 2, 3, 4, 5, u32::MAX]),
        2 => {
            let (length, room) = (state.length, room as u32);
            state.read =
                random.pick(&[0, 1, length.wrapping_sub(1), length, room, room + 1, room.wrapping_sub(1), u32::MAX]);
        }
        3 => state.mode = random.pick(&[0, 1, 2, 3, 4, 5, u32::MAX]),
        4 => {
            // inside a frame, about as far as the room goes
            let length = random.pick(&[1, 2, 49, 50, room as u32, room as u32 + 1, longest]);
            let mode = random.below(5) as u32;
            state = Stream { length, length_size: 4, read: random.below(u64::from(length) + 2) as u32, mode };
        }
        _ => state = stream_of(&random.bytes(STREAM)),
    }
    stream_bytes(&state)
}

/// A stream of some frames, mostly right ones.
fn stream(random: &mut Random) -> Vec<u8> {
    let ids = ids();
    let mut bytes = Vec::new();
    for _ in 0..random.between(1, 12) {
        let id = random.pick(&ids);
        let least = lengths(id).map_or(1, |right| *right.start());
        let any = random.below(70) as usize;
        let long = random.below(3000) as usize;
        let length = random.pick(&[least, least, least, least + 1, least - 1, any, long, 0]);
        bytes.extend(frame(&message(random, id, length)));
        if random.percent(3) {
            let longest = LONGEST_FRAME as u32;
            bytes.extend(random.pick(&[longest, longest + 1, 1 << 24, u32::MAX]).to_be_bytes());
        }
    }
    bytes
}

/// A stream in pieces of any size, the room sometimes another, the state sometimes spoiled.
fn session(random: &mut Random, compared: &mut Comparison) {
    let bytes = stream(random);
    let any = random.below(80) as usize;
    let mut state = compared.ask(&Call::new(Entry::StreamBegin).on(&[0; STREAM])).store;
    let mut room = vec![0x5a; random.pick(&[0, 1, 5, 13, 48, 49, 50, any, 3000])];
    let mut rest = &bytes[..];
    while !rest.is_empty() {
        let any = random.below(rest.len() as u64 + 1) as usize;
        let size = random.pick(&[0, 1, 1, 2, 3, 4, 5, any, any, rest.len()]).min(rest.len());
        let (piece, behind) = rest.split_at(size);
        let is_refused;
        (state, room, is_refused) = offer(compared, state, room, piece);
        rest = behind;
        if is_refused && random.percent(70) {
            break;
        }
        if random.percent(8) {
            state = spoiled(random, &state, room.len());
        }
        if random.percent(5) {
            let read = stream_of(&state).read as usize;
            let sizes =
                [0, 1, read.min(4000), read.min(4000) + 1, read.saturating_sub(1).min(4000), room.len() + 1, 3000];
            room.resize(random.pick(&sizes), 0x5a);
        }
    }
}

/// A message of any size to an output of about that size.
fn framed(random: &mut Random, compared: &mut Comparison) {
    let ids = ids();
    let id = random.pick(&ids);
    let any = random.below(200) as usize;
    let least = lengths(id).map_or(1, |right| *right.start());
    let length = random.pick(&[least, least, least + 1, any, 0]);
    let whole = length + 4;
    let room = random.pick(&[whole, whole, whole - 1, whole + 1, whole + 60, 0, 3, 4]);
    let message = message(random, id, length);
    compared.ask(&Call::new(Entry::Frame).input(message).out(random.bytes(room)));
}

/// Rounds of `run`, so that it takes some seconds.
const ROUNDS: u64 = 8000;

/// Streams and messages.
pub fn run(random: &mut Random, compared: &mut Comparison, mut go_on: impl FnMut(&Comparison) -> bool) {
    for _ in 0..ROUNDS {
        if !go_on(compared) {
            return;
        }
        session(random, compared);
        framed(random, compared);
    }
}
