//! The byte stream from a neighbour, cut anywhere, and the frames that are sent: request 9 of document 02.

use crate::ids::*;
use crate::limits::LONGEST_FRAME;
use crate::number::{DONE, FRAME_TOO_LONG, NO_MESSAGE, NO_ROOM, UNUSABLE};
use crate::Answer;
use std::ops::RangeInclusive;

/// The reader's state as the host keeps it.
#[derive(Clone, Copy, Debug, PartialEq, Eq, Default)]
pub struct Stream {
    pub length: u32,
    pub length_size: u32,
    pub read: u32,
    pub mode: u32,
}

/// What one call says: the number, what is heard (0 nothing, 1 a message, 2 a keep-alive), how many of the bytes were used, a message's
/// size, the state then.
#[derive(Clone, Copy, Debug, PartialEq, Eq)]
pub struct Heard {
    pub number: u32,
    pub event: u32,
    pub used: u64,
    pub size: u64,
    pub state: Stream,
}

/// The lengths that messages of an id may have, the id byte counted; none for an id that we don't know.
pub fn lengths(id: u8) -> Option<RangeInclusive<usize>> {
    let exactly = |size| size..=size;
    let at_least = |size| size..=usize::MAX;
    Some(match id {
        CHOKE | UNCHOKE | INTERESTED | NOT_INTERESTED => exactly(1),
        HAVE => exactly(5),
        BITFIELD | EXTENDED => at_least(2),
        REQUEST | CANCEL => exactly(13),
        PIECE => at_least(9),
        HASH_REQUEST | HASH_REJECT => exactly(49),
        HASHES => at_least(49),
        _ => return None,
    })
}

/// What happens to a frame's bytes.
#[derive(Clone, Copy, Debug, PartialEq, Eq)]
enum Fate {
    Stored,
    Unknown,
    WrongSize,
    TooLarge,
}

const FATES: [Fate; 4] = [Fate::Stored, Fate::Unknown, Fate::WrongSize, Fate::TooLarge];

/// Where a stream stands.
#[derive(Clone, Copy, Debug, PartialEq, Eq)]
enum Standing {
    /// So many bytes of a prefix have come, and make this number.
    Prefix(u32, u32),
    /// Inside a frame: its length, the bytes read, their fate.
    Frame(u32, u32, Fate),
    /// Refused by this length.
    Refused(u32),
}

use Standing::*;

const BETWEEN: Standing = Prefix(0, 0);

fn fate(id: u8, length: usize, room: usize) -> Fate {
    match lengths(id) {
        None => Fate::Unknown,
        Some(right) if !right.contains(&length) => Fate::WrongSize,
        Some(_) if length > room => Fate::TooLarge,
        Some(_) => Fate::Stored,
    }
}

impl Standing {
    /// What the state says, if some bytes give it, and it has stored no more than this room has.
    fn of(state: Stream, room: usize) -> Option<Standing> {
        let Stream { length, length_size, read, mode } = state;
        let is_long = length as usize > LONGEST_FRAME;
        match (length_size, mode) {
            (0..=3, 0) if read == 0 && u64::from(length) < 1 << (8 * length_size) => Some(Prefix(length, length_size)),
            (4, 4) if read == 0 && is_long => Some(Refused(length)),
            (4, 0..=3) if read < length && !is_long => {
                let fate = FATES[mode as usize];
                let possible = if fate == Fate::Stored { read as usize <= room } else { read > 0 };
                possible.then_some(Frame(length, read, fate))
            }
            _ => None,
        }
    }

    fn state(self) -> Stream {
        let (length, length_size, read, mode) = match self {
            Prefix(number, size) => (number, size, 0, 0),
            Frame(length, read, fate) => {
                (length, 4, read, FATES.iter().position(|other| *other == fate).unwrap() as u32)
            }
            Refused(length) => (length, 4, 0, 4),
        };
        Stream { length, length_size, read, mode }
    }
}

/// What a byte says.
enum Said {
    Nothing,
    Message(u32),
    KeepAlive,
    Number(u32),
}

/// One byte more: where the stream stands then, and what is said.
fn step(standing: Standing, byte: u8, room: &mut [u8]) -> (Standing, Said) {
    match standing {
        Prefix(number, size) => match (size + 1, number << 8 | u32::from(byte)) {
            (4, 0) => (BETWEEN, Said::KeepAlive),
            (4, length) if length as usize > LONGEST_FRAME => (Refused(length), Said::Number(FRAME_TOO_LONG)),
            (4, length) => (Frame(length, 0, Fate::Stored), Said::Nothing),
            (size, number) => (Prefix(number, size), Said::Nothing),
        },
        Frame(length, read, before) => {
            let fate = match before {
                Fate::Stored if read == 0 => fate(byte, length as usize, room.len()),
                // a room that has shrunk
                Fate::Stored if length as usize > room.len() => Fate::TooLarge,
                _ => before,
            };
            if fate == Fate::Stored {
                room[read as usize] = byte;
            }
            if read + 1 < length {
                return (Frame(length, read + 1, fate), Said::Nothing);
            }
            let said = match fate {
                Fate::Stored => Said::Message(length),
                Fate::Unknown => Said::Nothing,
                Fate::WrongSize => Said::Number(NO_MESSAGE),
                Fate::TooLarge => Said::Number(NO_ROOM),
            };
            (BETWEEN, said)
        }
        Refused(_) => unreachable!("a refused stream is given no byte"),
    }
}

/// Hears bytes, up to the first at which something is said.
pub fn hear(state: Stream, data: &[u8], room: &mut [u8]) -> Heard {
    let nothing = Heard { number: DONE, event: 0, used: 0, size: 0, state };
    let mut standing = match Standing::of(state, room.len()) {
        None => return Heard { number: UNUSABLE, ..nothing },
        Some(Refused(_)) => return Heard { number: FRAME_TOO_LONG, ..nothing },
        Some(standing) => standing,
    };
    for (at, byte) in data.iter().enumerate() {
        let said;
        (standing, said) = step(standing, *byte, room);
        let here = Heard { used: at as u64 + 1, state: standing.state(), ..nothing };
        match said {
            Said::Nothing => (),
            Said::Message(size) => return Heard { event: 1, size: u64::from(size), ..here },
            Said::KeepAlive => return Heard { event: 2, ..here },
            Said::Number(number) => return Heard { number, ..here },
        }
    }
    Heard { used: data.len() as u64, state: standing.state(), ..nothing }
}

/// Writes the frame of a message; no bytes make the keep-alive.
pub fn frame(message: &[u8], out: &mut [u8]) -> Answer {
    if message.len() > LONGEST_FRAME {
        return Answer::refused(FRAME_TOO_LONG);
    }
    let right = match message.first() {
        None => true,
        Some(id) => lengths(*id).is_some_and(|right| right.contains(&message.len())),
    };
    if !right {
        return Answer::refused(NO_MESSAGE);
    }
    let frame = [&(message.len() as u32).to_be_bytes()[..], message].concat();
    if frame.len() > out.len() {
        return Answer::refused(NO_ROOM);
    }
    out[..frame.len()].copy_from_slice(&frame);
    Answer::done(frame.len() as u64)
}

#[cfg(test)]
mod tests {
    use super::*;

    /// All that is heard of pieces that are offered one after the other, a message with its bytes.
    fn heard(pieces: &[&[u8]], room: &mut [u8]) -> (Vec<(u32, u32, Vec<u8>)>, Stream) {
        let mut state = Stream::default();
        let mut all = Vec::new();
        for piece in pieces {
            let mut rest = *piece;
            loop {
                let given = hear(state, rest, room);
                state = given.state;
                rest = &rest[given.used as usize..];
                if given.number == 0 && given.event == 0 {
                    assert!(rest.is_empty());
                    break;
                }
                all.push((given.number, given.event, room[..given.size as usize].to_vec()));
                if given.number == FRAME_TOO_LONG {
                    return (all, state);
                }
            }
        }
        (all, state)
    }

    fn frames(messages: &[&[u8]]) -> Vec<u8> {
        messages.iter().flat_map(|message| [&(message.len() as u32).to_be_bytes()[..], message].concat()).collect()
    }

    #[test]
    fn one_of_each() {
        let stream = frames(&[&[], &[0], &[9, 9, 9], &[0, 0], &[5, 1, 2, 3], &[4, 0, 0, 0, 7]]);
        let mut room = [0; 5];
        let (all, state) = heard(&[&stream], &mut room);
        let expected = [
            (0, 2, vec![]),
            (0, 1, vec![0]),
            (NO_MESSAGE, 0, vec![]),
            (0, 1, vec![5, 1, 2, 3]),
            (0, 1, vec![4, 0, 0, 0, 7]),
        ];
        assert_eq!(all, expected);
        assert_eq!(state, Stream::default());
        let (all, _) = heard(&[&stream], &mut room[..4]);
        assert_eq!(all[4], (NO_ROOM, 0, vec![]));
    }

    #[test]
    fn every_cutting_into_two_says_the_same() {
        let stream = [&frames(&[&[1], &[9; 6], &[5; 7], &[], &[6; 12]])[..], &[0, 4, 0x93, 0xe1, 1, 2]].concat();
        let whole = heard(&[&stream], &mut [0; 6]);
        assert_eq!(whole.1, Stream { length: 300_001, length_size: 4, read: 0, mode: 4 });
        for cut in 0..=stream.len() {
            assert_eq!(heard(&[&stream[..cut], &[], &stream[cut..]], &mut [0; 6]), whole);
        }
    }

    #[test]
    fn a_room_that_shrinks_or_grows() {
        let stream = frames(&[&[5, 1, 2, 3, 4, 5]]);
        let stored = hear(Stream::default(), &stream[..7], &mut [0; 6]).state;
        assert_eq!(stored, Stream { length: 6, length_size: 4, read: 3, mode: 0 });
        assert_eq!(hear(stored, &stream[7..], &mut [0; 2]).number, UNUSABLE);
        assert_eq!(hear(stored, &[], &mut [0; 3]).number, DONE);
        assert_eq!(hear(stored, &stream[7..], &mut [0; 3]).number, NO_ROOM);
        let skipped = hear(Stream::default(), &stream[..7], &mut [0; 5]).state;
        assert_eq!(skipped.mode, 3);
        assert_eq!(hear(skipped, &stream[7..], &mut [0; 100]).number, NO_ROOM);
    }

    #[test]
    fn states_that_no_bytes_give() {
        let bad = [
            (0, 5, 0, 0),
            (1, 0, 0, 0),
            (256, 1, 0, 0),
            (0, 2, 1, 0),
            (0, 3, 0, 1),
            (0, 4, 0, 0),
            (5, 4, 5, 0),
            (5, 4, 0, 1),
            (5, 4, 1, 5),
            (300_001, 4, 0, 0),
            (300_000, 4, 0, 4),
            (300_001, 4, 1, 4),
        ];
        for (length, length_size, read, mode) in bad {
            let state = Stream { length, length_size, read, mode };
            let given = hear(state, &[1, 2], &mut [0; 9]);
            assert_eq!(given, Heard { number: UNUSABLE, event: 0, used: 0, size: 0, state });
        }
    }

    #[test]
    fn the_writer_in_its_order() {
        let mut out = [0xaa; 20];
        assert_eq!(frame(&[9; 300_001], &mut out), Answer::refused(FRAME_TOO_LONG));
        assert_eq!(frame(&[9; 300_000], &mut out), Answer::refused(NO_MESSAGE));
        assert_eq!(frame(&[0, 0], &mut []), Answer::refused(NO_MESSAGE));
        assert_eq!(frame(&[5; 17], &mut out), Answer::refused(NO_ROOM));
        assert_eq!(out, [0xaa; 20]);
        assert_eq!(frame(&[], &mut out), Answer::done(4));
        assert_eq!(frame(&[5; 16], &mut out), Answer::done(20));
        assert_eq!(out[..5], [0, 0, 0, 16, 5]);
    }
}
