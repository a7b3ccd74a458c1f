//! The byte stream from a neighbour, cut anywhere, and the frames that are sent.

use crate::answer::answer;
use crate::Refusal;

/// Reads a neighbour's stream. It borrows the room that the message under way stands in, so that nothing else writes there in between.
///
/// ```
/// use kombudeva::{frame, ids, Heard, Refusal, Stream};
///
/// let mut sent = [0; 9];
/// let sent = frame(&[ids::HAVE, 0, 0, 0, 7], &mut sent)?;
///
/// let mut room = [0; 100];
/// let mut stream = Stream::begin(&mut room);
/// assert_eq!(stream.hear(&sent[..6]).next(), None);
/// let mut hearing = stream.hear(&sent[6..]);
/// while let Some(heard) = hearing.next() {
///     match heard {
///         Ok(Heard::Message(message)) => assert_eq!(message, [ids::HAVE, 0, 0, 0, 7]),
///         Ok(Heard::KeepAlive) => (),
///         Err(Refusal::FrameTooLong) => panic!("hang up"),
///         Err(skipped) => println!("{skipped}"),
///     }
/// }
/// # Ok::<(), Refusal>(())
/// ```
#[derive(Debug)]
pub struct Stream<'a> {
    state: boundary::Stream,
    room: &'a mut [u8],
}

/// What is heard.
#[derive(Clone, Copy, Debug, PartialEq, Eq)]
pub enum Heard<'a> {
    /// A message of a known id and a right size, its id first.
    Message(&'a [u8]),
    /// A frame of no bytes, by which hosts time.
    KeepAlive,
}

/// Bytes of a stream that are being heard.
#[derive(Debug)]
#[must_use = "nothing is heard before `next` is called"]
pub struct Hearing<'s, 'a, 'd> {
    stream: &'s mut Stream<'a>,
    rest: &'d [u8],
    is_refused: bool,
}

impl<'a> Stream<'a> {
    /// No bytes yet. [`LONGEST_FRAME`](crate::limits::LONGEST_FRAME) bytes of room hold any message.
    #[must_use]
    pub fn begin(room: &'a mut [u8]) -> Stream<'a> {
        Stream { state: boundary::stream_begin(), room }
    }

    /// Takes the next bytes, cut anywhere. All of it is heard once [`Hearing::next`] has said `None`; what is left before that can be
    /// offered again.
    pub fn hear<'s, 'd>(&'s mut self, data: &'d [u8]) -> Hearing<'s, 'a, 'd> {
        Hearing { stream: self, rest: data, is_refused: false }
    }
}

impl<'d> Hearing<'_, '_, 'd> {
    /// What is heard next, or `None` once all bytes are used or the stream is refused.
    ///
    /// # Errors
    ///
    /// Skipped: [`NoMessage`](Refusal::NoMessage), a known id with a wrong size; [`NoRoom`](Refusal::NoRoom), a message larger than the room.
    /// Refused: [`FrameTooLong`](Refusal::FrameTooLong), after which nothing more is heard of this stream.
    //
    // An `Iterator` could not lend the room to its items.
    #[allow(clippy::should_implement_trait)]
    pub fn next(&mut self) -> Option<Result<Heard<'_>, Refusal>> {
        if self.is_refused {
            return None;
        }
        let given = boundary::stream_hear(self.stream.state, self.rest, self.stream.room);
        self.stream.state = given.state;
        self.rest = &self.rest[given.used as usize..];
        let heard = match (given.number, given.event) {
            (0, 0) => return None,
            (0, 2) => Heard::KeepAlive,
            _ => Heard::Message(&self.stream.room[..given.size as usize]),
        };
        let heard = answer(given.number, heard);
        self.is_refused = heard == Err(Refusal::FrameTooLong);
        Some(heard)
    }

    /// The bytes that were not used yet.
    #[must_use]
    pub fn rest(&self) -> &'d [u8] {
        self.rest
    }
}

/// Writes the frame of a message into `out`, and gives the part that it is. No bytes make the keep-alive.
///
/// # Errors
///
/// In this order: [`FrameTooLong`](Refusal::FrameTooLong), [`NoMessage`](Refusal::NoMessage) for an unknown id or a wrong size,
/// [`NoRoom`](Refusal::NoRoom). Nothing is written then.
pub fn frame<'o>(message: &[u8], out: &'o mut [u8]) -> Result<&'o [u8], Refusal> {
    let given = boundary::frame(message, out);
    answer(given.number, &out[..given.count as usize])
}
