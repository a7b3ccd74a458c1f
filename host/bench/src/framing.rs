//! A reader and a writer of frames as one writes them in ordinary Rust, with the library's interface: a run of a frame's bytes is copied at once,
//! by the C library's `memcpy`, or 64 bytes a turn.

use reference::limits::LONGEST_FRAME;
use reference::number::{DONE, FRAME_TOO_LONG, NO_MESSAGE, NO_ROOM, UNUSABLE};
use reference::stream::{lengths, Heard, Stream};
use reference::Answer;

fn is_usable(s: &Stream, room: usize) -> bool {
    let longest = LONGEST_FRAME as u32;
    match s.length_size {
        0..=3 => s.read == 0 && s.mode == 0 && u64::from(s.length) < 1 << (8 * s.length_size),
        4 if s.mode == 4 => s.read == 0 && s.length > longest,
        4 if s.mode == 0 => s.length <= longest && s.read < s.length && s.read as usize <= room,
        4 => s.length <= longest && s.read < s.length && s.read > 0 && s.mode < 4,
        _ => false,
    }
}

fn mode(id: u8, length: usize, room: usize) -> u32 {
    match lengths(id) {
        None => 1,
        Some(right) if !right.contains(&length) => 2,
        Some(_) if length > room => 3,
        Some(_) => 0,
    }
}

/// The C library copies long parts by an instruction that counts as many as it moves bytes; in chunks no such instruction is used.
#[inline(always)]
pub fn copy<const IN_CHUNKS: bool>(to: &mut [u8], from: &[u8]) {
    if !IN_CHUNKS {
        return to.copy_from_slice(from);
    }
    let (whole, rest) = from.as_chunks::<64>();
    let (places, last) = to.as_chunks_mut::<64>();
    for (place, chunk) in places.iter_mut().zip(whole) {
        *place = *chunk;
    }
    last.copy_from_slice(rest);
}

#[inline(never)]
pub fn hear<const IN_CHUNKS: bool>(mut s: Stream, data: &[u8], room: &mut [u8]) -> Heard {
    let said = |number, event, used: usize, size: u32, state| Heard {
        number,
        event,
        used: used as u64,
        size: size.into(),
        state,
    };
    if !is_usable(&s, room.len()) {
        return said(UNUSABLE, 0, 0, 0, s);
    }
    if s.mode == 4 {
        return said(FRAME_TOO_LONG, 0, 0, 0, s);
    }
    let mut at = 0;
    while at < data.len() {
        if s.length_size < 4 {
            s.length = s.length << 8 | u32::from(data[at]);
            s.length_size += 1;
            at += 1;
            if s.length_size == 4 && s.length as usize > LONGEST_FRAME {
                s.mode = 4;
                return said(FRAME_TOO_LONG, 0, at, 0, s);
            }
            if s.length_size == 4 && s.length == 0 {
                return said(DONE, 2, at, 0, Stream::default());
            }
            continue;
        }
        let length = s.length as usize;
        if s.read == 0 {
            s.mode = mode(data[at], length, room.len());
        } else if s.mode == 0 && length > room.len() {
            s.mode = 3;
        }
        let read = s.read as usize;
        let size = (length - read).min(data.len() - at);
        if s.mode == 0 {
            copy::<IN_CHUNKS>(&mut room[read..read + size], &data[at..at + size]);
        }
        at += size;
        s.read += size as u32;
        if s.read == s.length {
            let ended = std::mem::take(&mut s);
            match ended.mode {
                0 => return said(DONE, 1, at, ended.length, s),
                2 => return said(NO_MESSAGE, 0, at, 0, s),
                3 => return said(NO_ROOM, 0, at, 0, s),
                _ => (),
            }
        }
    }
    said(DONE, 0, at, 0, s)
}

#[inline(never)]
pub fn frame<const IN_CHUNKS: bool>(message: &[u8], out: &mut [u8]) -> Answer {
    if message.len() > LONGEST_FRAME {
        return Answer::refused(FRAME_TOO_LONG);
    }
    let right = message.first().is_none_or(|id| lengths(*id).is_some_and(|right| right.contains(&message.len())));
    if !right {
        return Answer::refused(NO_MESSAGE);
    }
    let size = 4 + message.len();
    if out.len() < size {
        return Answer::refused(NO_ROOM);
    }
    out[..4].copy_from_slice(&(message.len() as u32).to_be_bytes());
    copy::<IN_CHUNKS>(&mut out[4..size], message);
    Answer::done(size as u64)
}
