//! JSON for other programs.

use readable::hex;
use serde::Serialize;
use std::fmt::Write;

/// A path of a torrent or of a disk: the nearest text, and its bytes where that is not the same.
#[derive(Serialize)]
pub struct Path {
    path: String,
    #[serde(skip_serializing_if = "Option::is_none")]
    path_hex: Option<String>,
}

impl Path {
    pub fn new(bytes: &[u8]) -> Path {
        Path { path: String::from_utf8_lossy(bytes).into_owned(), path_hex: hex_unless_text(bytes) }
    }
}

/// Likewise the name of a torrent.
#[derive(Serialize)]
pub struct Name {
    name: String,
    #[serde(skip_serializing_if = "Option::is_none")]
    name_hex: Option<String>,
}

impl Name {
    pub fn new(bytes: &[u8]) -> Name {
        Name { name: String::from_utf8_lossy(bytes).into_owned(), name_hex: hex_unless_text(bytes) }
    }
}

fn hex_unless_text(bytes: &[u8]) -> Option<String> {
    std::str::from_utf8(bytes).is_err().then(|| hex(bytes))
}

/// An object on one line. Control characters that JSON leaves alone are escaped too: they only stand in strings.
pub fn text(object: &impl Serialize) -> String {
    let plain = serde_json::to_string(object).expect("objects of numbers, texts and lists");
    plain.chars().fold(String::new(), |mut text, letter| {
        if letter.is_control() {
            write!(text, "\\u{:04x}", u32::from(letter)).expect("a string grows");
        } else {
            text.push(letter);
        }
        text
    })
}

#[cfg(test)]
mod tests {
    use super::*;

    #[test]
    fn names_that_are_no_text_have_their_bytes() {
        assert_eq!(text(&Path::new(b"a\xff")), "{\"path\":\"a\u{fffd}\",\"path_hex\":\"61ff\"}");
        assert_eq!(text(&Name::new("a\"\n\u{9b}é".as_bytes())), "{\"name\":\"a\\\"\\n\\u009bé\"}");
    }
}
