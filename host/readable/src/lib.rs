//! What a person reads of `kd` and `kdgate`: hashes, sizes, times, and foreign text that can harm neither a terminal nor a page.
#![forbid(unsafe_code)]

use std::fmt::Write;

pub fn hex(bytes: &[u8]) -> String {
    bytes.iter().fold(String::new(), |mut text, byte| {
        write!(text, "{byte:02x}").expect("a string grows");
        text
    })
}

/// `1 file`, `2 files`.
pub fn count(number: u64, what: &str) -> String {
    format!("{number} {what}{}", if number == 1 { "" } else { "s" })
}

/// `0 B`, `3.1 MiB`, `64 KiB`.
pub fn size(bytes: u64) -> String {
    let units = [(1 << 30, "GiB"), (1 << 20, "MiB"), (1 << 10, "KiB"), (1, "B")];
    let (unit, name) = *units.iter().find(|(unit, _)| bytes >= *unit).unwrap_or(&(1, "B"));
    if bytes.is_multiple_of(unit) {
        return format!("{} {name}", bytes / unit);
    }
    format!("{:.1} {name}", bytes as f64 / unit as f64)
}

/// A size in bytes as it is typed: `65536`, `64K`, `64KiB`, `1M`, `1MiB`.
pub fn read_size(text: &str) -> Result<u64, String> {
    let digits = text.trim_end_matches(|letter: char| letter.is_ascii_alphabetic());
    let factor = match text[digits.len()..].to_ascii_lowercase().as_str() {
        "" | "b" => Some(1),
        "k" | "kib" => Some(1 << 10),
        "m" | "mib" => Some(1 << 20),
        _ => None,
    };
    let number = digits.parse::<u64>().ok().zip(factor);
    number
        .and_then(|(number, factor)| number.checked_mul(factor))
        .ok_or_else(|| "a size is a number of bytes, KiB or MiB".into())
}

/// Seconds since 1970 as `2026-11-16T12:00:00Z`.
pub fn time(seconds: u64) -> String {
    let (days, rest) = (seconds / 86400, seconds % 86400);
    // Days are counted from 1 March of year 0, so that a leap day is the last of its year.
    let shifted = days + 719_468;
    let (era, of_era) = (shifted / 146_097, shifted % 146_097);
    let year_of_era = (of_era - of_era / 1460 + of_era / 36_524 - of_era / 146_096) / 365;
    let of_year = of_era - (365 * year_of_era + year_of_era / 4 - year_of_era / 100);
    let shifted_month = (5 * of_year + 2) / 153;
    let day = of_year - (153 * shifted_month + 2) / 5 + 1;
    let month = if shifted_month < 10 { shifted_month + 3 } else { shifted_month - 9 };
    let year = era * 400 + year_of_era + u64::from(month <= 2);
    let (hour, minute, second) = (rest / 3600, rest / 60 % 60, rest % 60);
    format!("{year:04}-{month:02}-{day:02}T{hour:02}:{minute:02}:{second:02}Z")
}

/// A name in a line of a terminal: line ends as sha256sum escapes them, tabs likewise, other ASCII control characters as their byte.
pub fn on_terminal(name: &[u8]) -> String {
    escaped(name, |text, letter| match letter {
        '\n' => text.push_str("\\n"),
        '\r' => text.push_str("\\r"),
        '\t' => text.push_str("\\t"),
        letter if letter.is_ascii_control() => push_byte(text, letter as u8),
        letter => text.extend(letter.escape_unicode()),
    })
}

/// A name in the gateway's status and log: all that would harm in one form, `\u{a}`.
pub fn in_status(name: &[u8]) -> String {
    escaped(name, |text, letter| text.extend(letter.escape_unicode()))
}

/// A name as one line of text. What could move a cursor or hides goes to `push_harmful`; what is no text is escaped as its bytes.
fn escaped(name: &[u8], push_harmful: fn(&mut String, char)) -> String {
    let mut text = String::new();
    for chunk in name.utf8_chunks() {
        for letter in chunk.valid().chars() {
            match letter {
                '\\' => text.push_str("\\\\"),
                letter if letter.is_control() || is_unseen(letter) => push_harmful(&mut text, letter),
                letter => text.push(letter),
            }
        }
        chunk.invalid().iter().for_each(|byte| push_byte(&mut text, *byte));
    }
    text
}

fn push_byte(text: &mut String, byte: u8) {
    write!(text, "\\x{byte:02x}").expect("a string grows");
}

/// Letters without width, line ends and turns of the writing direction, which make a name look like another.
fn is_unseen(letter: char) -> bool {
    matches!(letter, '\u{200b}'..='\u{200f}' | '\u{2028}'..='\u{202e}' | '\u{2060}'..='\u{2069}' | '\u{feff}')
}

/// Text inside a page.
pub fn in_html(text: &str) -> String {
    let mut out = String::new();
    for letter in text.chars() {
        match letter {
            '&' => out.push_str("&amp;"),
            '<' => out.push_str("&lt;"),
            '>' => out.push_str("&gt;"),
            '"' => out.push_str("&quot;"),
            '\'' => out.push_str("&#39;"),
            letter => out.push(letter),
        }
    }
    out
}

#[cfg(test)]
mod tests {
    use super::*;

    #[test]
    fn hashes_and_counts_are_told() {
        assert_eq!(hex(&[0, 0x0f, 0xff]), "000fff");
        assert_eq!([0, 1, 2].map(|number| count(number, "file")), ["0 files", "1 file", "2 files"]);
    }

    #[test]
    fn sizes_are_told() {
        for (bytes, text) in
            [(0, "0 B"), (1023, "1023 B"), (1 << 16, "64 KiB"), (3_266_667, "3.1 MiB"), (1 << 30, "1 GiB")]
        {
            assert_eq!(size(bytes), text);
        }
    }

    #[test]
    fn sizes_are_read() {
        for (text, bytes) in [("65536", 65536), ("64K", 65536), ("64KiB", 65536), ("1mib", 1 << 20)] {
            assert_eq!(read_size(text), Ok(bytes));
        }
        for text in ["", "K", "-1", "1T", "99999999999999999999", "18446744073709551615K"] {
            assert!(read_size(text).is_err(), "{text}");
        }
    }

    #[test]
    fn times_are_told() {
        for (seconds, text) in [
            (0, "1970-01-01T00:00:00Z"),
            (951_782_400, "2000-02-29T00:00:00Z"),
            (1_794_830_400, "2026-11-16T12:00:00Z"),
            (4_102_444_799, "2099-12-31T23:59:59Z"),
        ] {
            assert_eq!(time(seconds), text);
        }
    }

    #[test]
    fn names_that_would_harm_a_terminal_are_escaped() {
        assert_eq!(on_terminal(b"a\x1b[2Jb\n"), "a\\x1b[2Jb\\n");
        assert_eq!(on_terminal(b"\xff\\"), "\\xff\\\\");
        assert_eq!(on_terminal("é\u{202e}gpj\u{9b}".as_bytes()), "é\\u{202e}gpj\\u{9b}");
        assert_eq!(on_terminal(b"\r\t\x7f"), "\\r\\t\\x7f");
    }

    #[test]
    fn names_that_would_harm_a_status_are_escaped() {
        assert_eq!(in_status(b"a\x1b[2J\xff\\"), "a\\u{1b}[2J\\xff\\\\");
        assert_eq!(in_status("é\u{202e}gpj\u{9b}\n".as_bytes()), "é\\u{202e}gpj\\u{9b}\\u{a}");
    }

    #[test]
    fn both_escape_the_same_letters() {
        for letter in '\0'..='\u{ffff}' {
            let name = letter.to_string();
            let (terminal, status) = (on_terminal(name.as_bytes()), in_status(name.as_bytes()));
            assert_eq!(terminal == name, status == name, "{letter:?}");
            assert!(!(terminal + &status).chars().any(|told| told.is_control() || is_unseen(told)), "{letter:?}");
        }
    }

    #[test]
    fn text_that_would_be_markup_is_escaped() {
        assert_eq!(in_html("<a href='x'>&\""), "&lt;a href=&#39;x&#39;&gt;&amp;&quot;");
    }
}
