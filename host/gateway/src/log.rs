//! Log lines on standard error: the time, then `key=value`. An event is told at most so many times a minute, so that no neighbour
//! can fill a disk with them; what was left out is counted.

use readable::time;
use std::collections::BTreeMap;
use std::io::Write;
use std::sync::Mutex;
use std::time::{Duration, Instant, SystemTime, UNIX_EPOCH};

/// Lines of one event in a minute.
const MOST: u64 = 60;

static TOLD: Mutex<BTreeMap<&'static str, (Option<Instant>, u64)>> = Mutex::new(BTreeMap::new());

/// Tells an event with its values: `say!("whole", file = name, bytes = 7)`.
#[macro_export]
macro_rules! say {
    ($event:literal $(, $key:ident = $value:expr)* $(,)?) => {
        $crate::log::tell($event, &[$((stringify!($key), &$value.to_string())),*])
    };
}

pub fn tell(event: &'static str, values: &[(&str, &str)]) {
    let Some(left_out) = allowed(event, Instant::now()) else { return };
    let mut text = line(seconds(), event, values);
    if left_out > 0 {
        text.push_str(&format!(" left_out={left_out}"));
    }
    text.push('\n');
    // A log that can't be written is no reason to stop.
    let _ = std::io::stderr().write_all(text.as_bytes());
}

/// Whether the event may be told now, and how many were left out since it last could not.
fn allowed(event: &'static str, now: Instant) -> Option<u64> {
    let mut told = TOLD.lock().unwrap_or_else(|poisoned| poisoned.into_inner());
    let (since, count) = told.entry(event).or_default();
    if since.is_none_or(|since| now.duration_since(since) >= Duration::from_secs(60)) {
        let left_out = count.saturating_sub(MOST);
        (*since, *count) = (Some(now), 1);
        return Some(left_out);
    }
    *count += 1;
    (*count <= MOST).then_some(0)
}

pub fn seconds() -> u64 {
    SystemTime::now().duration_since(UNIX_EPOCH).map_or(0, |since| since.as_secs())
}

fn line(seconds: u64, event: &str, values: &[(&str, &str)]) -> String {
    let mut text = format!("time={} event={event}", time(seconds));
    for (key, value) in values {
        text.push_str(&format!(" {key}={}", quoted(value)));
    }
    text
}

/// A value as it is, or in quotes where it has other letters than a word has.
fn quoted(value: &str) -> String {
    let is_word = |letter: char| letter.is_ascii_alphanumeric() || "-_./:,+[]".contains(letter);
    if !value.is_empty() && value.chars().all(is_word) {
        return value.into();
    }
    let mut text = String::from('"');
    for letter in value.chars() {
        match letter {
            '"' | '\\' => text.extend(['\\', letter]),
            letter if letter.is_control() => text.extend(letter.escape_unicode()),
            letter => text.push(letter),
        }
    }
    text.push('"');
    text
}

#[cfg(test)]
mod tests {
    use super::*;

    #[test]
    fn values_that_are_no_words_are_quoted() {
        let text = line(0, "refused", &[("file", "a b\n\""), ("number", "7"), ("why", "")]);
        assert_eq!(text, "time=1970-01-01T00:00:00Z event=refused file=\"a b\\u{a}\\\"\" number=7 why=\"\"");
    }

    #[test]
    fn an_event_is_told_so_often_a_minute() {
        let now = Instant::now();
        let told = (0..200).filter(|_| allowed("flood", now).is_some()).count();
        assert_eq!(told as u64, MOST);
        assert_eq!(allowed("flood", now + Duration::from_secs(60)), Some(200 - MOST));
        assert_eq!(allowed("flood", now + Duration::from_secs(60)), Some(0));
    }
}
