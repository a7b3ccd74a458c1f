//! Strict bencoding, read to a value. First paragraph of "The torrent" in document 01.
//!
//! The reader goes from the left and stops at the first byte at which it can't go on. There it answers 21 if that byte
//! opens a level too many where a value may stand, and 20 otherwise: so whichever comes first wins.

use crate::limits::LEVELS;
use crate::number::{NESTED_TOO_DEEPLY, NOT_STRICT};
use std::ops::Range;

/// A value, and the part of the bytes it stands in.
#[derive(Clone, Debug, PartialEq, Eq)]
pub struct Value {
    pub part: Range<usize>,
    pub kind: Kind,
}

#[derive(Clone, Debug, PartialEq, Eq)]
pub enum Kind {
    Integer(i64),
    /// A string's content, without its length prefix.
    String(Range<usize>),
    List(Vec<Value>),
    /// Each key's content and its value, in the order of the bytes.
    Dictionary(Vec<(Range<usize>, Value)>),
}

/// The one dictionary that `bytes` are, or 20 or 21.
pub fn read(bytes: &[u8]) -> Result<Value, u32> {
    let mut reader = Reader { bytes, at: 0 };
    if reader.peek() != Some(b'd') {
        return Err(NOT_STRICT);
    }
    let value = reader.value(LEVELS)?;
    if reader.at != bytes.len() {
        return Err(NOT_STRICT);
    }
    Ok(value)
}

struct Reader<'a> {
    bytes: &'a [u8],
    at: usize,
}

impl Reader<'_> {
    fn peek(&self) -> Option<u8> {
        self.bytes.get(self.at).copied()
    }

    /// Goes past `byte` if it is the next one.
    fn pass(&mut self, byte: u8) -> bool {
        let is_next = self.peek() == Some(byte);
        self.at += is_next as usize;
        is_next
    }

    fn expect(&mut self, byte: u8) -> Result<(), u32> {
        if self.pass(byte) {
            Ok(())
        } else {
            Err(NOT_STRICT)
        }
    }

    /// A value that may open `levels` levels, its own included.
    fn value(&mut self, levels: u32) -> Result<Value, u32> {
        let start = self.at;
        let kind = match self.peek() {
            Some(b'd' | b'l') if levels == 0 => return Err(NESTED_TOO_DEEPLY),
            Some(b'd') => self.dictionary(levels - 1)?,
            Some(b'l') => self.list(levels - 1)?,
            Some(b'i') => Kind::Integer(self.integer()?),
            _ => Kind::String(self.string()?),
        };
        Ok(Value { part: start..self.at, kind })
    }

    fn dictionary(&mut self, levels: u32) -> Result<Kind, u32> {
        let mut entries: Vec<(Range<usize>, Value)> = Vec::new();
        self.expect(b'd')?;
        while !self.pass(b'e') {
            let key = self.string()?;
            if let Some((before, _)) = entries.last() {
                if self.bytes[before.clone()] >= self.bytes[key.clone()] {
                    return Err(NOT_STRICT);
                }
            }
            let value = self.value(levels)?;
            entries.push((key, value));
        }
        Ok(Kind::Dictionary(entries))
    }

    fn list(&mut self, levels: u32) -> Result<Kind, u32> {
        let mut values = Vec::new();
        self.expect(b'l')?;
        while !self.pass(b'e') {
            values.push(self.value(levels)?);
        }
        Ok(Kind::List(values))
    }

    fn integer(&mut self) -> Result<i64, u32> {
        self.expect(b'i')?;
        let sign = if self.pass(b'-') { -1 } else { 1 };
        let amount = self.digits()? as i128 * sign;
        if sign == -1 && amount == 0 {
            return Err(NOT_STRICT);
        }
        self.expect(b'e')?;
        amount.try_into().map_err(|_| NOT_STRICT)
    }

    fn string(&mut self) -> Result<Range<usize>, u32> {
        let size = self.digits()?;
        self.expect(b':')?;
        if size > (self.bytes.len() - self.at) as u64 {
            return Err(NOT_STRICT);
        }
        let content = self.at..self.at + size as usize;
        self.at = content.end;
        Ok(content)
    }

    /// A number without sign or leading zeros. One above 64 bits is neither an integer nor the size of a string here.
    fn digits(&mut self) -> Result<u64, u32> {
        let start = self.at;
        let mut amount: u64 = 0;
        while let Some(digit @ b'0'..=b'9') = self.peek() {
            let next = amount.checked_mul(10).and_then(|tens| tens.checked_add((digit - b'0') as u64));
            amount = next.ok_or(NOT_STRICT)?;
            self.at += 1;
        }
        let digits = self.at - start;
        if digits == 0 || (digits > 1 && self.bytes[start] == b'0') {
            return Err(NOT_STRICT);
        }
        Ok(amount)
    }
}

impl Value {
    pub fn dictionary(&self) -> Option<&[(Range<usize>, Value)]> {
        match &self.kind {
            Kind::Dictionary(entries) => Some(entries),
            _ => None,
        }
    }

    pub fn integer(&self) -> Option<i64> {
        match self.kind {
            Kind::Integer(amount) => Some(amount),
            _ => None,
        }
    }

    pub fn string(&self) -> Option<Range<usize>> {
        match &self.kind {
            Kind::String(content) => Some(content.clone()),
            _ => None,
        }
    }
}

/// The value of a key among a dictionary's entries.
pub fn find<'a>(bytes: &[u8], entries: &'a [(Range<usize>, Value)], key: &[u8]) -> Option<&'a Value> {
    entries.iter().find(|(name, _)| bytes[name.clone()] == *key).map(|(_, value)| value)
}

#[cfg(test)]
mod tests {
    use super::*;

    fn number(bytes: &[u8]) -> u32 {
        read(bytes).map_or_else(|number| number, |_| 0)
    }

    #[test]
    fn strict_forms_are_read() {
        let good: [&[u8]; 8] = [
            b"de",
            b"d0:i0ee",
            b"d1:ai-1ee",
            b"d1:a0:e",
            b"d1:ale1:blee",
            b"d1:ade2:aadee",
            b"d1:ai9223372036854775807e1:bi-9223372036854775808ee",
            b"d1:\xff3:abce",
        ];
        for bytes in good {
            assert_eq!(number(bytes), 0, "{}", String::from_utf8_lossy(bytes));
        }
    }

    #[test]
    fn other_forms_are_20() {
        let bad: [&[u8]; 26] = [
            b"", b"d", b"e", b"i0e", b"le", b"0:", b"dee", b"de\n", b"d1:ae", b"d1:a", b"d1:ai0e", b"di0ei0ee",
            b"d1:ai00ee", b"d1:ai-0ee", b"d1:aiee", b"d1:ai-ee", b"d1:ai01ee", b"d1:ai-01ee", b"d01:a0:e", b"d1:a00:e",
            b"d1:b0:1:a0:e", b"d1:a0:1:a0:e", b"d1:ai9223372036854775808ee", b"d1:ai-9223372036854775809ee",
            b"d1:a99999999999999999999:e", b"d-1:a0:e",
        ];
        for bytes in bad {
            assert_eq!(number(bytes), NOT_STRICT, "{}", String::from_utf8_lossy(bytes));
        }
    }

    /// An outer dictionary and `lists` lists inside.
    fn nested(lists: usize) -> Vec<u8> {
        [&b"d1:a"[..], &vec![b'l'; lists], &vec![b'e'; lists], b"e"].concat()
    }

    #[test]
    fn levels_are_counted_with_the_outer_dictionary() {
        assert_eq!(number(&nested(31)), 0);
        assert_eq!(number(&nested(32)), NESTED_TOO_DEEPLY);
    }

    #[test]
    fn whichever_comes_first_wins() {
        let mut late = nested(32);
        late.extend_from_slice(b"junk");
        assert_eq!(number(&late), NESTED_TOO_DEEPLY);
        let early = [&b"d1:b0:1:a"[..], &nested(40)].concat();
        assert_eq!(number(&early), NOT_STRICT);
        // On level 32 a dictionary is open and a key is due: another level's `d` stands where no value may.
        let key_due = [&b"d1:a"[..], &[b'l'; 30], b"dd"].concat();
        assert_eq!(number(&key_due), NOT_STRICT);
        let value_due = [&b"d1:a"[..], &[b'l'; 30], b"d0:d"].concat();
        assert_eq!(number(&value_due), NESTED_TOO_DEEPLY);
    }
}
