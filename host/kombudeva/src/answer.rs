//! The numbers given back, by name.

use core::{error, fmt};

/// Why a call was refused: the numbers of the header's table but 0, for which a call gives what it was asked for.
///
/// A refusal has changed no byte, save for the reject that [`Store::serve`](crate::Store::serve) writes. Later versions may have
/// more of them.
#[derive(Clone, Copy, Debug, PartialEq, Eq, Hash)]
#[non_exhaustive]
pub enum Refusal {
    /// 1: below 49 bytes or another id; a request or a reject that isn't of 49 bytes
    NoMessage,
    /// 2: another pieces root
    OtherRoot,
    /// 3: a header rule fails; no such block, piece or position; a layer for a file not longer than the piece length, or
    /// another than 0 and the piece layer; of a v1 hash, a torrent that is no hybrid
    RuleBroken,
    /// 4: the byte count isn't what header or file fixes, or is too long for SHA-256 or SHA-1; not one count for each piece; more zeros
    /// than the piece has room for
    WrongSize,
    /// 5: a padding position with another value
    WrongPadding,
    /// 6: the anchor, leaf, piece node, root or position is not held
    NoAnchor,
    /// 7: the worked-out value differs from the held anchor, leaf or node, or from the v1 hash of a hybrid's piece
    Differs,
    /// 8: the anchor agrees, another held position differs
    Conflict,
    /// 9: no store with facts in range and their room
    Unusable,
    /// 10: opening with facts out of range
    FactsOutOfRange,
    /// 11: the output is shorter than the reply, reject included
    NoRoom,
    /// 12: a requested hash isn't held
    NotHeld,
    /// 19: a torrent above 1 MiB
    TorrentTooLarge,
    /// 20: not strict bencoding
    NotStrict,
    /// 21: nested deeper than 32
    NestedTooDeeply,
    /// 22: `info`, `file tree`, `piece length`, `meta version` or `piece layers` missing or of another type
    KeyMissing,
    /// 23: the version isn't 2
    OtherVersion,
    /// 24: the piece length out of range
    PieceLengthOutOfRange,
    /// 25: a file tree against the rules
    WrongTree,
    /// 26: two non-empty files with the same root and different lengths
    TwoLengths,
    /// 27: the piece layers aren't those of the files, or have another size
    LayersAmiss,
    /// 28: a layer doesn't give its root
    LayerDiffers,
    /// 29: no file, path element or piece of that number; no string `name` in `info`
    NoSuchPart,
    /// 30: a frame, or a message to be framed, of more than 300,000 bytes
    FrameTooLong,
    /// 31: a hybrid whose v1 half is malformed, or doesn't describe the files of its v2 half
    HalvesDiffer,
    /// 32: bytes that are no saved store
    NotSaved,
}

/// Number, name and words of each refusal.
macro_rules! refusals {
    ($($number:literal $name:ident $words:literal;)*) => {
        impl Refusal {
            /// The refusal of this number, if the table has it.
            fn of(number: u32) -> Option<Refusal> {
                match number {
                    $($number => Some(Refusal::$name),)*
                    _ => None,
                }
            }

            /// The number of the table.
            #[must_use]
            pub const fn number(self) -> u32 {
                match self {
                    $(Refusal::$name => $number,)*
                }
            }

            /// The refusal in words.
            #[must_use]
            pub const fn words(self) -> &'static str {
                match self {
                    $(Refusal::$name => $words,)*
                }
            }
        }
    };
}

refusals! {
    1 NoMessage "not such a message";
    2 OtherRoot "about another file";
    3 RuleBroken "against the rules for this file";
    4 WrongSize "of another size";
    5 WrongPadding "with another value at a padding position";
    6 NoAnchor "nothing held to compare it with";
    7 Differs "not what is held";
    8 Conflict "in conflict with a held hash";
    9 Unusable "not a store";
    10 FactsOutOfRange "facts out of range";
    11 NoRoom "no room for the reply";
    12 NotHeld "a requested hash is not held";
    19 TorrentTooLarge "a torrent above 1 MiB";
    20 NotStrict "not strict bencoding";
    21 NestedTooDeeply "nested too deep";
    22 KeyMissing "a key missing or of another type";
    23 OtherVersion "another version than 2";
    24 PieceLengthOutOfRange "the piece length out of range";
    25 WrongTree "a wrong file tree";
    26 TwoLengths "two files with the same root and different lengths";
    27 LayersAmiss "piece layers that are not those of the files";
    28 LayerDiffers "a piece layer that does not give its root";
    29 NoSuchPart "no such file, path element, name or piece";
    30 FrameTooLong "a frame that is too long";
    31 HalvesDiffer "a hybrid whose halves differ";
    32 NotSaved "not a saved store";
}

/// What the library's number means, with the value that stands beside 0.
///
/// # Panics
///
/// For a number that is not in the table: binding and library are of different builds.
pub(crate) fn answer<T>(number: u32, value: T) -> Result<T, Refusal> {
    match Refusal::of(number) {
        Some(refusal) => Err(refusal),
        None if number == 0 => Ok(value),
        None => panic!("{number} is not in the table: binding and library are of different builds"),
    }
}

/// The words, and the number after them.
impl fmt::Display for Refusal {
    fn fmt(&self, f: &mut fmt::Formatter) -> fmt::Result {
        write!(f, "{} ({})", self.words(), self.number())
    }
}

impl error::Error for Refusal {}

#[cfg(feature = "std")]
impl From<Refusal> for std::io::Error {
    fn from(refusal: Refusal) -> std::io::Error {
        std::io::Error::other(refusal)
    }
}

#[cfg(test)]
mod tests {
    use super::*;
    use alloc::string::ToString;

    #[test]
    fn every_number_of_the_table_comes_back() {
        for number in (1..=12).chain(19..=32) {
            assert_eq!(answer(number, ()).unwrap_err().number(), number);
        }
        assert_eq!(answer(0, 7), Ok(7));
        assert_eq!(answer(6, 7), Err(Refusal::NoAnchor));
        assert_eq!(Refusal::NoAnchor.to_string(), "nothing held to compare it with (6)");
    }

    #[test]
    #[should_panic(expected = "not in the table")]
    fn a_number_outside_the_table_is_a_wrong_build() {
        let _ = answer(13, ());
    }

    #[test]
    #[cfg(feature = "std")]
    fn it_goes_where_an_error_goes() {
        let error = std::io::Error::from(Refusal::NoRoom);
        assert_eq!(error.to_string(), Refusal::NoRoom.to_string());
        assert_eq!(error.get_ref().unwrap().downcast_ref(), Some(&Refusal::NoRoom));
    }
}
