//! Why a call refuses: the table of document 01.

use std::error::Error;
use std::fmt;

/// Why a call refuses. Later versions may refuse for more reasons.
#[derive(Clone, Copy, Debug, PartialEq, Eq, Hash)]
#[non_exhaustive]
pub enum Refusal {
    /// 1: h or m is out of range.
    Shape,
    /// 2: wrong length of a word, output or soft slice for this shape, or an area shorter than N.
    Length,
    /// 3: a symbol is 2^h or more; `place` is the first such place.
    Symbol { place: usize },
    /// 4: message number too large for this shape.
    Message,
    /// 5: only in word reading: no message has this word.
    NoWord,
    /// 6: soft or hard decoding with h = 3.
    Octary,
    /// 7: an input of the transform is out of range; `place` is the first such place.
    Value { place: usize },
}

impl Refusal {
    /// The number in the table.
    pub fn number(self) -> u32 {
        match self {
            Refusal::Shape => 1,
            Refusal::Length => 2,
            Refusal::Symbol { .. } => 3,
            Refusal::Message => 4,
            Refusal::NoWord => 5,
            Refusal::Octary => 6,
            Refusal::Value { .. } => 7,
        }
    }
}

impl fmt::Display for Refusal {
    fn fmt(&self, f: &mut fmt::Formatter<'_>) -> fmt::Result {
        match self {
            Refusal::Shape => write!(f, "h or m is out of range"),
            Refusal::Length => write!(f, "wrong slice length for this shape"),
            Refusal::Symbol { place } => write!(f, "the symbol at place {place} is 2^h or more"),
            Refusal::Message => write!(f, "message number too large for this shape"),
            Refusal::NoWord => write!(f, "no message has this word"),
            Refusal::Octary => write!(f, "decoding of eight phases (h = 3) is not supported"),
            Refusal::Value { place } => write!(f, "the input at place {place} is out of range"),
        }
    }
}

impl Error for Refusal {}

/// Which of two words.
#[derive(Clone, Copy, Debug, PartialEq, Eq, Hash)]
pub enum Which {
    First,
    Second,
}

impl Which {
    /// The word with this number, if there is one.
    pub(crate) fn numbered(which: u32) -> Option<Which> {
        match which {
            1 => Some(Which::First),
            2 => Some(Which::Second),
            _ => None,
        }
    }
}

/// Why the pair check refuses and, for a bad symbol, which word it is in.
#[derive(Clone, Copy, Debug, PartialEq, Eq, Hash)]
pub struct PairRefusal {
    pub refusal: Refusal,
    pub word: Option<Which>,
}

impl fmt::Display for PairRefusal {
    fn fmt(&self, f: &mut fmt::Formatter<'_>) -> fmt::Result {
        self.refusal.fmt(f)?;
        match self.word {
            Some(Which::First) => write!(f, ", in the first word"),
            Some(Which::Second) => write!(f, ", in the second word"),
            None => Ok(()),
        }
    }
}

impl Error for PairRefusal {}

/// What a call answers: its result if it returned 0, otherwise the refusal with the number it returned.
pub(crate) fn answer<T>(kind: u32, place: usize, given: T) -> Result<T, Refusal> {
    Err(match kind {
        0 => return Ok(given),
        1 => Refusal::Shape,
        2 => Refusal::Length,
        3 => Refusal::Symbol { place },
        4 => Refusal::Message,
        5 => Refusal::NoWord,
        6 => Refusal::Octary,
        7 => Refusal::Value { place },
        other => unreachable!("refusal {other} is not in the table: the archive is of another version"),
    })
}
