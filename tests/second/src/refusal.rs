//! Refusals: 01's table, and the order in which each call looks.
//!
//! Each function `of_CALL` goes through the faults of one call in order and answers the first.
//! Kinds 3 and 7 carry the first bad place; the pair check's 3 also says which word.

use crate::messages::Message;
use crate::shape::Shape;

pub const SHAPE: u32 = 1;
pub const LENGTH: u32 = 2;
pub const SYMBOL: u32 = 3;
pub const MESSAGE: u32 = 4;
pub const NO_WORD: u32 = 5;
pub const OCTARY: u32 = 6;
pub const VALUE: u32 = 7;

/// A refusal: its number in 01's table, and what it carries.
#[derive(Clone, Copy, PartialEq, Eq, Debug)]
pub struct No {
    pub kind: u32,
    pub place: Option<usize>,
    /// 1 or 2: the word that holds the bad symbol. In the pair check's 3 alone.
    pub word: Option<u32>,
}

impl No {
    pub fn plain(kind: u32) -> No {
        No { kind, place: None, word: None }
    }

    pub fn at(kind: u32, place: usize) -> No {
        No { kind, place: Some(place), word: None }
    }
}

/// Encode and partner: 1, 2, 4.
pub fn of_message(h: u32, m: u32, message: Message, length: usize) -> Result<Shape, No> {
    let shape = in_range(h, m)?;
    exactly(length, shape.carriers())?;
    if message.0 >= shape.messages() {
        return Err(No::plain(MESSAGE));
    }
    Ok(shape)
}

/// The pair check: 1, 2 of either word, 3 in the first word, 3 in the second.
pub fn of_pair(h: u32, m: u32, first: &[u8], second: &[u8]) -> Result<Shape, No> {
    let shape = in_range(h, m)?;
    exactly(first.len(), shape.carriers())?;
    exactly(second.len(), shape.carriers())?;
    symbols(shape, first).map_err(|no| No { word: Some(1), ..no })?;
    symbols(shape, second).map_err(|no| No { word: Some(2), ..no })?;
    Ok(shape)
}

/// Word reading: 1, 2, 3; the fifth kind is for the reading itself.
pub fn of_read(h: u32, m: u32, word: &[u8]) -> Result<Shape, No> {
    one_word(in_range(h, m)?, word)
}

/// Soft decoding: 1, 6, 2. N values for h = 1, 2N for h = 2.
pub fn of_soft(h: u32, m: u32, values: &[i16]) -> Result<Shape, No> {
    let shape = decoded(h, m)?;
    exactly(values.len(), shape.soft_values())?;
    Ok(shape)
}

/// Hard decoding: 1, 6, 2, 3.
pub fn of_hard(h: u32, m: u32, word: &[u8]) -> Result<Shape, No> {
    one_word(decoded(h, m)?, word)
}

/// The transform: 1 on m alone, 2 of either area, 7 in the first N entries of the first. Answers N.
pub fn of_transform(m: u32, first: &[i32], second: &[i32]) -> Result<usize, No> {
    // Any h in range serves: the transform has none.
    let carriers = in_range(1, m)?.carriers();
    if first.len() < carriers || second.len() < carriers {
        return Err(No::plain(LENGTH));
    }
    match first[..carriers].iter().position(|y| !(-32_768..=32_767).contains(y)) {
        Some(place) => Err(No::at(VALUE, place)),
        None => Ok(carriers),
    }
}

fn in_range(h: u32, m: u32) -> Result<Shape, No> {
    Shape::of(h, m).ok_or(No::plain(SHAPE))
}

/// A shape that is decoded: in range, then not octary.
fn decoded(h: u32, m: u32) -> Result<Shape, No> {
    let shape = in_range(h, m)?;
    if h == 3 {
        return Err(No::plain(OCTARY));
    }
    Ok(shape)
}

/// One word of a shape: its length, then its symbols.
fn one_word(shape: Shape, word: &[u8]) -> Result<Shape, No> {
    exactly(word.len(), shape.carriers())?;
    symbols(shape, word)?;
    Ok(shape)
}

fn exactly(length: usize, named: usize) -> Result<(), No> {
    if length != named {
        return Err(No::plain(LENGTH));
    }
    Ok(())
}

fn symbols(shape: Shape, word: &[u8]) -> Result<(), No> {
    match word.iter().position(|&symbol| u32::from(symbol) >= shape.phases()) {
        Some(place) => Err(No::at(SYMBOL, place)),
        None => Ok(()),
    }
}
