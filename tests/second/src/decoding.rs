//! Reading, soft and hard decoding, path by path through the paths in use. No table of all words is kept.
//!
//! Equals go to the earliest label; "tied" says that another word has the same.

use crate::messages::{Label, Message};
use crate::paths::paths;
use crate::refusal::{self, No, NO_WORD};
use crate::search::greatest;
use crate::shape::{digit, Shape};
use crate::words::{linear, quadratic};

/// What a decoder answers.
#[derive(Clone, Copy, PartialEq, Eq, Debug)]
pub struct Found {
    pub message: Message,
    /// The correlation (soft) or the distance (hard).
    pub value: i64,
    pub tied: bool,
}

/// The message whose word the N symbols are exactly.
pub fn read(h: u32, m: u32, symbols: &[u8]) -> Result<Message, No> {
    let shape = refusal::of_read(h, m, symbols)?;
    let label = label_with(shape, symbols).ok_or(No::plain(NO_WORD))?;
    Ok(label.message(shape))
}

/// The message of greatest correlation.
pub fn soft(h: u32, m: u32, values: &[i16]) -> Result<Found, No> {
    let shape = refusal::of_soft(h, m, values)?;
    Ok(loudest(shape, values))
}

/// The message of the nearest word.
pub fn hard(h: u32, m: u32, symbols: &[u8]) -> Result<Found, No> {
    let shape = refusal::of_hard(h, m, symbols)?;
    Ok(nearest(shape, symbols))
}

/// The label whose word these symbols are. A word shows its coefficients: c where all digits are 0, and c_k + c where
/// x_k alone is 1, as every product of two digits is 0 there. What is left when their linear part is taken off is the
/// quadratic part of a path in use, or these symbols are no word.
pub fn label_with(shape: Shape, symbols: &[u8]) -> Option<Label> {
    let (m, phases) = (shape.m(), shape.phases() as u8);
    let less = |a: u8, b: u8| shape.modulo(a + phases - b);
    let alone = |place: usize, k: u32| (1..=m).all(|l| digit(m, place, l) == u32::from(l == k));
    let place = |k: u32| (0..shape.carriers()).find(|&place| alone(place, k)).expect("a place where x_k alone is 1");
    let c = symbols[0];
    let coefficients: Vec<u8> = (1..=m).map(|k| less(symbols[place(k)], c)).chain([c]).collect();
    let left: Vec<u8> = symbols.iter().zip(linear(shape, &coefficients)).map(|(&a, b)| less(a, b)).collect();
    let path = paths(m)[..shape.paths_in_use()].iter().position(|path| quadratic(shape, path) == left)?;
    Some(Label { path, coefficients })
}

/// The first word of greatest correlation.
pub fn loudest(shape: Shape, values: &[i16]) -> Found {
    let best = greatest(shape, |place, symbol| heard(shape, values, place, symbol));
    Found { message: best.label.message(shape), value: best.score, tied: best.tied }
}

/// The first word of least distance: the greatest of the distances negated.
pub fn nearest(shape: Shape, symbols: &[u8]) -> Found {
    let best = greatest(shape, |place, symbol| -distance(shape, symbols[place], symbol));
    Found { message: best.label.message(shape), value: -best.score, tied: best.tied }
}

/// What a place adds to the correlation with a word that has this symbol there.
fn heard(shape: Shape, values: &[i16], place: usize, symbol: u8) -> i64 {
    let value = |index: usize| i64::from(values[index]);
    match (shape.h(), symbol) {
        (1, 0) => value(place),
        (1, _) => -value(place),
        (_, 0) => value(2 * place),
        (_, 1) => value(2 * place + 1),
        (_, 2) => -value(2 * place),
        (_, _) => -value(2 * place + 1),
    }
}

/// 1 where two symbols differ for h = 1; for h = 2 the smaller of d and 4 - d, d the difference modulo 4 (Lee).
fn distance(shape: Shape, a: u8, b: u8) -> i64 {
    if shape.h() == 1 {
        return i64::from(a != b);
    }
    let phases = i64::from(shape.phases());
    let d = (i64::from(a) - i64::from(b)).rem_euclid(phases);
    d.min(phases - d)
}
