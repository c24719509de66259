//! Words: 001, Corollary 4; partners: 001, Theorem 3.

use crate::messages::{Label, Message};
use crate::paths::Path;
use crate::refusal::{self, No};
use crate::shape::{digit, Shape};

/// The word of a message, into N places.
pub fn encode(h: u32, m: u32, message: Message, length: usize) -> Result<Vec<u8>, No> {
    let shape = refusal::of_message(h, m, message, length)?;
    Ok(word(shape, &Label::of(shape, message)))
}

/// The partner of a message's word, into N places.
pub fn partner(h: u32, m: u32, message: Message, length: usize) -> Result<Vec<u8>, No> {
    let shape = refusal::of_message(h, m, message, length)?;
    Ok(partner_word(shape, &Label::of(shape, message)))
}

/// The word of a label: the quadratic part of its path, and the linear part of its coefficients. The path may be one
/// that is not in use.
pub fn word(shape: Shape, label: &Label) -> Vec<u8> {
    let mut word = linear(shape, &label.coefficients);
    add(shape, &mut word, &quadratic(shape, label.path(shape)), 1);
    word
}

/// The partner of a label's word: the word plus 2^(h-1) x_p(1).
pub fn partner_word(shape: Shape, label: &Label) -> Vec<u8> {
    let mut partner = word(shape, label);
    add(shape, &mut partner, &row(shape, label.path(shape)[0]), shape.half() as u8);
    partner
}

/// 2^(h-1) (x_p(1) x_p(2) + .. + x_p(m-1) x_p(m)), modulo 2^h, at each place.
pub fn quadratic(shape: Shape, path: &Path) -> Vec<u8> {
    let product = |place: usize, step: &[u32]| digit(shape.m(), place, step[0]) * digit(shape.m(), place, step[1]);
    let sum = |place: usize| path.windows(2).map(|step| product(place, step)).sum::<u32>();
    (0..shape.carriers()).map(|place| shape.modulo((shape.half() * sum(place)) as u8)).collect()
}

/// c_1 x_1 + .. + c_m x_m + c, modulo 2^h, at each place.
pub fn linear(shape: Shape, coefficients: &[u8]) -> Vec<u8> {
    let c = coefficients[shape.m() as usize];
    let mut sum = vec![c; shape.carriers()];
    for (k, c) in (1..=shape.m()).zip(coefficients) {
        add(shape, &mut sum, &row(shape, k), *c);
    }
    sum
}

/// Row x_k of the generator.
fn row(shape: Shape, k: u32) -> Vec<u8> {
    (0..shape.carriers()).map(|place| digit(shape.m(), place, k) as u8).collect()
}

/// Adds so many times a row, place by place, modulo 2^h.
fn add(shape: Shape, word: &mut [u8], row: &[u8], times: u8) {
    word.iter_mut().zip(row).for_each(|(symbol, x)| *symbol = shape.modulo(*symbol + times * x));
}
