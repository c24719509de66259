//! The search of the decoders: every word of a shape of two or four phases, path by path in label order. What the words
//! of all paths share is made once, so that no table holds every word.

use std::sync::OnceLock;

use crate::messages::Label;
use crate::paths::paths;
use crate::shape::Shape;
use crate::words::{linear, quadratic};

/// What a search finds.
pub struct Best {
    /// The first label of greatest score.
    pub label: Label,
    pub score: i64,
    /// Another label has this score too.
    pub tied: bool,
}

/// Goes through all words. A word's score is the sum of its places' scores.
/// For speed the sum is bracketed: the sums over four places are made once for each of the 256 ways to fill them.
pub fn greatest(shape: Shape, score: impl Fn(usize, u8) -> i64) -> Best {
    let four = |group: usize, filling: usize| -> i64 {
        (0..4).map(|t| score(4 * group + t, (filling >> (2 * t)) as u8 % 4)).sum()
    };
    let groups = shape.carriers() / 4;
    let sums: Vec<[i64; 256]> = (0..groups).map(|group| std::array::from_fn(|filling| four(group, filling))).collect();
    let mut best = Best { label: Label { path: 0, coefficients: Vec::new() }, score: i64::MIN, tied: false };
    for (path, order) in paths(shape.m())[..shape.paths_in_use()].iter().enumerate() {
        let quadratic = packed(&quadratic(shape, order));
        for (coefficients, linear) in linear_parts(shape) {
            // The quadratic part is 0 or half a turn, and half a turn more turns the highest bit of a symbol over.
            let fillings = linear.iter().zip(&quadratic).map(|(linear, quadratic)| linear ^ quadratic);
            let score = sums.iter().zip(fillings).map(|(sum, filling)| sum[filling as usize]).sum();
            if score > best.score {
                best = Best { label: Label { path, coefficients: coefficients.clone() }, score, tied: false };
            } else if score == best.score {
                best.tied = true;
            }
        }
    }
    best
}

/// Coefficients, and their linear part.
type Part = (Vec<u8>, Vec<u8>);

/// The parts of all coefficients in label order, made once for each shape; h is below 4 and m below 8.
fn linear_parts(shape: Shape) -> &'static [Part] {
    static PARTS: [OnceLock<Vec<Part>>; 32] = [const { OnceLock::new() }; 32];
    let digit = |number: usize, k: u32| shape.modulo((number >> (shape.h() * (shape.m() - k))) as u8);
    let part = |number: usize| -> Part {
        let coefficients: Vec<u8> = (0..=shape.m()).map(|k| digit(number, k)).collect();
        let linear = packed(&linear(shape, &coefficients));
        (coefficients, linear)
    };
    let all = || (0..1 << shape.coefficient_bits()).map(part).collect();
    PARTS[(8 * shape.h() + shape.m()) as usize].get_or_init(all)
}

/// Two bits to a symbol, four symbols to a byte, the first of them in the lowest bits.
fn packed(symbols: &[u8]) -> Vec<u8> {
    symbols.chunks(4).map(|four| four.iter().rev().fold(0, |filling, symbol| filling << 2 | symbol)).collect()
}
