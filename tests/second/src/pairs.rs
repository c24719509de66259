//! The pair check: 01's counts, for any two words.

use crate::refusal::{self, No};
use crate::shape::Shape;

/// Are two words of one shape a Golay pair?
pub fn pair(h: u32, m: u32, first: &[u8], second: &[u8]) -> Result<bool, No> {
    let shape = refusal::of_pair(h, m, first, second)?;
    Ok(golay(shape, first, second))
}

/// Whether the counts are equal for each shift and each phase.
pub fn golay(shape: Shape, first: &[u8], second: &[u8]) -> bool {
    let at = |shift| (0..shape.phases()).all(|phase| balanced(shape, first, second, shift, phase));
    (1..shape.carriers()).all(at)
}

/// Whether the count for a phase equals the count for the phase half a turn on, over both words together.
pub fn balanced(shape: Shape, first: &[u8], second: &[u8], shift: usize, phase: u32) -> bool {
    let both = |phase| count(shape, first, shift, phase) + count(shape, second, shift, phase);
    both(phase) == both((phase + shape.half()) % shape.phases())
}

/// The places i with i + u < N where symbol i minus symbol i + u is the phase, modulo 2^h.
fn count(shape: Shape, word: &[u8], shift: usize, phase: u32) -> usize {
    let difference = |i: usize| (u32::from(word[i]) + shape.phases() - u32::from(word[i + shift])) % shape.phases();
    (0..shape.carriers()).filter(|i| i + shift < shape.carriers()).filter(|&i| difference(i) == phase).count()
}
