//! The transform by itself: the spectrum by its double sum, and the areas as 01's stages leave them.

use crate::refusal::{self, No};
use crate::shape::digit;

/// Both areas after a transform, and where its answer stands.
#[derive(Clone, PartialEq, Eq, Debug)]
pub struct Areas {
    /// The spectrum: the first N entries of the area that holds it.
    pub part: Vec<i32>,
    /// The spectrum stands in the first area (even m) or in the second (odd m).
    pub in_first: bool,
    pub first: Vec<i32>,
    pub second: Vec<i32>,
}

/// The areas after the transform. The other area holds what stood after stage m-1; entries from N on stay.
pub fn transform(m: u32, first: &[i32], second: &[i32]) -> Result<Areas, No> {
    let carriers = refusal::of_transform(m, first, second)?;
    let y: Vec<i64> = first[..carriers].iter().map(|&value| i64::from(value)).collect();
    let part = narrow(&spectrum(&y));
    let before = narrow(&(1..m).fold(y, |area, k| stage(m, k, &area)));
    let in_first = m.is_multiple_of(2);
    let (front, other) = if in_first { (&part, &before) } else { (&before, &part) };
    let with_front = |front: &[i32], area: &[i32]| [front, &area[carriers..]].concat();
    Ok(Areas { first: with_front(front, first), second: with_front(other, second), part, in_first })
}

/// Entry j is the sum over i of y_i, negated where the binary digits of i and j share an odd number of ones.
fn spectrum(y: &[i64]) -> Vec<i64> {
    let term = |i: usize, j: usize| if (i & j).count_ones() % 2 == 1 { -y[i] } else { y[i] };
    (0..y.len()).map(|j| (0..y.len()).map(|i| term(i, j)).sum()).collect()
}

/// Stage k: at each pair of places that differ in x_k alone, the sum goes where x_k = 0,
/// and the first less the second where x_k = 1.
fn stage(m: u32, k: u32, area: &[i64]) -> Vec<i64> {
    let mut written = area.to_vec();
    for one in (0..area.len()).filter(|&place| digit(m, place, k) == 0) {
        for other in (0..area.len()).filter(|&place| differ_alone(m, k, one, place)) {
            written[one] = area[one] + area[other];
            written[other] = area[one] - area[other];
        }
    }
    written
}

fn differ_alone(m: u32, k: u32, one: usize, other: usize) -> bool {
    (1..=m).all(|l| (digit(m, one, l) != digit(m, other, l)) == (l == k))
}

/// A sum of N values of 16 bits is far inside 32 bits.
fn narrow(area: &[i64]) -> Vec<i32> {
    area.iter().map(|&entry| i32::try_from(entry).expect("a sum outside 32 bits")).collect()
}

#[cfg(test)]
mod tests {
    use super::*;

    /// 01 gives the spectrum twice, by its sum and by its stages: they agree.
    #[test]
    fn all_stages_give_the_sum() {
        for m in 2..=6 {
            let y: Vec<i64> = (0..1i64 << m).map(|i| (i * i * 7 + 3) % 101 - 50).collect();
            assert_eq!((1..=m).fold(y.clone(), |area, k| stage(m, k, &area)), spectrum(&y));
        }
    }
}
