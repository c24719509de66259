//! From words to what a receiver gets: soft values with noise, the symbols decided from them, damaged symbols.

use crate::draw::Draw;

/// The soft values of a word at a level with no noise: 01's phases, 1 and -1, or 1, j, -1, -j.
pub fn tones(h: usize, word: &[u8], level: i16) -> Vec<i16> {
    word.iter()
        .flat_map(|symbol| {
            let (re, im) = match (h, symbol) {
                (_, 0) => (level, 0),
                (1, _) | (_, 2) => (-level, 0),
                (_, 1) => (0, level),
                _ => (0, -level),
            };
            [re, im].into_iter().take(h)
        })
        .collect()
}

/// Soft values with noise added; what leaves sixteen bits is cut to their range.
pub fn noisy(draw: &mut Draw, values: &[i16], spread: i64) -> Vec<i16> {
    let limit = |value: i64| value.clamp(i16::MIN as i64, i16::MAX as i64) as i16;
    values.iter().map(|value| limit(*value as i64 + draw.noise(spread))).collect()
}

/// The symbol nearest to each soft value; of two as near, the earlier.
pub fn decided(h: usize, values: &[i16]) -> Vec<u8> {
    values
        .chunks_exact(h)
        .map(|value| {
            let (re, im) = (value[0] as i32, if h == 1 { 0 } else { value[1] as i32 });
            match h {
                1 => (re < 0) as u8,
                _ if re >= im.abs() => 0,
                _ if im > 0 && im >= -re => 1,
                _ if -re >= im.abs() => 2,
                _ => 3,
            }
        })
        .collect()
}

/// A word at the given distance: `weight` of its N h steps, drawn without regard to order, are taken. With two phases a
/// step turns a place over; with four phases each place has two, where one goes to a neighbour, and both go across.
pub fn damaged(draw: &mut Draw, h: usize, word: &[u8], weight: usize) -> Vec<u8> {
    let mut steps: Vec<usize> = (0..word.len() * h).collect();
    let mut taken = vec![0; word.len()];
    for _ in 0..weight {
        let step = steps.swap_remove(draw.below(steps.len()));
        taken[step / h] += 1;
    }
    let turn = |symbol: u8, by: usize| (symbol as usize + by) as u8 % (1 << h);
    word.iter()
        .zip(taken)
        .map(|(symbol, taken)| match (h, taken) {
            (2, 1) => turn(*symbol, 1 + 2 * draw.below(2)),
            _ => turn(*symbol, taken),
        })
        .collect()
}
