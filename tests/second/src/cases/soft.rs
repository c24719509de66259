//! Soft decoding: clean words of every path, several levels, extremes, ties, noise.

use super::{ends, in_use, not_in_use, word_of, Cases};
use crate::shape::{digit, Shape};

pub fn add(cases: &mut Cases) {
    cases.family("soft decoding: clean words of every path in use, then of those not in use");
    for shape in Shape::decoded() {
        for path in in_use(shape).chain(not_in_use(shape)) {
            let word = cases.word_of_path(shape, path);
            cases.soft(shape.h(), shape.m(), &at_level(shape, &word, 100));
        }
    }
    cases.family("soft decoding: ties of one path alone");
    for shape in Shape::decoded() {
        within_a_path(cases, shape);
    }
    cases.family("soft decoding: levels, extremes, zeros, ties, noise, random values");
    for shape in Shape::decoded() {
        levels(cases, shape);
        extremes(cases, shape);
        between(cases, shape);
        noise(cases, shape);
    }
    cases.family("soft decoding: -32768 at one place alone");
    for shape in Shape::decoded() {
        for index in 0..shape.soft_values() {
            let mut values = vec![0; shape.soft_values()];
            values[index] = i16::MIN;
            cases.soft(shape.h(), shape.m(), &values);
        }
    }
    cases.family("soft decoding of eight phases: refused");
    for shape in Shape::all().filter(|shape| shape.h() == 3) {
        cases.soft(3, shape.m(), &vec![100; shape.carriers()]);
        cases.soft(3, shape.m(), &vec![100; 2 * shape.carriers()]);
    }
}

/// The soft values of a word, each at a level: symbols stand at 1, -1 for h = 1 and at 1, j, -1, -j for h = 2.
fn at_level(shape: Shape, word: &[u8], level: i16) -> Vec<i16> {
    let one = |&symbol: &u8| match (shape.h(), symbol) {
        (1, 0) => vec![level],
        (1, _) => vec![-level],
        (_, 0) => vec![level, 0],
        (_, 1) => vec![0, level],
        (_, 2) => vec![-level, 0],
        (_, _) => vec![0, -level],
    };
    word.iter().flat_map(one).collect()
}

fn levels(cases: &mut Cases, shape: Shape) {
    for level in [1, 32_767] {
        for message in ends(shape).into_iter().chain([cases.message(shape)]) {
            cases.soft(shape.h(), shape.m(), &at_level(shape, &word_of(shape, message), level));
        }
    }
}

fn extremes(cases: &mut Cases, shape: Shape) {
    let (h, m, length) = (shape.h(), shape.m(), shape.soft_values());
    for value in [i16::MIN, i16::MAX, 0, 1, -1] {
        cases.soft(h, m, &vec![value; length]);
    }
    for (even, odd) in [(i16::MIN, i16::MAX), (i16::MAX, i16::MIN), (i16::MIN, 0), (0, i16::MIN)] {
        let values: Vec<i16> = (0..length).map(|index| if index % 2 == 0 { even } else { odd }).collect();
        cases.soft(h, m, &values);
    }
    for _ in 0..2 {
        let values: Vec<i16> = (0..length).map(|_| cases.random.pick(&[i16::MIN, i16::MAX])).collect();
        cases.soft(h, m, &values);
    }
}

/// A word of path 0 with nothing heard where x_m = 1: the words that differ in c_m alone are tied, and no other,
/// as no other path in use agrees with 1 2 .. m where x_m = 0.
fn within_a_path(cases: &mut Cases, shape: Shape) {
    let word = cases.word_of_path(shape, 0);
    let mut values = at_level(shape, &word, 100);
    for (index, value) in values.iter_mut().enumerate() {
        *value *= 1 - digit(shape.m(), index / shape.h() as usize, shape.m()) as i16;
    }
    cases.soft(shape.h(), shape.m(), &values);
}

/// The sum of two words' values: each is as near as the other.
fn between(cases: &mut Cases, shape: Shape) {
    for level in [1, 100, 16_383] {
        let (first, second) = (cases.word(shape), cases.word(shape));
        let pairs = at_level(shape, &first, level).into_iter().zip(at_level(shape, &second, level));
        let values: Vec<i16> = pairs.map(|(a, b)| a + b).collect();
        cases.soft(shape.h(), shape.m(), &values);
    }
}

fn noise(cases: &mut Cases, shape: Shape) {
    for (level, width) in [(100, 30), (100, 300), (5_000, 20_000), (3, 4)] {
        let word = cases.word(shape);
        let clean = at_level(shape, &word, level);
        let values: Vec<i16> =
            clean.into_iter().map(|value| value + cases.random.range(-width, width) as i16).collect();
        cases.soft(shape.h(), shape.m(), &values);
    }
    for _ in 0..4 {
        let values = cases.random.values(shape.soft_values());
        cases.soft(shape.h(), shape.m(), &values);
    }
}
