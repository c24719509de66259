//! A bad symbol at every place: the first bad place is answered, and by the pair check which word.

use super::Cases;
use crate::shape::Shape;

pub fn add(cases: &mut Cases) {
    cases.family("symbols: reading and hard decoding with a bad symbol at every place");
    for shape in Shape::all() {
        for (place, kind) in places_and_kinds(shape) {
            let word = bad(cases, shape, place, kind);
            cases.read(shape.h(), shape.m(), &word);
            if shape.h() < 3 {
                cases.hard(shape.h(), shape.m(), &word);
            }
        }
    }
    cases.family("symbols: the pair check with a bad symbol at every place of the first word, the second, both");
    for shape in Shape::all() {
        for (place, kind) in places_and_kinds(shape) {
            let word = bad(cases, shape, place, kind);
            let other = cases.word(shape);
            cases.pair(shape.h(), shape.m(), &word, &other);
            cases.pair(shape.h(), shape.m(), &other, &word);
            if kind == place % 3 {
                let elsewhere = cases.place(shape);
                let other = bad(cases, shape, elsewhere, kind);
                cases.pair(shape.h(), shape.m(), &word, &other);
            }
        }
    }
}

fn places_and_kinds(shape: Shape) -> impl Iterator<Item = (usize, usize)> {
    (0..shape.carriers()).flat_map(|place| (0..3).map(move |kind| (place, kind)))
}

/// A word with 2^h at the place, or 255, or 2^h with nothing but bad symbols behind it.
fn bad(cases: &mut Cases, shape: Shape, place: usize, kind: usize) -> Vec<u8> {
    let mut word = cases.word(shape);
    word[place] = if kind == 1 { 255 } else { shape.phases() as u8 };
    if kind == 2 {
        word[place + 1..].fill(shape.phases() as u8 + 1);
    }
    word
}
