//! Word reading: words of every path, damaged words, random words.

use super::{ends, in_turn, not_in_use, word_of, Cases};
use crate::shape::Shape;

pub fn add(cases: &mut Cases) {
    cases.family("reading: words of every path in use, the same with one symbol damaged, random words");
    for shape in Shape::all() {
        for message in ends(shape) {
            cases.read(shape.h(), shape.m(), &word_of(shape, message));
        }
        for path in in_turn(shape, 8) {
            let mut word = cases.word_of_path(shape, path);
            cases.read(shape.h(), shape.m(), &word);
            cases.damage(shape, &mut word, 1);
            cases.read(shape.h(), shape.m(), &word);
        }
        for _ in 0..3 {
            let word = cases.random.word(shape.phases(), shape.carriers());
            cases.read(shape.h(), shape.m(), &word);
        }
    }
    cases.family("reading: words of paths that are not in use");
    for shape in Shape::all() {
        for path in not_in_use(shape) {
            let word = cases.word_of_path(shape, path);
            cases.read(shape.h(), shape.m(), &word);
        }
    }
}
