//! The pair check on words of any origin.

use super::{ends, partner_of, word_of, Cases};
use crate::messages::Message;
use crate::shape::Shape;

pub fn add(cases: &mut Cases) {
    cases.family("pairs: words with partners, with themselves, changed, shifted by a constant, reversed, random");
    for shape in Shape::all() {
        for message in ends(shape) {
            around(cases, shape, message);
        }
        let message = cases.message(shape);
        around(cases, shape, message);
        let first = cases.random.word(shape.phases(), shape.carriers());
        let second = cases.random.word(shape.phases(), shape.carriers());
        cases.pair(shape.h(), shape.m(), &first, &second);
    }
}

fn around(cases: &mut Cases, shape: Shape, message: Message) {
    let (h, m) = (shape.h(), shape.m());
    let (word, partner) = (word_of(shape, message), partner_of(shape, message));
    cases.pair(h, m, &word, &partner);
    cases.pair(h, m, &partner, &word);
    cases.pair(h, m, &word, &word);
    let other = cases.message(shape);
    cases.pair(h, m, &word, &partner_of(shape, other));
    for (mut first, mut second, which) in [(word.clone(), partner.clone(), 0), (word.clone(), partner.clone(), 1)] {
        let place = cases.place(shape);
        cases.change(shape, if which == 0 { &mut first } else { &mut second }, place);
        cases.pair(h, m, &first, &second);
    }
    let (c, d) = (cases.random.symbol(shape.phases()), cases.random.symbol(shape.phases()));
    cases.pair(h, m, &plus(shape, &word, c), &plus(shape, &partner, d));
    cases.pair(h, m, &reversed(&word), &reversed(&partner));
    cases.pair(h, m, &reversed(&word), &partner);
    cases.pair(h, m, &word, &reversed(&word));
}

fn plus(shape: Shape, word: &[u8], constant: u8) -> Vec<u8> {
    word.iter().map(|symbol| (symbol + constant) % shape.phases() as u8).collect()
}

fn reversed(word: &[u8]) -> Vec<u8> {
    word.iter().rev().copied().collect()
}
