//! What 01 says of its own definitions, on every word of the smaller shapes.

use std::collections::HashMap;

use second::{encode, hard, pair, partner, read, soft, Found, Label, Message, Random, Shape};

fn small() -> impl Iterator<Item = Shape> {
    Shape::all().filter(|shape| shape.messages() <= 1 << 13)
}

fn word(shape: Shape, message: u64) -> Vec<u8> {
    encode(shape.h(), shape.m(), Message(message), shape.carriers()).unwrap()
}

/// Numeric order of messages is label order, so the earliest label is the least message.
#[test]
fn messages_are_in_label_order() {
    for shape in small() {
        for message in 1..shape.messages() {
            assert!(Label::of(shape, Message(message - 1)) < Label::of(shape, Message(message)));
        }
    }
}

/// No two messages share a word: reading gives each message back.
#[test]
fn reading_gives_each_message_back() {
    for shape in small() {
        assert!((0..shape.messages()).all(|g| read(shape.h(), shape.m(), &word(shape, g)) == Ok(Message(g))));
    }
}

/// Reading is a look-up among the words of all messages, whatever the symbols.
#[test]
fn reading_finds_a_word_among_all() {
    for (h, m) in [(1, 2), (2, 2), (3, 2), (1, 3), (2, 3)] {
        let shape = Shape::of(h, m).unwrap();
        let all: HashMap<Vec<u8>, u64> = (0..shape.messages()).map(|g| (word(shape, g), g)).collect();
        let (phases, places) = (u64::from(shape.phases()), shape.carriers() as u32);
        for number in 0..phases.pow(places) {
            let symbols: Vec<u8> = (0..places).map(|place| (number / phases.pow(place) % phases) as u8).collect();
            assert_eq!(read(h, m, &symbols).ok(), all.get(&symbols).copied().map(Message));
        }
    }
}

/// 001, Theorem 3; and 01: a word paired with itself is never a pair.
#[test]
fn words_pair_with_their_partners_and_never_with_themselves() {
    for shape in Shape::all() {
        let mut random = Random::new(3);
        for message in (0..40).map(|_| random.below(shape.messages())) {
            let (h, m, one) = (shape.h(), shape.m(), word(shape, message));
            let other = partner(h, m, Message(message), shape.carriers()).unwrap();
            assert_eq!(pair(h, m, &one, &other), Ok(true));
            assert_eq!(pair(h, m, &one, &one), Ok(false));
        }
    }
}

/// 01's correlation, place by place and without any table.
fn correlation(shape: Shape, word: &[u8], values: &[i16]) -> i64 {
    let at = |place: usize| match (shape.h(), word[place]) {
        (1, 0) => i64::from(values[place]),
        (1, _) => -i64::from(values[place]),
        (_, 0) => i64::from(values[2 * place]),
        (_, 1) => i64::from(values[2 * place + 1]),
        (_, 2) => -i64::from(values[2 * place]),
        (_, _) => -i64::from(values[2 * place + 1]),
    };
    (0..word.len()).map(at).sum()
}

#[test]
fn the_answer_is_the_first_of_the_greatest() {
    for shape in small().filter(|shape| shape.h() < 3) {
        let mut random = Random::new(5);
        for width in [1, 2, 32_767] {
            let values: Vec<i16> = (0..shape.soft_values()).map(|_| random.range(-width, width) as i16).collect();
            let all: Vec<i64> = (0..shape.messages()).map(|g| correlation(shape, &word(shape, g), &values)).collect();
            let value = *all.iter().max().unwrap();
            let message = Message(all.iter().position(|&one| one == value).unwrap() as u64);
            let tied = all.iter().filter(|&&one| one == value).count() > 1;
            assert_eq!(soft(shape.h(), shape.m(), &values), Ok(Found { message, value, tied }));
        }
    }
}

/// 01: for unit soft values correlation is N - 2 distance (h = 1) and N - distance (h = 2).
#[test]
fn unit_values_tie_correlation_to_distance() {
    for shape in small().filter(|shape| shape.h() < 3) {
        let mut random = Random::new(7);
        for _ in 0..20 {
            let heard = random.word(shape.phases(), shape.carriers());
            let units = |symbol: &u8| match (shape.h(), symbol) {
                (1, 0) => vec![1],
                (1, _) => vec![-1],
                (_, 0) => vec![1, 0],
                (_, 1) => vec![0, 1],
                (_, 2) => vec![-1, 0],
                (_, _) => vec![0, -1],
            };
            let values: Vec<i16> = heard.iter().flat_map(units).collect();
            let near = hard(shape.h(), shape.m(), &heard).unwrap();
            let step = if shape.h() == 1 { 2 } else { 1 };
            let value = shape.carriers() as i64 - step * near.value;
            assert_eq!(soft(shape.h(), shape.m(), &values), Ok(Found { value, ..near }));
        }
    }
}
