//! Shapes above the greatest m: the definitions take them as they are, and no table holds all their words.

use crate::decoding::{label_with, loudest, nearest, Found};
use crate::messages::{Label, Message};
use crate::pairs::golay;
use crate::paths::paths;
use crate::random::Random;
use crate::shape::{path_bits, Shape};
use crate::words::{partner_word, word};

const M: u32 = 6;

fn shapes(greatest_h: u32) -> impl Iterator<Item = Shape> {
    (1..=greatest_h).map(|h| Shape::larger(h, M))
}

fn messages(shape: Shape, seed: u64, count: usize) -> Vec<Message> {
    let mut random = Random::new(seed);
    let drawn = (0..count).map(|_| random.below(shape.messages()));
    [0, shape.messages() - 1].into_iter().chain(drawn).map(Message).collect()
}

/// 02: 360 paths, the first 256 in use, and messages of up to 29 bits.
#[test]
fn counts() {
    assert_eq!((paths(M).len(), path_bits(M)), (360, 8));
    assert_eq!([1, 2, 3].map(|h| Shape::larger(h, M).bits()), [15, 22, 29]);
    assert!((2..=M).all(|m| (1..2).contains(&(paths(m).len() >> path_bits(m)))));
}

#[test]
fn labels_and_messages() {
    for shape in shapes(3) {
        let all = messages(shape, 1, 1_000);
        assert!(all.iter().all(|&message| Label::of(shape, message).message(shape) == message));
    }
}

/// Reading gives each message back; a word with one symbol changed, or of a path that is not in use, is none.
#[test]
fn reading() {
    for shape in shapes(3) {
        let mut random = Random::new(2);
        for message in messages(shape, 2, 20) {
            let label = Label::of(shape, message);
            let mut symbols = word(shape, &label);
            assert_eq!(symbols.len(), 64);
            assert_eq!(label_with(shape, &symbols), Some(label.clone()));
            let place = random.below(64) as usize;
            symbols[place] = shape.modulo(symbols[place] + 1);
            assert_eq!(label_with(shape, &symbols), None);
            let unused = Label { path: 256 + label.path % 104, ..label };
            assert_eq!(label_with(shape, &word(shape, &unused)), None);
        }
    }
}

/// 001, Theorem 3.
#[test]
fn words_pair_with_their_partners() {
    for shape in shapes(3) {
        for message in messages(shape, 3, 5) {
            let label = Label::of(shape, message);
            let (one, other) = (word(shape, &label), partner_word(shape, &label));
            assert!(golay(shape, &one, &other) && !golay(shape, &one, &one));
        }
    }
}

/// Damage inside the bound of 01 leaves the message sent, its distance and no tie.
#[test]
fn damaged_words() {
    for shape in shapes(2) {
        let mut random = Random::new(4);
        for message in messages(shape, 4, 2) {
            let mut symbols = word(shape, &Label::of(shape, message));
            let from = random.below(57) as usize;
            symbols[from..from + 7].iter_mut().for_each(|symbol| *symbol = shape.modulo(*symbol + 1));
            assert_eq!(nearest(shape, &symbols), Found { message, value: 7, tied: false });
        }
    }
}

/// The answer is the first of the greatest, by going through every word without any bracket.
#[test]
fn the_loudest_of_all_words() {
    let shape = Shape::larger(1, M);
    let mut random = Random::new(5);
    for width in [1, 32_767] {
        let values: Vec<i16> = (0..64).map(|_| random.range(-width, width) as i16).collect();
        let correlation = |message: u64| -> i64 {
            let symbols = word(shape, &Label::of(shape, Message(message)));
            symbols.iter().zip(&values).map(|(&symbol, &y)| (1 - 2 * i64::from(symbol)) * i64::from(y)).sum()
        };
        let all: Vec<i64> = (0..shape.messages()).map(correlation).collect();
        let value = *all.iter().max().expect("a word");
        let first = all.iter().position(|&one| one == value).expect("a word") as u64;
        let tied = all.iter().filter(|&&one| one == value).count() > 1;
        assert_eq!(loudest(shape, &values), Found { message: Message(first), value, tied });
    }
}
