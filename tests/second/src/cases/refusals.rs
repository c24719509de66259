//! Refusals and their order: each fault alone, and each two that can stand together.

use super::Cases;
use crate::given::LONGEST;
use crate::messages::Message;
use crate::shape::{Shape, GREATEST_M};

const WRITERS: [&str; 2] = ["encode", "partner"];
const AREA_CALLS: [&str; 3] = ["transform", "run", "look"];
/// Out of range as they are, and the least in range where they are cut to 4, 5, 6, 8 or 16 bits.
const FOLDED_H: [u32; 5] = [17, 33, 65, 257, 65_537];
const FOLDED_M: [u32; 5] = [18, 34, 66, 258, 65_538];
/// The least m above the range, and the next.
const ABOVE: [u32; 2] = [GREATEST_M + 1, GREATEST_M + 2];
/// The lengths of a word of the greatest m in range and of the least above.
const LENGTHS: [usize; 2] = [1 << GREATEST_M, 1 << ABOVE[0]];

pub fn add(cases: &mut Cases) {
    cases.family("refusals: shapes out of range, with lengths, symbols and messages good and bad");
    shapes(cases);
    cases.family("refusals: lengths alone");
    for shape in Shape::all() {
        lengths(cases, shape);
    }
    cases.family("refusals: two faults together");
    for shape in Shape::all() {
        two_in_words(cases, shape);
        two_in_decoding(cases, shape);
    }
    for m in 2..=GREATEST_M {
        two_in_areas(cases, m);
    }
}

/// Every call on every shape out of range.
fn shapes(cases: &mut Cases) {
    for h in [0, 1, 2, 3, 4, 5, 255, u32::MAX] {
        for m in [0, 1, 2, GREATEST_M, ABOVE[0], ABOVE[1], 31, 32, 63, 64, 255, u32::MAX] {
            if Shape::of(h, m).is_none() {
                shape_out_of_range(cases, h, m);
            }
        }
    }
    for (h, m) in FOLDED_H.into_iter().zip(FOLDED_M) {
        shape_out_of_range(cases, h, 2);
        shape_out_of_range(cases, 2, m);
        shape_out_of_range(cases, h, m);
    }
    for m in [0, 1, ABOVE[0], ABOVE[1], 31, 32, 63, 64, 255, u32::MAX].into_iter().chain(FOLDED_M) {
        for call in AREA_CALLS {
            let length = cases.random.pick(&[4, LENGTHS[0], LENGTHS[1]]);
            cases.areas(call, m, &vec![1; length], &vec![9; length]);
        }
    }
}

fn shape_out_of_range(cases: &mut Cases, h: u32, m: u32) {
    for call in WRITERS {
        let message = Message(cases.random.pick(&[0, 7, u64::MAX]));
        let slice = any_slice(cases);
        cases.write(call, h, m, message, &slice);
    }
    let (first, second) = (any_slice(cases), any_slice(cases));
    cases.pair(h, m, &first, &second);
    let word = any_slice(cases);
    cases.read(h, m, &word);
    let word = any_slice(cases);
    cases.hard(h, m, &word);
    let length = any_slice(cases).len();
    cases.soft(h, m, &vec![1; length]);
}

/// Symbols good and bad, in a length that may be the one of some m.
fn any_slice(cases: &mut Cases) -> Vec<u8> {
    let length = cases.random.pick(&[0, 1, 2, 4, 4, LENGTHS[0], LENGTHS[1]]);
    vec![cases.random.pick(&[0, 1, 9, 255]); length]
}

fn lengths(cases: &mut Cases, shape: Shape) {
    let (h, m, carriers) = (shape.h(), shape.m(), shape.carriers());
    for length in wrong(carriers) {
        for call in WRITERS {
            cases.write(call, h, m, Message(0), &vec![9; length]);
        }
        let word = cases.random.word(shape.phases(), length);
        cases.read(h, m, &word);
        cases.hard(h, m, &word);
        let other = cases.word(shape);
        cases.pair(h, m, &word, &other);
        cases.pair(h, m, &other, &word);
        if length < carriers {
            cases.pair(h, m, &word, &word);
        }
    }
    // N and 2N exchanged between two phases and four are among these.
    let named = shape.soft_values();
    for length in [0, 1, carriers - 1, carriers, carriers + 1, 2 * carriers - 1, 2 * carriers, 2 * carriers + 1] {
        if length != named && length <= LONGEST {
            cases.soft(h, m, &vec![1; length]);
        }
    }
    cases.soft(h, m, &vec![1; (2 * named).min(LONGEST)]);
}

fn wrong(named: usize) -> [usize; 5] {
    [0, 1, named - 1, named + 1, 2 * named]
}

/// Encode, partner, pair check and reading.
fn two_in_words(cases: &mut Cases, shape: Shape) {
    let (h, m, carriers) = (shape.h(), shape.m(), shape.carriers());
    for call in WRITERS {
        for message in [shape.messages(), u64::MAX].map(Message) {
            for length in [0, carriers - 1, carriers + 1] {
                cases.write(call, h, m, message, &vec![9; length]);
            }
        }
        cases.write(call, 4, m, Message(shape.messages()), &vec![9; carriers]);
        cases.write(call, h, ABOVE[0], Message(u64::MAX), &[9; LENGTHS[1]]);
        cases.write(call, 0, m, Message(0), &vec![9; carriers - 1]);
        cases.write(call, h, 1, Message(0), &[9; 3]);
    }
    let good = cases.word(shape);
    let bad = with_bad_symbol(cases, shape, &good);
    let short = &good[1..];
    let short_and_bad = vec![shape.phases() as u8; carriers - 1];
    let long_and_bad = vec![255; carriers + 1];
    cases.pair(h, m, short, &bad);
    cases.pair(h, m, &bad, short);
    cases.pair(h, m, &short_and_bad, &good);
    cases.pair(h, m, &good, &short_and_bad);
    cases.pair(h, m, &long_and_bad, &bad);
    cases.pair(h, m, &bad, &long_and_bad);
    cases.pair(4, m, &bad, &good);
    cases.pair(h, ABOVE[0], &good, short);
    cases.read(h, m, &short_and_bad);
    cases.read(h, m, &long_and_bad);
    cases.read(4, m, &bad);
    cases.read(h, ABOVE[0], &bad);
    cases.read(h, 1, &short_and_bad);
}

/// Soft and hard decoding; with h = 3 the sixth kind comes before lengths and symbols, and after the shape.
fn two_in_decoding(cases: &mut Cases, shape: Shape) {
    let (h, m, carriers) = (shape.h(), shape.m(), shape.carriers());
    let good = cases.word(shape);
    let bad = with_bad_symbol(cases, shape, &good);
    let short_and_bad = vec![shape.phases() as u8; carriers - 1];
    let long_and_bad = vec![255; carriers + 1];
    cases.hard(h, m, &short_and_bad);
    cases.hard(h, m, &long_and_bad);
    cases.hard(h, m, &bad);
    cases.hard(h, ABOVE[0], &short_and_bad);
    cases.hard(h, 1, &bad);
    cases.hard(4, m, &bad);
    cases.soft(h, ABOVE[0], &vec![1; (shape.soft_values() - 1).min(LONGEST)]);
    cases.soft(4, m, &vec![-1; carriers + 1]);
}

/// A bad symbol somewhere.
fn with_bad_symbol(cases: &mut Cases, shape: Shape, word: &[u8]) -> Vec<u8> {
    let mut bad = word.to_vec();
    let place = cases.place(shape);
    bad[place] = shape.phases() as u8;
    bad
}

fn two_in_areas(cases: &mut Cases, m: u32) {
    let carriers = 1 << m;
    let mut bad = vec![1; carriers];
    bad[1] = 32_768;
    let (good, short) = (vec![1; carriers], vec![9; carriers - 1]);
    for call in AREA_CALLS {
        cases.areas(call, m, &bad, &short);
        cases.areas(call, m, &bad[..carriers - 1], &good);
        cases.areas(call, m, &bad[..2], &[]);
        cases.areas(call, m + GREATEST_M - 1, &short, &good);
        cases.areas(call, m + GREATEST_M - 1, &bad, &good);
        cases.areas(call, 1, &good, &[]);
        cases.areas(call, 0, &bad, &short);
    }
}
