//! The case lines, family by family. One seed gives the same lines everywhere.

mod areas;
mod by_hand;
mod damaged;
mod hard;
mod known;
mod messages;
mod near_pairs;
mod pairs;
mod reading;
mod refusals;
mod soft;
mod symbols;

use std::collections::HashSet;
use std::ops::Range;

use crate::messages::{Label, Message};
use crate::paths::paths;
use crate::random::Random;
use crate::shape::Shape;
use crate::text::{list_text, word_text};
use crate::words::{partner_word, word};

/// All case lines, without their newlines. The first says how they were made.
pub fn all(seed: u64) -> Vec<String> {
    let mut cases = Cases { lines: Vec::new(), set: HashSet::new(), random: Random::new(seed) };
    cases.family(&format!("made by: second cases {seed}"));
    for add in [
        known::add,
        messages::add,
        refusals::add,
        symbols::add,
        pairs::add,
        near_pairs::add,
        reading::add,
        hard::add,
        soft::add,
        areas::add,
        by_hand::add,
        damaged::add,
    ] {
        add(&mut cases);
    }
    cases.lines
}

/// The lines so far, in order and as a set, and the numbers that the next ones draw from.
struct Cases {
    lines: Vec<String>,
    set: HashSet<String>,
    random: Random,
}

impl Cases {
    fn family(&mut self, what: &str) {
        self.line(format!("# {what}"));
    }

    /// A line that is there before is left out.
    fn line(&mut self, line: impl Into<String>) {
        let line = line.into();
        if self.set.insert(line.clone()) {
            self.lines.push(line);
        }
    }

    /// Encode or partner; the slice is what the output holds before.
    fn write(&mut self, call: &str, h: u32, m: u32, message: Message, slice: &[u8]) {
        self.line(format!("{call} {h} {m} {message} {}", word_text(slice)));
    }

    fn pair(&mut self, h: u32, m: u32, first: &[u8], second: &[u8]) {
        self.line(format!("pair {h} {m} {} {}", word_text(first), word_text(second)));
    }

    fn read(&mut self, h: u32, m: u32, word: &[u8]) {
        self.line(format!("read {h} {m} {}", word_text(word)));
    }

    fn hard(&mut self, h: u32, m: u32, word: &[u8]) {
        self.line(format!("hard {h} {m} {}", word_text(word)));
    }

    fn soft(&mut self, h: u32, m: u32, values: &[i16]) {
        self.line(format!("soft {h} {m} {}", list_text(values)));
    }

    /// Transform, run or look.
    fn areas(&mut self, call: &str, m: u32, first: &[i32], second: &[i32]) {
        self.line(format!("{call} {m} {} {}", list_text(first), list_text(second)));
    }

    fn message(&mut self, shape: Shape) -> Message {
        Message(self.random.below(shape.messages()))
    }

    fn word(&mut self, shape: Shape) -> Vec<u8> {
        let message = self.message(shape);
        word_of(shape, message)
    }

    /// A message of this path, which is in use: the path number above, coefficients below.
    fn message_of_path(&mut self, shape: Shape, path: usize) -> Message {
        let below = 1 << shape.coefficient_bits();
        Message(path as u64 * below + self.random.below(below))
    }

    /// A word of this path, in use or not.
    fn word_of_path(&mut self, shape: Shape, path: usize) -> Vec<u8> {
        let coefficients = self.random.word(shape.phases(), shape.m() as usize + 1);
        word(shape, &Label { path, coefficients })
    }

    fn place(&mut self, shape: Shape) -> usize {
        self.random.below(shape.carriers() as u64) as usize
    }

    /// Changes one symbol to another that is in range.
    fn change(&mut self, shape: Shape, word: &mut [u8], place: usize) {
        let step = 1 + self.random.below(u64::from(shape.phases()) - 1) as u8;
        word[place] = (word[place] + step) % shape.phases() as u8;
    }

    /// Changes so many symbols, each at a place of its own.
    fn damage(&mut self, shape: Shape, word: &mut [u8], count: usize) {
        let mut places: Vec<usize> = (0..word.len()).collect();
        for _ in 0..count {
            let place = places.swap_remove(self.random.below(places.len() as u64) as usize);
            self.change(shape, word, place);
        }
    }
}

/// The numbers of the paths in use.
fn in_use(shape: Shape) -> Range<usize> {
    0..shape.paths_in_use()
}

/// The numbers of the paths that are not in use.
fn not_in_use(shape: Shape) -> Range<usize> {
    in_use(shape).end..paths(shape.m()).len()
}

/// Every path in use, and these over again where they are fewer than the count.
fn in_turn(shape: Shape, count: usize) -> impl Iterator<Item = usize> {
    let paths = in_use(shape).end;
    (0..count.max(paths)).map(move |number| number % paths)
}

/// The first and the last message.
fn ends(shape: Shape) -> [Message; 2] {
    [0, shape.messages() - 1].map(Message)
}

fn word_of(shape: Shape, message: Message) -> Vec<u8> {
    word(shape, &Label::of(shape, message))
}

fn partner_of(shape: Shape, message: Message) -> Vec<u8> {
    partner_word(shape, &Label::of(shape, message))
}
