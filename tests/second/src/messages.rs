//! Messages and labels: 01, "What a logger may send". A message is a number of so many bits, a label says which word.
//!
//! Words, ties and the order of a search go by labels, and callers see messages. What the bits of a coefficient say is
//! `coefficient` on the way to a label, and `bits` on the way back: nothing else knows of it.

use std::fmt;

use crate::paths::{paths, Path};
use crate::shape::Shape;

/// A message number, in range or not.
#[derive(Clone, Copy, PartialEq, Eq, Debug)]
pub struct Message(pub u64);

impl fmt::Display for Message {
    fn fmt(&self, f: &mut fmt::Formatter<'_>) -> fmt::Result {
        self.0.fmt(f)
    }
}

/// A label: the path number, then c_1, .., c_m, c. Label order compares these from the first on.
#[derive(Clone, PartialEq, Eq, PartialOrd, Ord, Debug)]
pub struct Label {
    pub path: usize,
    /// c_1 to c_m, then c.
    pub coefficients: Vec<u8>,
}

impl Label {
    /// The label of a message: path number highest, then c_1 to c_m, then c lowest, each in h bits.
    pub fn of(shape: Shape, message: Message) -> Label {
        let path = (message.0 >> shape.coefficient_bits()) as usize;
        let bits = |k: u32| shape.modulo((message.0 >> (shape.h() * (shape.m() - k))) as u8);
        Label { path, coefficients: (0..=shape.m()).map(|k| coefficient(shape, bits(k))).collect() }
    }

    /// The message of a label.
    pub fn message(&self, shape: Shape) -> Message {
        let join = |number: u64, &c: &u8| number << shape.h() | u64::from(bits(shape, c));
        Message(self.coefficients.iter().fold(self.path as u64, join))
    }

    pub fn path(&self, shape: Shape) -> &'static Path {
        &paths(shape.m())[self.path]
    }
}

/// The coefficient that h bits say: plain binary.
fn coefficient(_: Shape, bits: u8) -> u8 {
    bits
}

/// The h bits that say a coefficient.
fn bits(_: Shape, coefficient: u8) -> u8 {
    coefficient
}
