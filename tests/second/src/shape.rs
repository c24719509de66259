//! Shapes: h with 2^h phases, m with N = 2^m carriers, and the numbers that 01 computes from them.

/// The greatest h that a call takes.
pub const GREATEST_H: u32 = 3;

/// The greatest m that a call takes. Nothing here but the ranges of the calls and the cases depends on it.
pub const GREATEST_M: u32 = 5;

/// A shape: h from 1 on, m from 2 on.
#[derive(Clone, Copy, PartialEq, Eq, Debug)]
pub struct Shape {
    h: u32,
    m: u32,
}

impl Shape {
    /// The shape of h and m where both are in the range of the calls, whatever 32-bit numbers they are.
    pub fn of(h: u32, m: u32) -> Option<Shape> {
        let in_range = (1..=GREATEST_H).contains(&h) && (2..=GREATEST_M).contains(&m);
        in_range.then_some(Shape { h, m })
    }

    /// A shape above the greatest m, for tests.
    #[cfg(test)]
    pub fn larger(h: u32, m: u32) -> Shape {
        Shape { h, m }
    }

    /// The shapes in the range of the calls, h before m.
    pub fn all() -> impl Iterator<Item = Shape> {
        (1..=GREATEST_H).flat_map(|h| (2..=GREATEST_M).map(move |m| Shape { h, m }))
    }

    /// Those of two and four phases, whose nearest word the decoders answer.
    pub fn decoded() -> impl Iterator<Item = Shape> {
        Shape::all().filter(|shape| shape.h < 3)
    }

    pub fn h(self) -> u32 {
        self.h
    }

    pub fn m(self) -> u32 {
        self.m
    }

    /// N = 2^m.
    pub fn carriers(self) -> usize {
        1 << self.m
    }

    /// 2^h.
    pub fn phases(self) -> u32 {
        1 << self.h
    }

    /// 2^(h-1), half a turn.
    pub fn half(self) -> u32 {
        1 << (self.h - 1)
    }

    /// A sum of symbols modulo 2^h: its lowest h bits.
    pub fn modulo(self, sum: u8) -> u8 {
        sum & ((1 << self.h) - 1)
    }

    /// How many soft values a word has: one for each place for h = 1, real and imaginary part for h = 2.
    pub fn soft_values(self) -> usize {
        self.carriers() * self.h as usize
    }

    /// How many paths are in use: 2^w.
    pub fn paths_in_use(self) -> usize {
        1 << path_bits(self.m)
    }

    /// The bits of the coefficients: h(m+1).
    pub fn coefficient_bits(self) -> u32 {
        self.h * (self.m + 1)
    }

    /// The bits of a message number: w + h(m+1).
    pub fn bits(self) -> u32 {
        path_bits(self.m) + self.coefficient_bits()
    }

    /// How many messages there are: 2^(w + h(m+1)).
    pub fn messages(self) -> u64 {
        1 << self.bits()
    }
}

/// w: the first 2^w paths are in use. 01 says w up to m = 5, and 02 for m = 6.
pub fn path_bits(m: u32) -> u32 {
    match m {
        2 => 0,
        3 => 1,
        4 => 3,
        5 => 5,
        6 => 8,
        _ => panic!("no w is known for m = {m}"),
    }
}

/// How many messages a shape has. h and m are in range.
pub fn messages(h: u32, m: u32) -> u64 {
    Shape::of(h, m).expect("h or m is outside its range").messages()
}

/// Digit x_k of a place, k from 1 to m. x_1 is the most significant.
pub fn digit(m: u32, place: usize, k: u32) -> u32 {
    (place >> (m - k)) as u32 & 1
}
