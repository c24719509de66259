//! The straightforward programs: 01 as it is written, with no thought of speed.

use crate::search::Answer;
use crate::timing::{Ring, Side};
use crate::words::Shape;

/// A decoder for one shape, which encodes each word and compares it with what was received.
struct Plain<const H: usize, const M: usize> {
    paths: Vec<[usize; M]>,
}

impl<const H: usize, const M: usize> Plain<H, M> {
    const SHAPE: Shape = Shape { h: H, m: M };

    fn new() -> Self {
        let path = |path: Vec<usize>| path.try_into().expect("a path has m numbers");
        Plain { paths: Self::SHAPE.paths().into_iter().map(path).collect() }
    }

    fn search(&self, score: impl Fn(&[u8]) -> i32) -> Answer {
        let mut best = Answer::NONE;
        let mut room = [0; 32];
        let word = &mut room[..1 << M];
        for message in 0..Self::SHAPE.messages() {
            Self::SHAPE.encode(&self.paths[Self::SHAPE.path_number(message)], message, word);
            best.hear(message, score(word));
        }
        best
    }

    fn soft(&self, values: &[i16]) -> Answer {
        self.search(|word| {
            let parts = word.iter().zip(values.chunks_exact(H)).map(|(symbol, value)| part(H, *symbol, value));
            parts.sum()
        })
    }

    fn hard(&self, symbols: &[u8]) -> Answer {
        let q = 1 << H;
        self.search(|word| {
            let distances = word.iter().zip(symbols).map(|(a, b)| {
                let apart = (*a as i32 - *b as i32).rem_euclid(q);
                apart.min(q - apart)
            });
            -distances.sum::<i32>()
        })
    }
}

/// What a symbol has of the value at its place: symbols 0, 1 stand at 1, -1, and of four 0, 1, 2, 3 at 1, j, -1, -j.
fn part(h: usize, symbol: u8, value: &[i16]) -> i32 {
    match (h, symbol) {
        (_, 0) => value[0] as i32,
        (1, _) | (_, 2) => -(value[0] as i32),
        (_, 1) => value[1] as i32,
        _ => -(value[1] as i32),
    }
}

/// Calls a function of the constants h and m.
macro_rules! of_shape {
    ($shape:expr, $function:ident($ring:expr)) => {
        match ($shape.h, $shape.m) {
            (1, 2) => $function::<1, 2>($ring),
            (1, 3) => $function::<1, 3>($ring),
            (1, 4) => $function::<1, 4>($ring),
            (1, 5) => $function::<1, 5>($ring),
            (2, 2) => $function::<2, 2>($ring),
            (2, 3) => $function::<2, 3>($ring),
            (2, 4) => $function::<2, 4>($ring),
            (2, 5) => $function::<2, 5>($ring),
            (h, m) => unreachable!("no case has h = {h} and m = {m}"),
        }
    };
}

/// Adds the plain soft decoder.
pub fn add_soft(ring: &mut Ring<i16>, shape: Shape) {
    fn add<const H: usize, const M: usize>(ring: &mut Ring<i16>) {
        let plain = Plain::<H, M>::new();
        ring.decoder(Side::Plain, "plain", move |values| plain.soft(values));
    }
    of_shape!(shape, add(ring))
}

/// Adds the plain hard decoder.
pub fn add_hard(ring: &mut Ring<u8>, shape: Shape) {
    fn add<const H: usize, const M: usize>(ring: &mut Ring<u8>) {
        let plain = Plain::<H, M>::new();
        ring.decoder(Side::Plain, "plain", move |symbols| plain.hard(symbols));
    }
    of_shape!(shape, add(ring))
}

/// The transform's stages between two areas, as 01 tells them. Gives the area that holds the spectrum.
pub fn stages<'a>(m: u32, first: &'a mut [i32], second: &'a mut [i32]) -> &'a [i32] {
    let n = 1 << m;
    let (mut from, mut to) = (&mut first[..n], &mut second[..n]);
    for k in 1..=m {
        let digit = n >> k;
        for i in 0..n {
            if i & digit == 0 {
                to[i] = from[i] + from[i + digit];
                to[i + digit] = from[i] - from[i + digit];
            }
        }
        (from, to) = (to, from);
    }
    from
}

/// The spectrum by its definition, from the first area to the second.
pub fn sums<'a>(m: u32, first: &'a mut [i32], second: &'a mut [i32]) -> &'a [i32] {
    let n = 1 << m;
    for (j, entry) in second[..n].iter_mut().enumerate() {
        *entry = 0;
        for (i, value) in first[..n].iter().enumerate() {
            if (i & j).count_ones() % 2 == 0 {
                *entry += value;
            } else {
                *entry -= value;
            }
        }
    }
    &second[..n]
}
