//! Brute force for soft decoding by products: a table of the signs of all words, multiplied with the values received
//! and added up. A sign is 1, 0 or -1 for each soft value, in 16 bits, so that the compiler has products of 16 bits
//! added side by side.

use crate::channel::tones;
use crate::search::Answer;
use crate::timing::{Ring, Side};
use crate::words::Shape;

/// The words, each with the signs of LENGTH values.
struct Products<const LENGTH: usize> {
    words: Vec<[i16; LENGTH]>,
}

impl<const LENGTH: usize> Products<LENGTH> {
    /// The signs of a word are its soft values at level 1.
    fn new(h: usize, words: &[Vec<u8>]) -> Self {
        let signs = |word: &Vec<u8>| tones(h, word, 1).try_into().expect("a sign for each value");
        Products { words: words.iter().map(signs).collect() }
    }

    #[inline]
    fn search(&self, values: &[i16]) -> Answer {
        let values: &[i16; LENGTH] = values.try_into().expect("a value for each sign");
        let mut best = Answer::NONE;
        for (message, word) in self.words.iter().enumerate() {
            let mut sum = 0;
            for (sign, value) in word.iter().zip(values) {
                sum += *sign as i32 * *value as i32;
            }
            best.hear(message, sum);
        }
        best
    }
}

/// Adds the products.
pub fn add(ring: &mut Ring<i16>, shape: Shape, words: &[Vec<u8>]) {
    match shape.h * shape.places() {
        4 => one::<4>(ring, shape, words),
        8 => one::<8>(ring, shape, words),
        16 => one::<16>(ring, shape, words),
        32 => one::<32>(ring, shape, words),
        _ => one::<64>(ring, shape, words),
    }
}

fn one<const LENGTH: usize>(ring: &mut Ring<i16>, shape: Shape, words: &[Vec<u8>]) {
    let products = Products::<LENGTH>::new(shape.h, words);
    ring.decoder(Side::Brute, "products", move |values| products.search(values));
}
