//! Brute force for hard decoding by counting bits. With two phases a symbol is one bit, with four phases the two bits
//! of the Gray code (00, 01, 11, 10), so that 01's distance is the number of bits that differ. The table of all words
//! is stored bit by bit: one number holds the same bit of 64 words. What differs is added up for all of them at once,
//! by full adders that carry from one binary digit of the distances to the next.

use crate::search::Answer;
use crate::timing::{Ring, Side};
use crate::words::Shape;

/// The bits of symbols, place after place, each as all ones or all zeros.
#[inline]
fn bits_of<const BITS: usize>(shape: Shape, symbols: &[u8]) -> [u64; BITS] {
    let mut bits = [0; BITS];
    for (bits, symbol) in bits.chunks_exact_mut(shape.h).zip(symbols) {
        let code = if shape.h == 1 { *symbol } else { symbol ^ (symbol >> 1) };
        for (k, bit) in bits.iter_mut().enumerate() {
            *bit = 0u64.wrapping_sub((code >> k & 1) as u64);
        }
    }
    bits
}

/// The same bit of 64 WIDTH words.
type Row<const WIDTH: usize> = [u64; WIDTH];

/// Blocks of words, each with a row for each of BITS bits.
struct Slices<const BITS: usize, const WIDTH: usize> {
    shape: Shape,
    blocks: Vec<[Row<WIDTH>; BITS]>,
    /// Which words of the last block are there.
    last: Row<WIDTH>,
}

impl<const BITS: usize, const WIDTH: usize> Slices<BITS, WIDTH> {
    fn new(shape: Shape, words: &[Vec<u8>]) -> Self {
        let mut last = [0; WIDTH];
        let block = |words: &[Vec<u8>]| {
            let mut rows = [[0; WIDTH]; BITS];
            last = [0; WIDTH];
            for (k, word) in words.iter().enumerate() {
                last[k / 64] |= 1 << (k % 64);
                for (row, bit) in rows.iter_mut().zip(bits_of::<BITS>(shape, word)) {
                    row[k / 64] |= (bit & 1) << (k % 64);
                }
            }
            rows
        };
        let blocks = words.chunks(64 * WIDTH).map(block).collect();
        Slices { shape, blocks, last }
    }

    #[inline]
    fn search(&self, symbols: &[u8]) -> Answer {
        let received = bits_of::<BITS>(self.shape, symbols);
        let mut best = Answer::NONE;
        for (number, block) in self.blocks.iter().enumerate() {
            let mut rows = [[0; WIDTH]; BITS];
            for ((row, stored), bit) in rows.iter_mut().zip(block).zip(received) {
                *row = std::array::from_fn(|k| stored[k] ^ bit);
            }
            let digits = counted(rows);
            let mut near = within(&digits, -(best.score.max(-(BITS as i32))) as usize);
            if number + 1 == self.blocks.len() {
                near = std::array::from_fn(|k| near[k] & self.last[k]);
            }
            if near != [0; WIDTH] {
                hear(&mut best, number * 64 * WIDTH, &digits, near);
            }
        }
        best
    }
}

/// The binary digits of the numbers of bits, lowest first; seven are enough for 64 bits. Rows are added in pairs to the
/// digit; their carries, half as many, are the rows of the next digit. BITS is a power of two.
#[inline]
fn counted<const BITS: usize, const WIDTH: usize>(mut rows: [Row<WIDTH>; BITS]) -> [Row<WIDTH>; 7] {
    let mut digits = [[0; WIDTH]; 7];
    let mut count = BITS;
    for digit in digits.iter_mut() {
        for pair in 0..count / 2 {
            for k in 0..WIDTH {
                let (a, b, c) = (digit[k], rows[2 * pair][k], rows[2 * pair + 1][k]);
                digit[k] = a ^ b ^ c;
                rows[pair][k] = (a & (b ^ c)) | (b & c);
            }
        }
        if count == 1 {
            *digit = rows[0];
        }
        count /= 2;
    }
    digits
}

/// Which words have a number of at most `most`.
#[inline]
fn within<const WIDTH: usize>(digits: &[Row<WIDTH>; 7], most: usize) -> Row<WIDTH> {
    let mut less = [0; WIDTH];
    let mut equal = [u64::MAX; WIDTH];
    for (k, digit) in digits.iter().enumerate().rev() {
        let bound = 0u64.wrapping_sub((most >> k & 1) as u64);
        for j in 0..WIDTH {
            less[j] |= equal[j] & !digit[j] & bound;
            equal[j] &= !(digit[j] ^ bound);
        }
    }
    std::array::from_fn(|j| less[j] | equal[j])
}

/// The least number of those words, and which of them have it.
fn nearest<const WIDTH: usize>(digits: &[Row<WIDTH>; 7], mut words: Row<WIDTH>) -> (i32, Row<WIDTH>) {
    let mut least = 0;
    for (k, digit) in digits.iter().enumerate().rev() {
        let below: Row<WIDTH> = std::array::from_fn(|j| words[j] & !digit[j]);
        if below == [0; WIDTH] {
            least += 1 << k;
        } else {
            words = below;
        }
    }
    (least, words)
}

/// Takes in the nearest of those words; a second one that is as near makes a tie, and more change nothing.
#[cold]
fn hear<const WIDTH: usize>(best: &mut Answer, first: usize, digits: &[Row<WIDTH>; 7], words: Row<WIDTH>) {
    let (distance, words) = nearest(digits, words);
    let bits = (0..64 * WIDTH).filter(|k| words[k / 64] >> (k % 64) & 1 == 1);
    bits.take(2).for_each(|k| best.hear(first + k, -distance));
}

/// Adds the count of bits.
pub fn add(ring: &mut Ring<u8>, shape: Shape, words: &[Vec<u8>]) {
    match (shape.h * shape.places(), words.len() <= 64) {
        (4, _) => one::<4, 1>(ring, shape, words),
        (8, true) => one::<8, 1>(ring, shape, words),
        (8, false) => one::<8, 2>(ring, shape, words),
        (16, _) => one::<16, 2>(ring, shape, words),
        (32, _) => one::<32, 2>(ring, shape, words),
        _ => one::<64, 2>(ring, shape, words),
    }
}

fn one<const BITS: usize, const WIDTH: usize>(ring: &mut Ring<u8>, shape: Shape, words: &[Vec<u8>]) {
    let slices = Slices::<BITS, WIDTH>::new(shape, words);
    ring.decoder(Side::Brute, "bits side by side", move |symbols| slices.search(symbols));
}
