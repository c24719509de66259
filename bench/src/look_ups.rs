//! Brute force by look-ups: a table of all words, each in groups of places, and for each group a table of what every
//! run of symbols gains there. The small tables are made for each decoding, since they hold what was received; the
//! table of words is made once. The same for soft and hard decoding, which differ in the gains alone.

use crate::search::Answer;
use crate::timing::{Ring, Side};
use crate::words::Shape;

/// Words in GROUPS groups of places; the symbols of a group are one number below SIZE, the first place lowest.
struct LookUps<const Q: usize, const GROUPS: usize, const SIZE: usize> {
    words: Vec<[u8; GROUPS]>,
}

impl<const Q: usize, const GROUPS: usize, const SIZE: usize> LookUps<Q, GROUPS, SIZE> {
    fn new(words: &[Vec<u8>]) -> Self {
        let packed = |word: &Vec<u8>| {
            let mut groups = [0; GROUPS];
            for (group, symbols) in groups.iter_mut().zip(word.chunks_exact(word.len() / GROUPS)) {
                *group = symbols.iter().rev().fold(0, |number, symbol| number * Q as u8 + symbol);
            }
            groups
        };
        LookUps { words: words.iter().map(packed).collect() }
    }

    /// What each group gains by each of its numbers: place after place, every number so far with every symbol.
    #[inline]
    fn tables(gains: &[[i32; Q]]) -> [[i32; SIZE]; GROUPS] {
        let mut tables = [[0; SIZE]; GROUPS];
        for (table, gains) in tables.iter_mut().zip(gains.chunks_exact(gains.len() / GROUPS)) {
            let mut filled = 1;
            for gain in gains {
                for (symbol, gain) in gain.iter().enumerate().skip(1) {
                    let (low, high) = table.split_at_mut(filled * symbol);
                    high.iter_mut().zip(&low[..filled]).for_each(|(to, from)| *to = from + gain);
                }
                table[..filled].iter_mut().for_each(|sum| *sum += gain[0]);
                filled *= Q;
            }
        }
        tables
    }

    #[inline]
    fn search(&self, gains: &[[i32; Q]]) -> Answer {
        let tables = Self::tables(gains);
        let mut best = Answer::NONE;
        for (message, word) in self.words.iter().enumerate() {
            let mut sum = 0;
            for (table, number) in tables.iter().zip(word) {
                sum += table[*number as usize & (SIZE - 1)];
            }
            best.hear(message, sum);
        }
        best
    }
}

/// Adds the look-ups by place, by four bits and by byte, where the word has so many bits.
pub fn add<T, G, const Q: usize>(ring: &mut Ring<T>, shape: Shape, words: &[Vec<u8>], gains: G)
where
    T: 'static,
    G: Fn(&[T], &mut [[i32; Q]]) + Copy + 'static,
{
    let bits = shape.h * shape.places();
    match shape.places() {
        4 => one::<T, G, Q, 4, Q>(ring, "look-up by place", words, gains),
        8 => one::<T, G, Q, 8, Q>(ring, "look-up by place", words, gains),
        16 => one::<T, G, Q, 16, Q>(ring, "look-up by place", words, gains),
        _ => one::<T, G, Q, 32, Q>(ring, "look-up by place", words, gains),
    }
    match bits / 4 {
        1 => one::<T, G, Q, 1, 16>(ring, "look-up by four bits", words, gains),
        2 => one::<T, G, Q, 2, 16>(ring, "look-up by four bits", words, gains),
        4 => one::<T, G, Q, 4, 16>(ring, "look-up by four bits", words, gains),
        8 => one::<T, G, Q, 8, 16>(ring, "look-up by four bits", words, gains),
        _ => one::<T, G, Q, 16, 16>(ring, "look-up by four bits", words, gains),
    }
    match bits / 8 {
        0 => {}
        1 => one::<T, G, Q, 1, 256>(ring, "look-up by byte", words, gains),
        2 => one::<T, G, Q, 2, 256>(ring, "look-up by byte", words, gains),
        4 => one::<T, G, Q, 4, 256>(ring, "look-up by byte", words, gains),
        _ => one::<T, G, Q, 8, 256>(ring, "look-up by byte", words, gains),
    }
}

fn one<T, G, const Q: usize, const GROUPS: usize, const SIZE: usize>(
    ring: &mut Ring<T>,
    name: &'static str,
    words: &[Vec<u8>],
    gains: G,
) where
    T: 'static,
    G: Fn(&[T], &mut [[i32; Q]]) + 'static,
{
    let table = LookUps::<Q, GROUPS, SIZE>::new(words);
    let places = words[0].len();
    ring.decoder(Side::Brute, name, move |received| {
        let mut room = [[0; Q]; 32];
        gains(received, &mut room[..places]);
        table.search(&room[..places])
    });
}
