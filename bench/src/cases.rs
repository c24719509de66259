//! The cases: soft and hard decoding for two and four phases and every m, and the transform for every m.

use crate::channel::{damaged, noisy, tones};
use crate::draw::Draw;
use crate::search::{hard_gains, soft_gains, Answer};
use crate::timing::{Case, Ring, Side, Way, RING};
use crate::words::Shape;
use crate::{bits, look_ups, plain, products};

const DECODERS: [&str; 2] = ["the quickest brute force", "the plain one"];
const TRANSFORMS: [&str; 2] = ["the plain loop", "the sum"];

/// All cases, with inputs from a seed.
pub fn all(seed: u64) -> Vec<Case> {
    let mut draw = Draw::new(seed);
    let mut cases = Vec::new();
    for h in [1, 2] {
        for m in 2..=5 {
            cases.push(soft(Shape { h, m }, &mut draw));
        }
    }
    for h in [1, 2] {
        for m in 2..=5 {
            cases.push(hard(Shape { h, m }, &mut draw));
        }
    }
    for m in 2..=5 {
        cases.push(transform(m, &mut draw));
    }
    cases
}

fn name(call: &str, shape: Shape) -> String {
    format!("{call} h={} m={}", shape.h, shape.m)
}

/// Soft decoding: words with noise in one half of the ring, values of the whole range in the other; then all zeros and
/// both ends of the range.
fn soft(shape: Shape, draw: &mut Draw) -> Case {
    let words = shape.words();
    let (level, length) = (4000, shape.h * shape.places());
    let mut inputs: Vec<Vec<i16>> = (0..RING)
        .map(|k| {
            if k % 2 == 0 {
                let word = &words[draw.below(words.len())];
                noisy(draw, &tones(shape.h, word, level), level as i64)
            } else {
                (0..length).map(|_| (draw.below(1 << 16) as i32 - (1 << 15)) as i16).collect()
            }
        })
        .collect();
    inputs.extend([0, i16::MIN, i16::MAX].map(|value| vec![value; length]));

    let mut ring = Ring::new(inputs);
    let (h, m) = (shape.h as u32, shape.m as u32);
    ring.decoder(Side::Library, "library", move |values| match sharqudel::soft(h, m, values) {
        Ok(told) => Answer { message: told.message.0 as usize, score: told.correlation, tied: told.tied },
        Err(_) => Answer::NONE,
    });
    match shape.h {
        1 => look_ups::add(&mut ring, shape, &words, soft_gains::<2>),
        _ => look_ups::add(&mut ring, shape, &words, soft_gains::<4>),
    }
    products::add(&mut ring, shape, &words);
    plain::add_soft(&mut ring, shape);
    ring.case(name("soft", shape), DECODERS)
}

/// Hard decoding: damaged words in one half of the ring, any symbols in the other; then one symbol at every place.
fn hard(shape: Shape, draw: &mut Draw) -> Case {
    let words = shape.words();
    let (places, q) = (shape.places(), shape.phases());
    let mut inputs: Vec<Vec<u8>> = (0..RING)
        .map(|k| {
            if k % 2 == 0 {
                let word = &words[draw.below(words.len())];
                let weight = draw.below(places / 2);
                damaged(draw, shape.h, word, weight)
            } else {
                (0..places).map(|_| draw.below(q) as u8).collect()
            }
        })
        .collect();
    inputs.extend((0..q).map(|symbol| vec![symbol as u8; places]));

    let mut ring = Ring::new(inputs);
    let (h, m) = (shape.h as u32, shape.m as u32);
    ring.decoder(Side::Library, "library", move |symbols| match sharqudel::hard(h, m, symbols) {
        Ok(told) => Answer { message: told.message.0 as usize, score: -(told.distance as i32), tied: told.tied },
        Err(_) => Answer::NONE,
    });
    match shape.h {
        1 => look_ups::add(&mut ring, shape, &words, hard_gains::<2>),
        _ => look_ups::add(&mut ring, shape, &words, hard_gains::<4>),
    }
    bits::add(&mut ring, shape, &words);
    plain::add_hard(&mut ring, shape);
    ring.case(name("hard", shape), DECODERS)
}

/// The transform as a way. Each call has its input copied to the first area, since the stages write there too.
struct Areas<F> {
    m: u32,
    areas: [[i32; 32]; 2],
    transform: F,
}

impl<F: for<'a> Fn(u32, &'a mut [i32], &'a mut [i32]) -> &'a [i32]> Way<i32> for Areas<F> {
    #[inline]
    fn answer(&mut self, input: &[i32]) -> &[i32] {
        let n = 1 << self.m;
        let [first, second] = &mut self.areas;
        first[..n].copy_from_slice(input);
        (self.transform)(self.m, &mut first[..n], &mut second[..n])
    }
}

/// The library's transform; a refusal gives no numbers, which is no spectrum.
#[inline]
fn library<'a>(m: u32, first: &'a mut [i32], second: &'a mut [i32]) -> &'a [i32] {
    sharqudel::transform(m, first, second).unwrap_or(&[])
}

/// The transform: values of the whole range; then all zeros and both ends of the range.
fn transform(m: u32, draw: &mut Draw) -> Case {
    let n = 1 << m;
    let mut inputs: Vec<Vec<i32>> =
        (0..RING).map(|_| (0..n).map(|_| draw.below(1 << 16) as i32 - (1 << 15)).collect()).collect();
    inputs.extend([0, -32768, 32767].map(|value| vec![value; n]));

    let mut ring = Ring::new(inputs);
    let areas = [[0; 32]; 2];
    ring.way(Side::Library, "library", Areas { m, areas, transform: library });
    ring.way(Side::Brute, "plain loop", Areas { m, areas, transform: plain::stages });
    ring.way(Side::Plain, "sum", Areas { m, areas, transform: plain::sums });
    ring.case(format!("transform m={m}"), TRANSFORMS)
}
