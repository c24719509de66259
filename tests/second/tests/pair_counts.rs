//! The counts of the pair check against 001's own form: C_a(u) + C_b(u) = 0 for each shift, in complex numbers.

use second::{encode, pair, partner, Message, Random, Shape};

/// Whether the sum of both words' autocorrelations is 0 at each shift. Sums are far from 0 where they are not 0.
fn golay(shape: Shape, first: &[u8], second: &[u8]) -> bool {
    let turn = std::f64::consts::TAU / f64::from(shape.phases());
    (1..shape.carriers()).all(|shift| {
        let differences = [first, second]
            .into_iter()
            .flat_map(|word| word.iter().zip(&word[shift..]))
            .map(|(&a, &b)| turn * (f64::from(a) - f64::from(b)));
        let (re, im) = differences.fold((0.0, 0.0), |(re, im), angle| (re + angle.cos(), im + angle.sin()));
        re.abs() < 1e-9 && im.abs() < 1e-9
    })
}

/// Every word of a shape's symbols.
fn every_word(shape: Shape) -> Vec<Vec<u8>> {
    let length = shape.carriers() as u32;
    let symbol = |number: u32, place: u32| (number / shape.phases().pow(place) % shape.phases()) as u8;
    (0..shape.phases().pow(length)).map(|number| (0..length).map(|place| symbol(number, place)).collect()).collect()
}

fn agree(shape: Shape, first: &[u8], second: &[u8]) {
    let counted = pair(shape.h(), shape.m(), first, second);
    assert_eq!(counted, Ok(golay(shape, first, second)), "{first:?} {second:?}");
}

#[test]
fn every_two_words_of_the_small_shapes() {
    for (h, m) in [(1, 2), (2, 2), (1, 3)] {
        let shape = Shape::of(h, m).unwrap();
        let words = every_word(shape);
        words.iter().for_each(|first| words.iter().for_each(|second| agree(shape, first, second)));
    }
}

/// The least change is at the ends: it is the one that the greatest shift sees.
#[test]
fn words_and_partners_with_a_change_at_each_place() {
    let mut random = Random::new(11);
    for shape in Shape::all() {
        let message = Message(random.below(shape.messages()));
        let word = encode(shape.h(), shape.m(), message, shape.carriers()).unwrap();
        let other = partner(shape.h(), shape.m(), message, shape.carriers()).unwrap();
        agree(shape, &word, &other);
        for place in 0..shape.carriers() {
            let mut changed = other.clone();
            changed[place] = (changed[place] + 1) % shape.phases() as u8;
            agree(shape, &word, &changed);
        }
    }
}
