//! What the calls are given: mostly words and values such as a receiver has, and among them all that can be wrong.

use second::{encode, messages, partner, Message, Random, Shape, GREATEST_H, GREATEST_M};

const EXTREMES: [i64; 5] = [-32768, -32767, 0, 32766, 32767];
const OUTSIDE: [i64; 6] = [32768, -32769, 65536, -65536, i32::MAX as i64, i32::MIN as i64];

/// One time in n.
fn one_in(random: &mut Random, n: u64) -> bool {
    random.below(n) == 0
}

fn one_of<T: Copy>(random: &mut Random, from: &[T]) -> T {
    from[random.below(from.len() as u64) as usize]
}

fn in_shape(h: u32, m: u32) -> bool {
    Shape::of(h, m).is_some()
}

/// A shape, now and then one out of range, also one that would be in range with its upper bits cut off.
pub fn shape(random: &mut Random) -> (u32, u32) {
    let wrong_h = [0, 4, 5, 17, 32, 33, 64, 65, 255, 257, 65537, u32::MAX];
    let wrong_m = [0, 1, GREATEST_M + 1, GREATEST_M + 2, 18, 32, 34, 63, 64, 66, 255, 258, 65538, u32::MAX];
    let mut h = 1 + random.below(u64::from(GREATEST_H)) as u32;
    let mut m = 2 + random.below(u64::from(GREATEST_M) - 1) as u32;
    if one_in(random, 16) {
        h = one_of(random, &wrong_h);
    }
    if one_in(random, 16) {
        m = one_of(random, &wrong_m);
    }
    (h, m)
}

/// N, now and then another length; any length where the shape is out of range.
fn length(random: &mut Random, h: u32, m: u32, right: usize) -> usize {
    if !in_shape(h, m) {
        return random.below(70) as usize;
    }
    if one_in(random, 16) {
        return one_of(random, &[0, 1, right - 1, right + 1, 2 * right, right / 2]);
    }
    right
}

/// A message number, now and then one that is too large.
pub fn message(random: &mut Random, h: u32, m: u32) -> Message {
    Message(message_number(random, h, m))
}

fn message_number(random: &mut Random, h: u32, m: u32) -> u64 {
    if !in_shape(h, m) || one_in(random, 16) {
        return one_of(random, &[0, 1, u64::MAX, 1 << 63, 1 << 32]);
    }
    let all = messages(h, m);
    match random.below(16) {
        0 => one_of(random, &[0, 1, all - 1, all, all + 1]),
        _ => random.below(all),
    }
}

/// What an output holds before.
pub fn output(random: &mut Random, h: u32, m: u32) -> Vec<u8> {
    let right = if in_shape(h, m) { 1 << m } else { 16 };
    let length = length(random, h, m, right);
    (0..length).map(|_| random.below(256) as u8).collect()
}

/// A message's word, or its partner.
fn sent(random: &mut Random, h: u32, m: u32) -> Vec<u8> {
    let message = Message(random.below(messages(h, m)));
    let call = if one_in(random, 4) { partner } else { encode };
    call(h, m, message, 1 << m).expect("a message of the shape")
}

/// A word as it is received: a word that was sent, often damaged; now and then any symbols, or bad ones, or too many.
pub fn word(random: &mut Random, h: u32, m: u32) -> Vec<u8> {
    if !in_shape(h, m) {
        return output(random, h, m);
    }
    let (n, q) = (1usize << m, 1u64 << h);
    let mut word = sent(random, h, m);
    for _ in 0..random.below(4) * random.below(n as u64 / 2) {
        word[random.below(n as u64) as usize] = random.below(q) as u8;
    }
    if one_in(random, 8) {
        word.iter_mut().for_each(|symbol| *symbol = random.below(q) as u8);
    }
    while one_in(random, 12) {
        let bad = one_of(random, &[q, q + 1, 2 * q, 255]) as u8;
        word[random.below(n as u64) as usize] = bad;
    }
    let length = length(random, h, m, n);
    word.resize(length, random.below(q) as u8);
    word
}

/// Two words for the pair check: a word and its partner, plus a constant each, sometimes damaged; or any two.
pub fn two_words(random: &mut Random, h: u32, m: u32) -> (Vec<u8>, Vec<u8>) {
    if !in_shape(h, m) || one_in(random, 3) {
        return (word(random, h, m), word(random, h, m));
    }
    let (n, q) = (1usize << m, 1u64 << h);
    let message = Message(random.below(messages(h, m)));
    let mut pair = [encode, partner].map(|call| {
        let turn = random.below(q) as u8;
        let word = call(h, m, message, n).expect("a message of the shape");
        word.iter().map(|symbol| (symbol + turn) % q as u8).collect::<Vec<u8>>()
    });
    if one_in(random, 4) {
        pair[random.below(2) as usize][random.below(n as u64) as usize] = random.below(q + 1) as u8;
    }
    if one_in(random, 2) {
        pair.reverse();
    }
    pair.into()
}

/// Soft values: a word at a level with noise, cut off at the ends of sixteen bits; or extremes; or any values.
pub fn values(random: &mut Random, h: u32, m: u32) -> Vec<i16> {
    let known = in_shape(h, m) && h <= 2;
    let right = if known { 1usize << (h - 1 + m) } else { 32 };
    let mut values: Vec<i64> = vec![0; right];
    match random.below(8) {
        0 => values.iter_mut().for_each(|value| *value = one_of(random, &EXTREMES)),
        1 => values.iter_mut().for_each(|value| *value = random.range(-32768, 32767)),
        2 => values.iter_mut().for_each(|value| *value = random.range(-1, 1)),
        3 => values.fill(one_of(random, &EXTREMES)),
        _ if known => {
            let level = one_of(random, &[1, 100, 10000, 32767, 32768]);
            let noise = level * random.range(0, 20) / 10;
            let half = 1usize << (h - 1);
            for (place, symbol) in sent(random, h, m).into_iter().enumerate() {
                let (at, sign) = (symbol as usize % half, 1 - 2 * (symbol as usize / half) as i64);
                values[half * place + at] = sign * level;
            }
            values.iter_mut().for_each(|value| *value += random.range(-noise, noise));
        }
        _ => {}
    }
    let length = length(random, h, m, right);
    values.resize(length, 0);
    values.into_iter().map(|value| value.clamp(-32768, 32767) as i16).collect()
}

/// Both areas of a transform: often longer than N, now and then shorter, or with a value out of range.
pub fn areas(random: &mut Random, m: u32) -> (Vec<i32>, Vec<i32>) {
    let n = if in_shape(1, m) { 1u64 << m } else { 8 };
    let lengths =
        [0, 1].map(|_| if one_in(random, 16) { random.below(n) } else { n + random.below(3) * random.below(9) });
    let mut first: Vec<i32> = match random.below(4) {
        0 => (0..lengths[0]).map(|_| one_of(random, &EXTREMES) as i32).collect(),
        1 => (0..lengths[0]).map(|_| random.range(-3, 3) as i32).collect(),
        _ => (0..lengths[0]).map(|_| random.range(-32768, 32767) as i32).collect(),
    };
    while !first.is_empty() && one_in(random, 8) {
        let at = random.below(first.len() as u64) as usize;
        first[at] = one_of(random, &OUTSIDE) as i32;
    }
    let second = (0..lengths[1]).map(|_| random.range(i32::MIN as i64, i32::MAX as i64) as i32).collect();
    (first, second)
}
