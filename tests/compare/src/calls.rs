//! Each call both ways, on what is drawn for it. Both answers are told in one form, the answer of the call, what its
//! slices hold afterwards and whether nothing beside them was written, so that they can be compared as they stand.

use crate::draw;
use crate::guard::Guarded;
use crate::tally::Made;
use second::{Message, No, Random};
use sharqudel::{PairRefusal, Refusal, Which};
use std::fmt::Debug;

/// A refusal of the library, as the second program tells it.
fn no(refusal: Refusal) -> No {
    let place = match refusal {
        Refusal::Symbol { place } | Refusal::Value { place } => Some(place),
        _ => None,
    };
    No { kind: refusal.number(), place, word: None }
}

/// A message of the library, as the second program tells it.
fn told(message: sharqudel::Message) -> Message {
    Message(message.0)
}

fn no_of_pair(why: PairRefusal) -> No {
    let word = why.word.map(|word| match word {
        Which::First => 1,
        Which::Second => 2,
    });
    No { word, ..no(why.refusal) }
}

/// A case, with the slices as the library leaves them and as they are to be left.
fn made<A: Debug, S: Debug>(
    name: &'static str,
    call: String,
    library: (Result<A, No>, S, bool),
    second: (Result<A, No>, S),
) -> Made {
    let kind = second.0.as_ref().err().map_or(0, |no| no.kind);
    let (answer, slices, whole) = library;
    let beside = if whole { "" } else { ", and written beside a slice" };
    let library = format!("{answer:?} {slices:?}{beside}");
    Made { call, name, kind, library, second: format!("{:?} {:?}", second.0, second.1) }
}

/// A case of a call that writes no slice.
fn made_reading<A: Debug>(name: &'static str, call: String, library: Result<A, No>, second: Result<A, No>) -> Made {
    made(name, call, (library, (), true), (second, ()))
}

fn sending(random: &mut Random, name: &'static str) -> Made {
    let (h, m) = draw::shape(random);
    let (message, before) = (draw::message(random, h, m), draw::output(random, h, m));
    let given = sharqudel::Message(message.0);
    let mut out = Guarded::new(&before, 251);
    let (answer, right) = if name == "encode" {
        (sharqudel::encode(h, m, given, out.lent()), second::encode(h, m, message, before.len()))
    } else {
        (sharqudel::partner(h, m, given, out.lent()), second::partner(h, m, message, before.len()))
    };
    let after = right.clone().unwrap_or_else(|_| before.clone());
    let library = (answer.map_err(no), out.contents().to_vec(), out.whole());
    made(name, format!("{name} {h} {m} {message} {before:?}"), library, (right.map(|_| ()), after))
}

fn pairing(random: &mut Random) -> Made {
    let (h, m) = draw::shape(random);
    let (first, second) = draw::two_words(random, h, m);
    let answer = sharqudel::check(h, m, &first, &second).map_err(no_of_pair);
    let right = second::pair(h, m, &first, &second);
    made_reading("pair", format!("pair {h} {m} {first:?} {second:?}"), answer, right)
}

fn reading(random: &mut Random) -> Made {
    let (h, m) = draw::shape(random);
    let word = draw::word(random, h, m);
    let answer = sharqudel::read(h, m, &word).map(told).map_err(no);
    made_reading("read", format!("read {h} {m} {word:?}"), answer, second::read(h, m, &word))
}

fn hearing(random: &mut Random) -> Made {
    let (h, m) = draw::shape(random);
    let values = draw::values(random, h, m);
    let answer = sharqudel::soft(h, m, &values).map(|a| (told(a.message), a.correlation as i64, a.tied)).map_err(no);
    let right = second::soft(h, m, &values).map(|a| (a.message, a.value, a.tied));
    made_reading("soft", format!("soft {h} {m} {values:?}"), answer, right)
}

fn matching(random: &mut Random) -> Made {
    let (h, m) = draw::shape(random);
    let word = draw::word(random, h, m);
    let answer = sharqudel::hard(h, m, &word).map(|a| (told(a.message), a.distance as i64, a.tied)).map_err(no);
    let right = second::hard(h, m, &word).map(|a| (a.message, a.value, a.tied));
    made_reading("hard", format!("hard {h} {m} {word:?}"), answer, right)
}

/// The part, and in which area it stands, which shows by where it begins.
fn transforming(random: &mut Random) -> Made {
    let (_, m) = draw::shape(random);
    let (a, b) = draw::areas(random, m);
    let (mut first, mut second) = (Guarded::new(&a, 77), Guarded::new(&b, 77));
    let front = first.contents().as_ptr();
    let answer = sharqudel::transform(m, first.lent(), second.lent())
        .map(|part| (part.to_vec(), part.as_ptr() == front))
        .map_err(no);
    let slices = (first.contents().to_vec(), second.contents().to_vec());
    let library = (answer, slices, first.whole() && second.whole());
    let right = match second::transform(m, &a, &b) {
        Ok(areas) => (Ok((areas.part, areas.in_first)), (areas.first, areas.second)),
        Err(no) => (Err(no), (a.clone(), b.clone())),
    };
    made("transform", format!("transform {m} {a:?} {b:?}"), library, right)
}

fn asking(random: &mut Random) -> Made {
    let (_, m) = draw::shape(random);
    let (a, b) = draw::areas(random, m);
    let answer = sharqudel::refusal(m, &a, &b).map_or(Ok(()), |why| Err(no(why)));
    let right = second::transform(m, &a, &b).map(|_| ());
    made_reading("refusal", format!("refusal {m} {a:?} {b:?}"), answer, right)
}

/// Case `number` of a seed.
pub fn case(number: u64, seed: u64) -> Made {
    let random = &mut Random::new(Random::new(seed).next() ^ number);
    match random.below(8) {
        0 => sending(random, "encode"),
        1 => sending(random, "partner"),
        2 => pairing(random),
        3 => reading(random),
        4 => hearing(random),
        5 => matching(random),
        6 => transforming(random),
        _ => asking(random),
    }
}
