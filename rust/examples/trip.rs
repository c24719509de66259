//! A message is sent and comes back damaged. To run it: `cargo run -p sharqudel --example trip`.

use sharqudel::{check, encode, hard, partner, read, refusal, soft, transform, Message, Refusal};
use std::error::Error;

fn shown(word: &[u8]) -> String {
    word.iter().map(|symbol| symbol.to_string()).collect()
}

/// Prints the number of a refusal, and its place if it has one.
fn refused(why: Refusal) {
    match why {
        Refusal::Symbol { place } | Refusal::Value { place } => println!("refused {} at place {place}", why.number()),
        _ => println!("refused {}", why.number()),
    }
}

fn tie(tied: bool) -> &'static str {
    if tied {
        ", tied"
    } else {
        ""
    }
}

fn main() -> Result<(), Box<dyn Error>> {
    let (h, m) = (2, 4); // four phases, sixteen carriers
    let (mut word, mut other) = ([0u8; 16], [0u8; 16]);
    encode(h, m, Message(5120), &mut word)?;
    partner(h, m, Message(5120), &mut other)?;
    println!("word    {}", shown(&word));
    println!("partner {}", shown(&other));
    println!("a Golay pair: {}", if check(h, m, &word, &other)? { "yes" } else { "no" });

    // what a receiver hears of the word: 1, j, -1, -j at a level of 1,000
    let phases = [[1000i16, 0], [0, 1000], [-1000, 0], [0, -1000]];
    let heard: Vec<i16> = word.iter().flat_map(|symbol| phases[*symbol as usize]).collect();
    let found = soft(h, m, &heard)?;
    println!("soft: message {}, correlation {}{}", found.message, found.correlation, tie(found.tied));

    word[3] = 3;
    println!("damaged {}", shown(&word));
    if let Err(why) = read(h, m, &word) {
        refused(why);
    }
    let found = hard(h, m, &word)?;
    println!("hard: message {}, distance {}{}", found.message, found.distance, tie(found.tied));
    word[5] = 4;
    if let Err(why) = hard(h, m, &word) {
        refused(why);
    }

    let (mut first, mut second) = ([1, 2, 3, 4], [0; 4]);
    let part = transform(2, &mut first, &mut second)?;
    println!("spectrum {} {} {} {}", part[0], part[1], part[2], part[3]);
    first[2] = 40000;
    if let Some(why) = refusal(2, &first, &second) {
        refused(why);
    }
    Ok(())
}
