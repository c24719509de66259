//! Case lines: one call to a line, one answer to a line. What is no case is answered `not a case`.

use crate::decoding::{hard, read, soft, Found};
use crate::given::Given;
use crate::messages::Message;
use crate::pairs::pair;
use crate::refusal::No;
use crate::spectrum::transform;
use crate::text::{list_text, word_text};
use crate::words::{encode, partner};

/// A line has at most so many bytes.
const LONGEST_LINE: usize = 4_000;

/// The answer to a line, both without the newline.
pub fn answer(line: &str) -> String {
    if line.len() > LONGEST_LINE {
        return "not a case".to_string();
    }
    if line.starts_with('#') {
        return line.to_string();
    }
    answer_call(line).unwrap_or_else(|| "not a case".to_string())
}

fn answer_call(line: &str) -> Option<String> {
    let (call, given) = line.split_once(' ')?;
    let mut given = Given::of(given);
    match call {
        "encode" => written(&mut given, encode),
        "partner" => written(&mut given, partner),
        "pair" => checked(&mut given),
        "read" => {
            let (h, m, word) = given.shape_and_word()?;
            Some(read(h, m, &word).map_or_else(refused, |message| format!("message {message}")))
        }
        "hard" => {
            let (h, m, word) = given.shape_and_word()?;
            Some(hard(h, m, &word).map_or_else(refused, |found| found_text("distance", found)))
        }
        "soft" => {
            let (h, m) = given.shape()?;
            let values = given.list()?;
            given.end()?;
            Some(soft(h, m, &values).map_or_else(refused, |found| found_text("correlation", found)))
        }
        "transform" => given.areas().map(|(m, first, second)| transformed(m, first, second)),
        "run" => given.areas().map(|(m, first, second)| run(m, first, second)),
        "look" => given.areas().map(|(m, first, second)| look(m, first, second)),
        _ => None,
    }
}

/// Encode and partner. The word given is what the slice holds before: it stays where the call is refused.
fn written(given: &mut Given, call: fn(u32, u32, Message, usize) -> Result<Vec<u8>, No>) -> Option<String> {
    let (h, m) = given.shape()?;
    let message = Message(given.number()?);
    given.space()?;
    let slice = given.word()?;
    given.end()?;
    Some(match call(h, m, message, slice.len()) {
        Ok(word) => format!("done {}", word_text(&word)),
        Err(no) => format!("{} {}", refused(no), word_text(&slice)),
    })
}

fn checked(given: &mut Given) -> Option<String> {
    let (h, m) = given.shape()?;
    let first = given.word()?;
    given.space()?;
    let second = given.word()?;
    given.end()?;
    let yes_or_no = |yes| if yes { "yes" } else { "no" }.to_string();
    Some(pair(h, m, &first, &second).map_or_else(refused, yes_or_no))
}

fn transformed(m: u32, first: Vec<i32>, second: Vec<i32>) -> String {
    match transform(m, &first, &second) {
        Ok(after) => format!("part {} {}", list_text(&after.part), areas_text(&after.first, &after.second)),
        Err(no) => format!("{} {}", refused(no), areas_text(&first, &second)),
    }
}

/// How many entries the part has, none where refused.
fn run(m: u32, first: Vec<i32>, second: Vec<i32>) -> String {
    match transform(m, &first, &second) {
        Ok(after) => format!("{} {}", after.part.len(), areas_text(&after.first, &after.second)),
        Err(_) => format!("0 {}", areas_text(&first, &second)),
    }
}

/// Entry 0 of the spectrum, and entry 0 of the area that does not hold it, as both areas then stand.
fn look(m: u32, first: Vec<i32>, second: Vec<i32>) -> String {
    let (total, first, second) = match transform(m, &first, &second) {
        Ok(after) => (after.part[0], after.first, after.second),
        Err(_) => (0, first, second),
    };
    let other = if m.is_multiple_of(2) { &second } else { &first };
    let kept = other.first().copied().unwrap_or(0);
    format!("{total} and {kept} {}", areas_text(&first, &second))
}

fn areas_text(first: &[i32], second: &[i32]) -> String {
    format!("areas {} {}", list_text(first), list_text(second))
}

fn found_text(name: &str, found: Found) -> String {
    let tied = if found.tied { "tied" } else { "not tied" };
    format!("message {} {name} {} {tied}", found.message, found.value)
}

fn refused(no: No) -> String {
    let place = no.place.map_or(String::new(), |place| format!(" at place {place}"));
    let word = no.word.map_or(String::new(), |word| format!(" of word {word}"));
    format!("refused {}{place}{word}", no.kind)
}
