//! What the case lines have of paths: each path in use is an answer, and some ties are of one path alone.

use std::collections::HashSet;

use second::{answer, cases, encode, Label, Message, Shape};

fn path(shape: Shape, message: u64) -> usize {
    Label::of(shape, Message(message)).path
}

/// The paths of the messages that a call answers on a shape, where these are exact and alone.
fn clean_paths(lines: &[String], call: &str, exact: &str, shape: Shape) -> HashSet<usize> {
    let front = format!("{call} {} {} ", shape.h(), shape.m());
    let answers = lines.iter().filter(|line| line.starts_with(&front)).map(|line| answer(line));
    let message = |answer: String| answer.strip_prefix("message ")?.strip_suffix(exact)?.parse().ok();
    answers.filter_map(message).map(|message| path(shape, message)).collect()
}

#[test]
fn each_path_in_use_is_read() {
    let lines = cases::all(1999);
    for shape in Shape::all() {
        assert_eq!(clean_paths(&lines, "read", "", shape).len(), shape.paths_in_use(), "{shape:?}");
    }
}

#[test]
fn each_path_in_use_is_decoded() {
    let lines = cases::all(1999);
    for shape in Shape::decoded() {
        let count = shape.paths_in_use();
        assert_eq!(clean_paths(&lines, "hard", " distance 0 not tied", shape).len(), count, "{shape:?}");
        let clean = format!(" correlation {} not tied", 100 * shape.carriers());
        assert_eq!(clean_paths(&lines, "soft", &clean, shape).len(), count, "{shape:?}");
    }
}

/// Where a symbol stands: 1, -1 for h = 1 and 1, j, -1, -j for h = 2.
fn point(shape: Shape, symbol: u8) -> (i64, i64) {
    [(1, 0), (0, 1), (-1, 0), (0, -1)][usize::from(symbol) * 2 / shape.h() as usize]
}

/// What a soft line hears at each place; a hard line hears its symbols at level 1.
fn heard(shape: Shape, call: &str, given: &str) -> Vec<(i64, i64)> {
    let given = given.trim_matches(['[', ']']);
    if call == "hard" {
        return given.bytes().map(|digit| point(shape, digit - b'0')).collect();
    }
    let values: Vec<i64> = given.split(' ').map(|value| value.parse().unwrap()).collect();
    values.chunks(shape.h() as usize).map(|part| (part[0], part.get(1).copied().unwrap_or(0))).collect()
}

/// The messages of greatest correlation.
fn loudest(shape: Shape, heard: &[(i64, i64)]) -> Vec<u64> {
    let correlation = |message| -> i64 {
        let word = encode(shape.h(), shape.m(), Message(message), shape.carriers()).unwrap();
        let points = word.into_iter().map(|symbol| point(shape, symbol));
        heard.iter().zip(points).map(|(&(re, im), (x, y))| re * x + im * y).sum()
    };
    let all: Vec<i64> = (0..shape.messages()).map(correlation).collect();
    let greatest = all.iter().max().unwrap();
    (0..shape.messages()).filter(|&message| all[message as usize] == *greatest).collect()
}

#[test]
fn some_ties_are_of_one_path_alone() {
    let lines = cases::all(1999);
    for family in ["# hard decoding: ties of one path alone", "# soft decoding: ties of one path alone"] {
        let from = lines.iter().position(|line| line == family).unwrap() + 1;
        let family: Vec<&String> = lines[from..].iter().take_while(|line| !line.starts_with('#')).collect();
        assert!(family.len() > 6);
        for line in family {
            let pieces: Vec<&str> = line.splitn(4, ' ').collect();
            let shape = Shape::of(pieces[1].parse().unwrap(), pieces[2].parse().unwrap()).unwrap();
            let tied = loudest(shape, &heard(shape, pieces[0], pieces[3]));
            assert!(tied.len() > 1 && tied.iter().all(|&one| path(shape, one) == path(shape, tied[0])), "{line}");
            let found = answer(line);
            assert!(found.starts_with(&format!("message {} ", tied[0])) && !found.ends_with("not tied"), "{line}");
        }
    }
}
