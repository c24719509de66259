//! Hard decoding: clean words of every path, words damaged well beyond half the distance, equal symbols, random words.

use super::{ends, in_use, not_in_use, word_of, Cases};
use crate::shape::Shape;

/// Received words whose nearest words are several and of one path. Chance seldom meets them: of all 2^16 words of
/// h = 1, m = 4 none is such, and of h = 1, m = 5 some one in ten thousand.
const TIED_IN_A_PATH: &[&str] = &[
    "hard 2 3 [02221322]",
    "hard 2 3 [12311130]",
    "hard 2 4 [1131120113333221]",
    "hard 2 4 [1232210022031333]",
    "hard 1 5 [01110001101011110000001100111111]",
    "hard 1 5 [10101011000100110101011011111100]",
    "hard 2 5 [12230300211300223230222120313330]",
    "hard 2 5 [21121023332123211001031230322333]",
];

pub fn add(cases: &mut Cases) {
    // A clean word is at distance 0 from its path's words alone: a search of other paths than those in use shows.
    cases.family("hard decoding: clean words of every path in use, then of those not in use");
    for shape in Shape::decoded() {
        for path in in_use(shape).chain(not_in_use(shape)) {
            let word = cases.word_of_path(shape, path);
            cases.hard(shape.h(), shape.m(), &word);
        }
    }
    cases.family("hard decoding: first and last message, damaged, all equal, random");
    for shape in Shape::decoded() {
        let (h, m, carriers) = (shape.h(), shape.m(), shape.carriers());
        for message in ends(shape) {
            cases.hard(h, m, &word_of(shape, message));
        }
        for count in 1..=(carriers / 2 + 1) {
            let mut word = cases.word(shape);
            cases.damage(shape, &mut word, count);
            cases.hard(h, m, &word);
        }
        for count in [1, 2, carriers / 4, carriers / 4 + 1, carriers] {
            let mut word = cases.word(shape);
            cases.damage(shape, &mut word, count);
            cases.hard(h, m, &word);
        }
        for symbol in 0..shape.phases() as u8 {
            cases.hard(h, m, &vec![symbol; carriers]);
        }
        for _ in 0..6 {
            let word = cases.random.word(shape.phases(), carriers);
            cases.hard(h, m, &word);
        }
    }
    cases.family("hard decoding: ties of one path alone");
    for line in TIED_IN_A_PATH {
        cases.line(*line);
    }
    cases.family("hard decoding of eight phases: refused");
    for shape in Shape::all().filter(|shape| shape.h() == 3) {
        let word = cases.word(shape);
        cases.hard(3, shape.m(), &word);
    }
}
