//! Two words that are unbalanced at one shift and one phase alone: a check that leaves these out says yes.
//!
//! Those of m = 2 come from a search of all words, and some of m = 3 stand here. From these come others: for m + 1 by
//! joining both words, for h + 1 by doubling symbols. Of m = 2, of m = 3 and of h = 1, m = 4 each shift and phase that
//! has such words has them here. A full search finds none, whatever the phase, for h = 1, m = 2 at shift 3; h = 1,
//! m = 3 at shifts 3, 5, 7; h = 2, m = 3 at shift 7; h = 1, m = 4 at shifts 3, 5, 7, 9, 10, 11, 13, 14, 15.

use super::Cases;
use crate::pairs::balanced;
use crate::shape::Shape;

/// h and two words of m = 3: for h = 2 at shift 5, for h = 3 at shifts 5 and 7, phase by phase.
const FOUND: &[(u32, [u8; 8], [u8; 8])] = &[
    (2, *b"00010232", *b"00230210"),
    (2, *b"03310100", *b"03130122"),
    (3, *b"06511300", *b"06151344"),
    (3, *b"02733100", *b"00315124"),
    (3, *b"05266010", *b"01066250"),
    (3, *b"04016113", *b"06452133"),
    (3, *b"07406012", *b"03606652"),
    (3, *b"02676111", *b"04632531"),
];

pub fn add(cases: &mut Cases) {
    cases.family("pairs: no pair, at one shift and one phase alone");
    for shape in Shape::all() {
        for near in near(shape) {
            cases.pair(shape.h(), shape.m(), &near.first, &near.second);
        }
    }
}

struct Near {
    shift: usize,
    phase: u32,
    first: Vec<u8>,
    second: Vec<u8>,
}

/// At most one for each shift and phase.
fn near(shape: Shape) -> Vec<Near> {
    let mut all = searched(shape);
    let found = FOUND.iter().filter(|(h, ..)| (*h, 3) == (shape.h(), shape.m()));
    let symbols = |digits: &[u8; 8]| digits.map(|digit| digit - b'0');
    all.extend(found.filter_map(|(_, first, second)| fault(shape, &symbols(first), &symbols(second))));
    for small in Shape::of(shape.h(), shape.m() - 1).map_or(Vec::new(), near) {
        all.push(joined(shape, &small, small.shift, |a, b| [a, b].concat()));
        all.push(joined(shape, &small, 2 * small.shift, |a, b| a.iter().zip(b).flat_map(|(&a, &b)| [a, b]).collect()));
    }
    all.extend(Shape::of(shape.h() - 1, shape.m()).map_or(Vec::new(), near).into_iter().map(finer));
    all.sort_by_key(|near| (near.shift, near.phase));
    all.dedup_by_key(|near| (near.shift, near.phase));
    all
}

/// From words a and b: a with b, and a with b half a turn on. What is unbalanced stays so, and nothing else.
fn joined(shape: Shape, small: &Near, shift: usize, join: fn(&[u8], &[u8]) -> Vec<u8>) -> Near {
    let turned: Vec<u8> = small.second.iter().map(|&symbol| shape.modulo(symbol + shape.half() as u8)).collect();
    let (first, second) = (join(&small.first, &small.second), join(&small.first, &turned));
    Near { shift, phase: small.phase, first, second }
}

/// The same words in twice as many phases.
fn finer(near: Near) -> Near {
    let twice = |word: Vec<u8>| word.into_iter().map(|symbol| 2 * symbol).collect();
    Near { phase: 2 * near.phase, first: twice(near.first), second: twice(near.second), ..near }
}

/// Every two words that begin with 0 where these are few: a constant more changes no count.
fn searched(shape: Shape) -> Vec<Near> {
    let places = shape.carriers() as u32;
    let Some(count) = shape.phases().checked_pow(places - 1).filter(|&count| count <= 512) else {
        return Vec::new();
    };
    let word = |number: u32| -> Vec<u8> {
        let symbol = |place: u32| number * shape.phases() / shape.phases().pow(place) % shape.phases();
        (0..places).map(|place| symbol(place) as u8).collect()
    };
    let words: Vec<Vec<u8>> = (0..count).map(word).collect();
    let pairs = words.iter().flat_map(|first| words.iter().map(move |second| (first, second)));
    pairs.filter_map(|(first, second)| fault(shape, first, second)).collect()
}

/// The shift and the phase below half a turn that are unbalanced, where these are one alone.
fn fault(shape: Shape, first: &[u8], second: &[u8]) -> Option<Near> {
    let all = (1..shape.carriers()).flat_map(|shift| (0..shape.half()).map(move |phase| (shift, phase)));
    let mut faults = all.filter(|&(shift, phase)| !balanced(shape, first, second, shift, phase));
    let (shift, phase) = faults.next()?;
    faults.next().is_none().then(|| Near { shift, phase, first: first.to_vec(), second: second.to_vec() })
}
