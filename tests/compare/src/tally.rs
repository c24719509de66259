//! What came of the cases: how often each call gave an answer or a refusal, and the cases on which the two differ.

use std::collections::BTreeMap;

/// One case: the call as a line, its name, the number of its refusal (0 where it gives), and both answers as text.
pub struct Made {
    pub call: String,
    pub name: &'static str,
    pub kind: u32,
    pub library: String,
    pub second: String,
}

/// The refusals of each call in the table of document 01.
const REFUSALS: [(&str, &[u32]); 8] = [
    ("encode", &[1, 2, 4]),
    ("partner", &[1, 2, 4]),
    ("pair", &[1, 2, 3]),
    ("read", &[1, 2, 3, 5]),
    ("soft", &[1, 6, 2]),
    ("hard", &[1, 6, 2, 3]),
    ("transform", &[1, 2, 7]),
    ("refusal", &[1, 2, 7]),
];

pub struct Tally {
    seen: BTreeMap<(&'static str, u32), u64>,
    different: usize,
}

impl Tally {
    pub fn new() -> Tally {
        Tally { seen: BTreeMap::new(), different: 0 }
    }

    pub fn enter(&mut self, number: u64, made: Made) {
        *self.seen.entry((made.name, made.kind)).or_default() += 1;
        if made.library != made.second {
            self.different += 1;
            if self.different <= 10 {
                println!("case {number} differs: {}", made.call);
                println!("  library: {}\n  second:  {}", made.library, made.second);
            }
        }
    }

    pub fn join(&mut self, other: Tally) {
        for (what, count) in other.seen {
            *self.seen.entry(what).or_default() += count;
        }
        self.different += other.different;
    }

    pub fn different(&self) -> usize {
        self.different
    }

    /// The outcomes that never came up.
    pub fn missing(&self) -> Vec<String> {
        let mut missing = Vec::new();
        for (name, kinds) in REFUSALS {
            for kind in [0].iter().chain(kinds) {
                if !self.seen.contains_key(&(name, *kind)) {
                    missing.push(format!("{name} {kind}"));
                }
            }
        }
        missing
    }

    pub fn print(&self) {
        for (name, kinds) in REFUSALS {
            let count = |kind| self.seen.get(&(name, kind)).copied().unwrap_or(0);
            print!("{name}: {} given", count(0));
            for kind in kinds {
                print!(", {} refused {kind}", count(*kind));
            }
            println!();
        }
    }
}
