//! Paths: the orders p of the numbers 1..m with p(1) < p(m), numbered from 0 in dictionary order.

use std::sync::OnceLock;

/// p(1), .., p(m).
pub type Path = Vec<u32>;

/// All lists of m numbers are gone through, so m is small.
const MOST: usize = 8;

/// All m!/2 paths of m digits, in use or not; made once for each m.
pub fn paths(m: u32) -> &'static [Path] {
    static PATHS: [OnceLock<Vec<Path>>; MOST] = [const { OnceLock::new() }; MOST];
    PATHS[m as usize].get_or_init(|| orders(m).filter(|p| p[0] < p[p.len() - 1]).collect())
}

/// All orders of 1..m in dictionary order: all lists of m numbers from 1..m, kept where no number comes twice.
fn orders(m: u32) -> impl Iterator<Item = Path> {
    let list = move |number: u32| (1..=m).map(|k| number / m.pow(m - k) % m + 1).collect::<Path>();
    (0..m.pow(m)).map(list).filter(move |p| (1..=m).all(|k| p.contains(&k)))
}
