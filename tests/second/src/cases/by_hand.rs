//! Calls written by hand that no other family has, one to a line of by_hand.txt.

use super::Cases;

pub fn add(cases: &mut Cases) {
    cases.family("calls by hand");
    for line in include_str!("by_hand.txt").lines() {
        cases.line(line);
    }
}
