//! Transform, run and look: contents, lengths and values of both areas.

use super::Cases;
use crate::shape::GREATEST_M;

const CALLS: [&str; 3] = ["transform", "run", "look"];
const OUT_OF_RANGE: [i32; 4] = [32_768, -32_769, i32::MAX, i32::MIN];

pub fn add(cases: &mut Cases) {
    cases.family("areas: contents in range, areas longer than N, junk in the second");
    for m in 2..=GREATEST_M {
        contents(cases, m);
    }
    cases.family("areas: values out of range at every place, two at once, and behind N");
    for m in 2..=GREATEST_M {
        values(cases, m);
    }
    cases.family("areas: too short");
    for m in 2..=GREATEST_M {
        lengths(cases, m);
    }
}

fn contents(cases: &mut Cases, m: u32) {
    let carriers = 1 << m;
    for place in 0..carriers {
        let mut first = vec![0; carriers];
        first[place] = 1;
        cases.areas("transform", m, &first, &vec![0; carriers]);
        cases.areas(CALLS[1 + place % 2], m, &first, &vec![5; carriers]);
    }
    for call in CALLS {
        for value in [0, 1, -32_768, 32_767] {
            cases.areas(call, m, &vec![value; carriers], &vec![0; carriers]);
        }
        let alternating: Vec<i32> = (0..carriers).map(|i| if i % 2 == 0 { -32_768 } else { 32_767 }).collect();
        cases.areas(call, m, &alternating, &vec![0; carriers]);
        for (behind_first, behind_second) in [(0, 0), (1, 0), (0, 1), (3, 7), (carriers, carriers)] {
            let mut first = soft(cases, carriers);
            first.extend(any(cases, behind_first));
            let second = any(cases, carriers + behind_second);
            cases.areas(call, m, &first, &second);
        }
    }
}

fn values(cases: &mut Cases, m: u32) {
    let carriers = 1 << m;
    for place in 0..carriers {
        for (number, value) in OUT_OF_RANGE.into_iter().enumerate() {
            let mut first = small(cases, carriers);
            first[place] = value;
            cases.areas("transform", m, &first, &vec![0; carriers]);
            if number == place % 4 {
                cases.areas(CALLS[1 + place / 4 % 2], m, &first, &vec![0; carriers]);
            }
        }
    }
    for call in CALLS {
        for _ in 0..2 {
            let mut first = small(cases, carriers + 2);
            for _ in 0..2 {
                let place = cases.random.below(carriers as u64) as usize;
                first[place] = cases.random.pick(&OUT_OF_RANGE);
            }
            cases.areas(call, m, &first, &vec![1; carriers + 1]);
        }
        for value in OUT_OF_RANGE {
            let mut first = small(cases, carriers + 1);
            first[carriers] = value;
            cases.areas(call, m, &first, &vec![value; carriers]);
        }
    }
}

fn lengths(cases: &mut Cases, m: u32) {
    let carriers = 1 << m;
    let (full, short) = (small(cases, carriers), small(cases, carriers - 1));
    for call in CALLS {
        cases.areas(call, m, &short, &full);
        cases.areas(call, m, &full, &short);
        cases.areas(call, m, &short, &short);
        cases.areas(call, m, &[], &full);
        cases.areas(call, m, &full, &[]);
        cases.areas(call, m, &[], &[]);
        cases.areas(call, m, &full[..1], &full[..2]);
    }
}

/// Entries in the range of soft values.
fn soft(cases: &mut Cases, length: usize) -> Vec<i32> {
    cases.random.values(length).into_iter().map(i32::from).collect()
}

/// Entries of one digit, to keep lines short.
fn small(cases: &mut Cases, length: usize) -> Vec<i32> {
    (0..length).map(|_| cases.random.range(-9, 9) as i32).collect()
}

/// Entries over all of 32 bits.
fn any(cases: &mut Cases, length: usize) -> Vec<i32> {
    (0..length).map(|_| cases.random.next() as i32).collect()
}
