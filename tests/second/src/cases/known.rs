//! 01's "Known words", literally.

use super::Cases;
use crate::messages::Message;
use crate::shape::{Shape, GREATEST_M};

pub fn add(cases: &mut Cases) {
    cases.family("01's known words");
    for line in LINES {
        cases.line(*line);
    }
    let out_of_range = [(2, 1), (2, GREATEST_M + 1), (0, 2), (4, 2)];
    for call in ["encode", "partner"] {
        for (h, m) in out_of_range {
            cases.write(call, h, m, Message(0), &[9; 4]);
        }
    }
    for (h, m) in out_of_range {
        cases.pair(h, m, &[0, 0, 0, 2], &[0, 0, 2, 0]);
        cases.read(h, m, &[0, 0, 0, 2]);
        cases.hard(h, m, &[0, 0, 0, 2]);
        cases.soft(h, m, &[0; 8]);
    }
    for shape in Shape::decoded() {
        cases.soft(shape.h(), shape.m(), &vec![0; shape.soft_values()]);
    }
}

const LINES: &[&str] = &[
    "encode 2 2 0 [9999]",
    "partner 2 2 0 [9999]",
    "pair 2 2 [0002] [0020]",
    "encode 2 2 27 [9999]",
    "partner 2 2 27 [9999]",
    "pair 2 2 [3100] [3122]",
    "encode 1 3 0 [99999999]",
    "encode 1 3 31 [99999999]",
    "partner 1 3 31 [99999999]",
    "pair 1 3 [10000010] [10001101]",
    "encode 2 4 0 [9999999999999999]",
    "read 2 4 [0002002000022202]",
    "encode 2 4 5120 [9999999999999999]",
    "read 2 4 [0002002002000222]",
    "encode 1 4 255 [9999999999999999]",
    "encode 1 4 256 [9999999999999999]",
    "partner 1 4 255 [9999999999999999]",
    "partner 1 4 256 [9999999999999999]",
    "encode 3 2 511 [9999]",
    "encode 3 2 512 [9999]",
    "partner 3 2 511 [9999]",
    "partner 3 2 512 [9999]",
    "encode 1 2 1 [9999]",
    "soft 1 2 [-32768 -32768 -32768 -32768]",
    "hard 1 2 [1111]",
    "read 1 2 [1111]",
    "hard 1 4 [1001001000011101]",
    "pair 2 4 [0002002000022202] [0002002000022202]",
    // The path 2314, number 8, in two, four and eight phases.
    "read 1 4 [0000001101100101]",
    "read 2 4 [0000002202200202]",
    "read 3 4 [0000004404400404]",
];
