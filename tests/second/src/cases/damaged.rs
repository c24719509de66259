//! Lines that are no case, and some that look so and are one.

use super::Cases;
use crate::given::LONGEST;

pub fn add(cases: &mut Cases) {
    cases.family("damaged lines");
    for line in LINES {
        cases.line(*line);
    }
    cases.line(format!("read 1 2 [{}]", "0".repeat(LONGEST + 1)));
    cases.line(format!("encode 1 2 0 [{}]", "(255)".repeat(LONGEST + 1)));
    cases.line(format!("soft 1 2 [1{}]", " 1".repeat(LONGEST)));
    cases.line(format!("run 2 [1 2 3 4] [0{}]", " 0".repeat(LONGEST)));
    cases.line("[".repeat(300));
    cases.family("odd lines that are cases, and comments");
    for line in ODD {
        cases.line(*line);
    }
}

const ODD: &[&str] = &[
    "#",
    "#encode 2 2 0 [9999]",
    "encode 02 002 00000000000000000000027 [9999]",
    "read 2 2 [0(0010)02]",
    "soft 1 2 [-01 0002 -00003 00]",
    "run 2 [00 -01 2 3] [0 0 0 0]",
];

const LINES: &[&str] = &[
    "",
    " ",
    "0",
    "[]",
    "encode",
    "encode ",
    "Encode 2 2 0 [9999]",
    "encoder 2 2 0 [9999]",
    "decode 2 2 [0002]",
    "check 2 2 [0002] [0020]",
    "encode 2 2 0",
    "encode 2 2 0 ",
    "encode 2 2 [9999]",
    "encode 2 2 0 9999",
    "encode 2 2 0 [9999",
    "encode 2 2 0 9999]",
    "encode 2 2 0 [99 99]",
    "encode 2 2 0 [9999] ",
    " encode 2 2 0 [9999]",
    "encode  2 2 0 [9999]",
    "encode 2  2 0 [9999]",
    "encode 2 2 0  [9999]",
    "encode 2 2 0 [9999] [9999]",
    "encode 2 2 0 0 [9999]",
    "encode 2 2 -1 [9999]",
    "encode 2 2 +1 [9999]",
    "encode 2 2 x [9999]",
    "encode 2 2 18446744073709551616 [9999]",
    "encode 4294967296 2 0 [9999]",
    "encode 2 4294967296 0 [9999]",
    "encode -1 2 0 [9999]",
    "encode 2 2 0 [999(256)]",
    "encode 2 2 0 [999(9)]",
    "encode 2 2 0 [999(10]",
    "encode 2 2 0 [999()]",
    "encode 2 2 0 [999(-10)]",
    "encode 2 2 0 [999a]",
    "partner 2 2 0 (9999)",
    "pair 2 2 [0002]",
    "pair 2 2 [0002][0020]",
    "pair 2 2 [0002] [0020] [0020]",
    "pair 2 2 [0002]  [0020]",
    "read 2 2",
    "read 2 2 0 0 0 2",
    "read 2 2 [0 0 0 2]",
    "read 2 [0002]",
    "hard 1 2 [11-1]",
    "hard 1 2 [1111] x",
    "soft 1 2 [1 2 3 32768]",
    "soft 1 2 [1 2 3 -32769]",
    "soft 1 2 [1 2 3  4]",
    "soft 1 2 [ 1 2 3 4]",
    "soft 1 2 [1 2 3 4 ]",
    "soft 1 2 [1,2,3,4]",
    "soft 1 2 [1 2 3 -0]",
    "soft 1 2 [1 2 3 -00]",
    "soft 1 2 [1 2 3 -]",
    "soft 1 2 [1 2 3 4",
    "transform 2 [1 2 3 4]",
    "transform 2 [1 2 3 2147483648] [0 0 0 0]",
    "transform 2 [1 2 3 4] [0 0 0 -2147483649]",
    "transform 2 2 [1 2 3 4] [0 0 0 0]",
    "run 2 [1 2 3 4] [0 0 0 0] [0]",
    "run -2 [1 2 3 4] [0 0 0 0]",
    "look [1 2 3 4] [0 0 0 0]",
    "look 2 [1 2 3 4]  [0 0 0 0]",
];
