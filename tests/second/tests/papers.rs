//! Words, decodings and spectra as 000, 001 and 004 print them.

use second::{encode, hard, paths, read, transform, word, Found, Label, Message, No, Shape};

/// A word from its digits.
fn symbols(word: &str) -> Vec<u8> {
    word.bytes().map(|digit| digit - b'0').collect()
}

const NO_WORD: No = No { kind: 5, place: None, word: None };

/// 000's twelve coset representatives: the words of the twelve paths with all coefficients 0.
const REPRESENTATIVES: [&str; 12] = [
    "0002002000022202",
    "0002020000022022",
    "0000022000220202",
    "0002020000200222",
    "0000022002020022",
    "0002002002000222",
    "0002000200202202",
    "0002000202002022",
    "0000002202200202",
    "0000020202200022",
    "0000020200222002",
    "0000002202022002",
];

#[test]
fn representatives_of_000() {
    let shape = Shape::of(2, 4).unwrap();
    assert_eq!(paths(4).len(), REPRESENTATIVES.len());
    for (path, printed) in REPRESENTATIVES.into_iter().enumerate() {
        assert_eq!(word(shape, &Label { path, coefficients: vec![0; 5] }), symbols(printed));
        let message = Message((path as u64) << 10);
        let in_use = path < 8;
        assert_eq!(read(2, 4, &symbols(printed)), if in_use { Ok(message) } else { Err(NO_WORD) });
    }
}

/// 000's decoding example: path 2134, number 6, c_1 .. c_4 = 0, 3, 1, 2 and c = 1.
/// Its Table 1 gives the least Lee distance 8, so an error of weight 3 has one nearest word.
#[test]
fn decoding_example_of_000() {
    let message = Message(6 << 10 | 3 << 6 | 1 << 4 | 2 << 2 | 1);
    assert_eq!(encode(2, 4, message, 16), Ok(symbols("1322021113002011")));
    let received = symbols("1322021213002031");
    assert_eq!(hard(2, 4, &received), Ok(Found { message, value: 3, tied: false }));
}

/// 000's transform of one of the sixteen sequences of that example, 0 and 1 standing for 1 and -1.
#[test]
fn spectrum_of_000() {
    let bits = symbols("01110011011100001101100011011010");
    let first: Vec<i32> = bits.iter().map(|&bit| 1 - 2 * i32::from(bit)).collect();
    let printed = [
        -2, 2, 2, -2, -14, 14, -2, 2, -2, 2, 2, -2, 2, -2, -2, 2, 2, 6, 14, 10, -2, -6, 2, 6, -6, -2, 6, 2, 6, 2, -6,
        -2,
    ];
    assert_eq!(transform(5, &first, &[0; 32]).unwrap().part, printed);
}

/// 001's octary example: information bits 011101111011110110, path 1342.
#[test]
fn octary_word_of_001() {
    let message = Message(0b011_101_111_011_110_110);
    assert_eq!(message, Message(122_614));
    assert_eq!(encode(3, 4, message, 16), Ok(symbols("6413570631242417")));
    assert_eq!(read(3, 4, &symbols("6413570631242417")), Ok(message));
}

/// 001's rows for m = 3, and two of its coset representatives for m = 4: the paths 1423, number 4,
/// and 3214, number 11 and not in use.
#[test]
fn binary_words_of_001() {
    let word_of = |message| encode(1, 3, Message(message), 8).unwrap();
    assert_eq!(word_of(0), symbols("00010010"));
    for (bit, row) in [(3, "00001111"), (2, "00110011"), (1, "01010101"), (0, "11111111")] {
        let sum = symbols("00010010").into_iter().zip(symbols(row)).map(|(a, b)| (a + b) % 2);
        assert_eq!(word_of(1 << bit), sum.collect::<Vec<u8>>());
    }
    assert_eq!(read(1, 4, &symbols("0000011001010011")), Ok(Message(4 << 5)));
    assert_eq!(read(1, 4, &symbols("0000001101011001")), Err(NO_WORD));
}

/// 004's coset leaders for m = 3: the paths 123, 213 and 132; 213 is number 2 and not in use.
#[test]
fn leaders_of_004() {
    assert_eq!(read(2, 3, &symbols("00020020")), Ok(Message(0)));
    assert_eq!(read(2, 3, &symbols("00020200")), Ok(Message(1 << 8)));
    assert_eq!(read(2, 3, &symbols("00000220")), Err(NO_WORD));
}
