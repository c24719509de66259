//! 01's known words and path lists, as 01 prints them.

use second::{encode, hard, pair, partner, paths, read, soft, Found, Message, No, Shape, GREATEST_M};

/// A word from its digits.
fn symbols(word: &str) -> Vec<u8> {
    word.bytes().map(|digit| digit - b'0').collect()
}

fn refused<T: std::fmt::Debug + PartialEq>(outcome: Result<T, No>, kind: u32) {
    assert_eq!(outcome, Err(No { kind, place: None, word: None }));
}

#[test]
fn paths_of_four_digits() {
    let list = ["1234", "1243", "1324", "1342", "1423", "1432", "2134", "2143", "2314", "2413", "3124", "3214"];
    let printed: Vec<Vec<u32>> = list.iter().map(|p| symbols(p).into_iter().map(u32::from).collect()).collect();
    assert_eq!(paths(4), printed);
}

#[test]
fn counts_of_paths() {
    assert_eq!([2, 3, 4, 5].map(|m| paths(m).len()), [1, 3, 12, 60]);
    assert_eq!([2, 3, 4, 5].map(second::path_bits), [0, 1, 3, 5]);
}

#[test]
fn words_and_partners() {
    let cases = [
        (2, 2, 0, "0002", Some("0020")),
        (2, 2, 27, "3100", Some("3122")),
        (1, 3, 0, "00010010", None),
        (1, 3, 31, "10000010", Some("10001101")),
        (2, 4, 0, "0002002000022202", None),
        (2, 4, 5120, "0002002002000222", None),
        (1, 2, 1, "1110", None),
    ];
    for (h, m, number, word, other) in cases {
        let message = Message(number);
        assert_eq!(encode(h, m, message, 1 << m), Ok(symbols(word)));
        assert_eq!(read(h, m, &symbols(word)), Ok(message));
        if let Some(other) = other {
            assert_eq!(partner(h, m, message, 1 << m), Ok(symbols(other)));
            assert_eq!(pair(h, m, &symbols(word), &symbols(other)), Ok(true));
        }
    }
}

#[test]
fn message_range() {
    assert!(encode(1, 4, Message(255), 16).is_ok());
    refused(encode(1, 4, Message(256), 16), 4);
    assert!(encode(3, 2, Message(511), 4).is_ok());
    refused(encode(3, 2, Message(512), 4), 4);
    refused(partner(3, 2, Message(u64::MAX), 4), 4);
}

#[test]
fn shapes_out_of_range() {
    for (h, m) in [(1, 1), (1, GREATEST_M + 1), (0, 2), (4, 2), (u32::MAX, u32::MAX), (3, 64), (3, 0)] {
        refused(encode(h, m, Message(0), 4), 1);
        refused(partner(h, m, Message(0), 4), 1);
        refused(pair(h, m, &[0; 4], &[0; 4]), 1);
        refused(read(h, m, &[0; 4]), 1);
        refused(soft(h, m, &[0; 4]), 1);
        refused(hard(h, m, &[0; 4]), 1);
    }
}

#[test]
fn soft_extremes_and_zeros() {
    assert_eq!(soft(1, 2, &[-32_768; 4]), Ok(Found { message: Message(1), value: 65_536, tied: true }));
    for shape in Shape::decoded() {
        let zeros = vec![0; shape.soft_values()];
        assert_eq!(soft(shape.h(), shape.m(), &zeros), Ok(Found { message: Message(0), value: 0, tied: true }));
    }
}

/// 01 names the words that share the greatest correlation: messages 1, 3, 5 and 6, and no other.
#[test]
fn the_four_words_that_are_tied() {
    let minus = |message| {
        let word = encode(1, 2, Message(message), 4).unwrap();
        word.iter().map(|&symbol| if symbol == 1 { 1 } else { -1 }).sum::<i32>()
    };
    let loudest: Vec<u64> = (0..8).filter(|&message| minus(message) * 32_768 == 65_536).collect();
    assert_eq!(loudest, [1, 3, 5, 6]);
}

#[test]
fn hard_known() {
    assert_eq!(hard(1, 2, &[1; 4]), Ok(Found { message: Message(1), value: 1, tied: true }));
    refused(read(1, 2, &[1; 4]), 5);
    let damaged = symbols("1001001000011101");
    assert_eq!(hard(1, 4, &damaged), Ok(Found { message: Message(0), value: 1, tied: false }));
}

#[test]
fn a_word_with_itself_is_no_pair() {
    let word = symbols("0002002000022202");
    assert_eq!(pair(2, 4, &word, &word), Ok(false));
}
