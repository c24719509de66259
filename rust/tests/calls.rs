//! Each call through the wrapper, on values that document 01 and the papers print, and each refusal.

use sharqudel::*;

/// The symbols that a text such as 0002 shows.
fn symbols(text: &str) -> Vec<u8> {
    text.bytes().map(|digit| digit - b'0').collect()
}

fn encoded(h: u32, m: u32, message: u64) -> Vec<u8> {
    let mut out = vec![9; 1 << m];
    encode(h, m, Message(message), &mut out).unwrap();
    out
}

fn partnered(h: u32, m: u32, message: u64) -> Vec<u8> {
    let mut out = vec![9; 1 << m];
    partner(h, m, Message(message), &mut out).unwrap();
    out
}

#[test]
fn known_words_and_partners() {
    assert_eq!(encoded(2, 2, 27), symbols("3100"));
    assert_eq!(partnered(2, 2, 27), symbols("3122"));
    assert_eq!(encoded(1, 3, 31), symbols("10000010"));
    assert_eq!(partnered(1, 3, 31), symbols("10001101"));
    assert_eq!(encoded(2, 4, 5120), symbols("0002002002000222"));
    assert_eq!(encoded(3, 4, 122614), symbols("6413570631242417"));
}

#[test]
fn pairs() {
    assert_eq!(check(2, 2, &symbols("0002"), &symbols("0020")), Ok(true));
    let word = symbols("0002002000022202");
    assert_eq!(check(2, 4, &word, &word), Ok(false));
}

#[test]
fn reading() {
    assert_eq!(read(3, 4, &symbols("6413570631242417")), Ok(Message(122614)));
    assert_eq!(read(1, 2, &symbols("1111")), Err(Refusal::NoWord));
}

#[test]
fn decoding() {
    let loudest = Loudest { message: Message(1), correlation: 65536, tied: true };
    assert_eq!(soft(1, 2, &[-32768; 4]), Ok(loudest));
    let closest = Closest { message: Message(0), distance: 1, tied: false };
    assert_eq!(hard(1, 4, &symbols("1001001000011101")), Ok(closest));
    let tied = Closest { message: Message(1), distance: 1, tied: true };
    assert_eq!(hard(1, 2, &symbols("1111")), Ok(tied));
    assert!(!soft(1, 2, &[9, 9, 9, -9]).unwrap().tied);
}

/// The spectrum of 1, 2, 3, 4 by hand: 10, -2, -4, 0; before the last stage 4, 6, -2, -2.
#[test]
fn the_part_is_no_copy() {
    let (mut first, mut second) = ([1, 2, 3, 4, 5], [9; 6]);
    let front = first.as_ptr();
    let part = transform(2, &mut first, &mut second).unwrap();
    assert_eq!((part, part.as_ptr()), (&[10, -2, -4, 0][..], front));
    assert_eq!((first, second), ([10, -2, -4, 0, 5], [4, 6, -2, -2, 9, 9]));
    let (mut first, mut second) = ([1, 0, 0, 0, 0, 0, 0, 0], [9; 9]);
    let front = second.as_ptr();
    let part = transform(3, &mut first, &mut second).unwrap();
    assert_eq!((part, part.as_ptr()), (&[1; 8][..], front));
    assert_eq!((first, second), ([1, 0, 1, 0, 1, 0, 1, 0], [1, 1, 1, 1, 1, 1, 1, 1, 9]));
}

#[test]
fn a_refused_encoder_writes_nothing() {
    for (h, m, message, length, why) in [
        (0, 2, 0, 4, Refusal::Shape),
        (2, 6, 0, 64, Refusal::Shape),
        (u32::MAX, u32::MAX, 0, 0, Refusal::Shape),
        (1, 4, 0, 15, Refusal::Length),
        (1, 4, u64::MAX, 17, Refusal::Length),
        (1, 4, 256, 16, Refusal::Message),
        (3, 2, 512, 4, Refusal::Message),
    ] {
        for call in [encode, partner] {
            let mut out = vec![9; length];
            assert_eq!(call(h, m, Message(message), &mut out), Err(why));
            assert_eq!(out, vec![9; length]);
        }
    }
}

#[test]
fn refusals_say_where() {
    assert_eq!(read(4, 2, &[]), Err(Refusal::Shape));
    assert_eq!(read(1, 2, &[]), Err(Refusal::Length));
    assert_eq!(read(1, 2, &[0, 1, 2, 9]), Err(Refusal::Symbol { place: 2 }));
    assert_eq!(hard(3, 2, &[]), Err(Refusal::Octary));
    assert_eq!(hard(2, 2, &[0; 5]), Err(Refusal::Length));
    assert_eq!(hard(2, 2, &[0, 0, 0, 4]), Err(Refusal::Symbol { place: 3 }));
    assert_eq!(soft(3, 2, &[0; 4]), Err(Refusal::Octary));
    assert_eq!(soft(2, 2, &[0; 4]), Err(Refusal::Length));
    assert_eq!(soft(2, 1, &[0; 4]), Err(Refusal::Shape));
}

#[test]
fn the_pair_check_says_which_word() {
    let refused = |refusal, word| Err(PairRefusal { refusal, word });
    assert_eq!(check(0, 2, &[], &[]), refused(Refusal::Shape, None));
    assert_eq!(check(1, 2, &[9; 4], &[9; 3]), refused(Refusal::Length, None));
    assert_eq!(check(1, 2, &[0, 2, 0, 0], &[9; 4]), refused(Refusal::Symbol { place: 1 }, Some(Which::First)));
    assert_eq!(check(1, 2, &[0; 4], &[0, 0, 2, 2]), refused(Refusal::Symbol { place: 2 }, Some(Which::Second)));
}

#[test]
fn a_refused_transform_changes_nothing() {
    for (m, first, second, why) in [
        (1, vec![0; 4], vec![9; 4], Refusal::Shape),
        (u32::MAX, vec![], vec![], Refusal::Shape),
        (2, vec![0; 3], vec![9; 4], Refusal::Length),
        (2, vec![0; 4], vec![9; 3], Refusal::Length),
        (2, vec![0, 32767, 32768, -32769], vec![9; 4], Refusal::Value { place: 2 }),
        (2, vec![0, -32768, 0, -32769], vec![9; 4], Refusal::Value { place: 3 }),
    ] {
        assert_eq!(refusal(m, &first, &second), Some(why));
        let (mut a, mut b) = (first.clone(), second.clone());
        assert_eq!(transform(m, &mut a, &mut b), Err(why));
        assert_eq!((a, b), (first, second));
    }
    assert_eq!(refusal(2, &[0, 0, 0, 0, 40000], &[9; 4]), None);
}

#[test]
fn refusals_read_well() {
    let why = check(1, 2, &[0; 4], &[0, 0, 2, 2]).unwrap_err();
    assert_eq!(why.to_string(), "the symbol at place 2 is 2^h or more, in the second word");
    assert_eq!(Refusal::Length.to_string(), "wrong slice length for this shape");
    assert_eq!(Refusal::Message.to_string(), "message number too large for this shape");
    let numbers = [
        Refusal::Shape,
        Refusal::Length,
        Refusal::Symbol { place: 0 },
        Refusal::Message,
        Refusal::NoWord,
        Refusal::Octary,
        Refusal::Value { place: 0 },
    ]
    .map(Refusal::number);
    assert_eq!(numbers, [1, 2, 3, 4, 5, 6, 7]);
}
