//! The order of refusals, and the places that they carry.

use second::{encode, hard, pair, partner, read, soft, transform, Message, No, GREATEST_M};

fn plain(kind: u32) -> No {
    No { kind, place: None, word: None }
}

fn at(kind: u32, place: usize) -> No {
    No { kind, place: Some(place), word: None }
}

fn in_word(place: usize, word: u32) -> No {
    No { kind: 3, place: Some(place), word: Some(word) }
}

#[test]
fn encode_and_partner_look_at_shape_length_message() {
    for call in [encode, partner] {
        assert_eq!(call(4, 2, Message(u64::MAX), 5), Err(plain(1)));
        assert_eq!(call(1, 2, Message(u64::MAX), 5), Err(plain(2)));
        assert_eq!(call(1, 2, Message(8), 4), Err(plain(4)));
    }
}

#[test]
fn the_pair_check_says_which_word() {
    assert_eq!(pair(1, GREATEST_M + 1, &[2; 4], &[2; 4]), Err(plain(1)));
    assert_eq!(pair(1, 2, &[2; 4], &[2; 5]), Err(plain(2)));
    assert_eq!(pair(1, 2, &[2; 3], &[2; 4]), Err(plain(2)));
    assert_eq!(pair(1, 2, &[0, 0, 2, 2], &[2, 0, 0, 0]), Err(in_word(2, 1)));
    assert_eq!(pair(1, 2, &[0, 0, 1, 0], &[0, 255, 0, 2]), Err(in_word(1, 2)));
}

#[test]
fn eight_phases_are_read_and_not_decoded() {
    assert_eq!(read(3, 2, &[0, 0, 0, 8]), Err(at(3, 3)));
    assert_eq!(hard(3, 2, &[9; 5]), Err(plain(6)));
    assert_eq!(soft(3, 2, &[1; 5]), Err(plain(6)));
    assert_eq!(hard(3, GREATEST_M + 1, &[9; 5]), Err(plain(1)));
    assert_eq!(soft(3, 1, &[1; 5]), Err(plain(1)));
}

#[test]
fn decoding_looks_at_length_then_symbols() {
    assert_eq!(soft(1, 2, &[0; 8]), Err(plain(2)));
    assert_eq!(soft(2, 2, &[0; 4]), Err(plain(2)));
    assert_eq!(hard(2, 2, &[4; 5]), Err(plain(2)));
    assert_eq!(hard(2, 2, &[3, 4, 0, 4]), Err(at(3, 1)));
    assert_eq!(read(2, 2, &[4; 3]), Err(plain(2)));
}

#[test]
fn the_transform_looks_at_m_lengths_values() {
    assert_eq!(transform(u32::MAX, &[], &[]), Err(plain(1)));
    assert_eq!(transform(1, &[40_000; 4], &[0; 4]), Err(plain(1)));
    assert_eq!(transform(2, &[40_000; 4], &[0; 3]), Err(plain(2)));
    assert_eq!(transform(2, &[0, -32_768, 32_768, -32_769], &[0; 4]), Err(at(7, 2)));
    assert!(transform(2, &[0, 0, 0, 0, 40_000], &[i32::MIN; 4]).is_ok());
}
