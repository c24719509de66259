//! Case lines: the written examples, what is no case, and the size of the whole set.

use second::{answer, cases};

#[test]
fn written_examples() {
    let examples = [
        ("encode 2 4 5120 [9999999999999999]", "done [0002002002000222]"),
        ("encode 1 4 256 [9999999999999999]", "refused 4 [9999999999999999]"),
        ("encode 1 2 0 [01(255)3(10)]", "refused 2 [01(255)3(10)]"),
        ("pair 2 2 [0002] [0020]", "yes"),
        ("pair 2 2 [0004] [0020]", "refused 3 at place 3 of word 1"),
        ("read 2 2 [3100]", "message 27"),
        ("read 2 2 [31(10)0]", "refused 3 at place 2"),
        ("hard 1 2 [1111]", "message 1 distance 1 tied"),
        ("hard 1 4 [1001001000011101]", "message 0 distance 1 not tied"),
        ("soft 1 2 [-32768 -32768 -32768 -32768]", "message 1 correlation 65536 tied"),
        ("soft 3 2 []", "refused 6"),
        ("transform 2 [1 2 3 4] [0 0 0 0]", "part [10 -2 -4 0] areas [10 -2 -4 0] [4 6 -2 -2]"),
        ("run 2 [1 2 3 4] [0 0 0 0]", "4 areas [10 -2 -4 0] [4 6 -2 -2]"),
        ("look 2 [1 2 3 4] [0 0 0 0]", "10 and 4 areas [10 -2 -4 0] [4 6 -2 -2]"),
        ("transform 2 [1 2 3 32768] [5]", "refused 2 areas [1 2 3 32768] [5]"),
        ("transform 2 [1 2 3 32768] [5 5 5 5]", "refused 7 at place 3 areas [1 2 3 32768] [5 5 5 5]"),
        ("run 6 [1 2] [3]", "0 areas [1 2] [3]"),
        ("look 6 [1 2] [3]", "0 and 3 areas [1 2] [3]"),
        ("look 7 [1 2] [3]", "0 and 1 areas [1 2] [3]"),
        ("look 7 [] [3]", "0 and 0 areas [] [3]"),
        ("# a comment", "# a comment"),
    ];
    for (line, expected) in examples {
        assert_eq!(answer(line), expected, "{line}");
    }
}

/// By hand, for odd m: one 1 at place 6 (digits 1 1 0) has spread after two stages over the places that end in 0.
#[test]
fn the_spectrum_of_odd_m_stands_in_the_second_area() {
    let line = "transform 3 [0 0 0 0 0 0 1 0 5] [9 9 9 9 9 9 9 9 6]";
    let expected = "part [1 1 -1 -1 -1 -1 1 1] areas [1 0 -1 0 -1 0 1 0 5] [1 1 -1 -1 -1 -1 1 1 6]";
    assert_eq!(answer(line), expected);
}

#[test]
fn one_family_alone_is_damaged() {
    let lines = cases::all(1999);
    assert_eq!(lines[0], "# made by: second cases 1999");
    let from = lines.iter().position(|line| line == "# damaged lines").unwrap() + 1;
    let to = from + lines[from..].iter().position(|line| line.starts_with('#')).unwrap();
    assert!(to - from > 30 && lines[from..to].iter().all(|line| answer(line) == "not a case"));
    assert!(lines[..from].iter().chain(&lines[to..]).all(|line| answer(line) != "not a case"));
}

#[test]
fn near_pairs_are_no_pairs() {
    let lines = cases::all(1999);
    let near = lines.iter().position(|line| line.starts_with("# pairs: no pair,")).unwrap();
    let family: Vec<&String> = lines[near + 1..].iter().take_while(|line| !line.starts_with('#')).collect();
    assert!(family.len() > 200 && family.iter().all(|line| answer(line) == "no"));
}

#[test]
fn the_whole_set_keeps_to_its_size() {
    for seed in [0, 1999, u64::MAX] {
        let lines = cases::all(seed);
        assert!((5_000..=10_000).contains(&lines.len()));
        assert!(lines.iter().map(|line| line.len() + 1).sum::<usize>() <= 900_000);
        assert!(lines.iter().all(|line| line.len() <= 4_000));
    }
}
