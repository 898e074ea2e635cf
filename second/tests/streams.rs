//! The stream of cases: round trips, and where it is bad.

mod common;
use common::*;
use second::gen::{case, KINDS};
use second::stream::{answer, answer_all, next_case, Case, Next, Wish};

fn answers(stream: &[u8]) -> String {
    let mut out = Vec::new();
    answer_all(stream, &mut out).unwrap();
    String::from_utf8(out).unwrap()
}

fn sample(wish: Wish) -> Case {
    let t = tables("attacker(s). ?- attacker(s).");
    Case {
        symbols: t.symbols,
        rules: t.rules,
        query: t.query,
        wish,
    }
}

#[test]
fn an_empty_stream_has_no_answers() {
    assert_eq!(answers(&[]), "");
}

#[test]
fn cases_read_back_as_written() {
    for (_, kind) in KINDS {
        let cases: Vec<Case> = (0..50).map(|n| case(2, n, kind)).collect();
        let stream: Vec<u8> = cases.iter().flat_map(|c| c.bytes()).collect();
        let mut rest = &stream[..];
        for case in &cases {
            let Next::Case(back) = next_case(&mut rest).unwrap() else {
                panic!("{kind:?}");
            };
            assert_eq!(back, *case);
        }
        assert!(rest.is_empty());
        let one_by_one: String = cases.iter().map(answer).collect();
        assert_eq!(answers(&stream), one_by_one);
    }
}

#[test]
fn lines_of_answers() {
    let run = answers(&sample(Wish::Run([128, 0, 3])).bytes());
    let lines: Vec<&str> = run.split('\n').collect();
    assert_eq!(lines.len(), 5);
    assert_eq!(lines[0], "7 0 1 0 0");
    assert_eq!(&lines[1][..8], "00024041");
    assert_eq!(&lines[1][244..], "010000000000");
    assert_eq!(lines[2..], ["", "a5a5a5", ""]);
    assert_eq!(answers(&sample(Wish::Check(vec![])).bytes()), "10 0\n");
}

#[test]
fn a_stream_that_ends_inside_a_case() {
    for wish in [Wish::Run([128, 128, 140]), Wish::Check(vec![0; 140])] {
        let bytes = sample(wish).bytes();
        for end in 1..bytes.len() {
            assert_eq!(answers(&bytes[..end]), "bad case\n", "{end}");
        }
        let twice = [&bytes[..], &bytes[..7]].concat();
        let out = answers(&twice);
        assert_eq!(out, answers(&bytes) + "bad case\n");
    }
}

#[test]
fn other_first_bytes() {
    let mut bytes = sample(Wish::Run([0; 3])).bytes();
    for first in [2, 3, 48, 255] {
        bytes[0] = first;
        assert_eq!(answers(&bytes), "bad case\n");
    }
}

/// A case of the wanted lengths whose bytes are all zero.
fn blank(first: u8, lengths: [usize; 6]) -> Vec<u8> {
    let mut out = vec![first];
    for n in lengths {
        out.extend_from_slice(&(n as u32).to_le_bytes());
    }
    let list = if first == 1 { lengths[3] } else { 0 };
    out.resize(out.len() + lengths[..3].iter().sum::<usize>() + list, 0);
    out
}

#[test]
fn lengths_at_and_past_their_limits() {
    let limits = [
        (0, [4_096, 40_960, 4_096, 70_000, 70_000, 40_000]),
        (1, [4_096, 40_960, 4_096, 40_000, 0, 0]),
    ];
    for (first, most) in limits {
        assert!(answers(&blank(first, most)).starts_with("2 65535"));
        for i in 0..6 {
            let mut past = most;
            past[i] += 1;
            assert_eq!(answers(&blank(first, past)), "bad case\n", "{first} {i}");
            let mut header = blank(first, most);
            header[1 + 4 * i + 3] = 255;
            assert_eq!(answers(&header), "bad case\n", "{first} {i}");
        }
    }
}

#[test]
fn any_bytes_get_some_answer() {
    let mut rng = second::gen::rng::Rng::new(77);
    for n in 0..3000 {
        let mut bytes = case(31, n, KINDS[n as usize % 6].1).bytes();
        for _ in 0..rng.between(1, 6) {
            let at = rng.below(bytes.len());
            bytes[at] = rng.draw() as u8;
        }
        assert!(!answers(&bytes).is_empty());
    }
}
