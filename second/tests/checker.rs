//! The checker's own answers.

mod common;
use common::*;

const TEXT: &str = "attacker(a). attacker(senc(s,k)).
    attacker(M) :- attacker(senc(M,X)), attacker(X). attacker(k). ?- attacker(s).";

fn after(change: impl Fn(&mut Vec<u8>)) -> String {
    let mut list = steps(TEXT);
    change(&mut list);
    checked(&tables(TEXT), &list)
}

#[test]
fn the_list_is_good_as_written() {
    assert_eq!(after(|_| {}), "0 0");
}

#[test]
fn wrong_lengths_give_10() {
    assert_eq!(after(|l| l.clear()), "10 0");
    assert_eq!(after(|l| l.truncate(139)), "10 0");
    assert_eq!(after(|l| l.push(0)), "10 0");
    let many = |n: usize| {
        move |l: &mut Vec<u8>| {
            let last = l[280..].to_vec();
            while l.len() < n * 140 {
                l.extend_from_slice(&last);
            }
        }
    };
    assert_eq!(after(many(256)), "0 0");
    assert_eq!(after(many(257)), "10 0");
}

#[test]
fn bad_steps_give_11_and_their_place() {
    let set = |at: usize, byte: u8| after(move |l| l[at] = byte);
    // Another rule, a rule that isn't there.
    assert_eq!(set(0, 0), "11 0");
    assert_eq!(set(0, 4), "11 0");
    assert_eq!(set(1, 1), "11 0");
    // The count of hypotheses and of tokens.
    assert_eq!(set(2, 1), "11 0");
    assert_eq!(set(282, 1), "11 2");
    assert_eq!(set(282, 3), "11 2");
    assert_eq!(set(3, 1), "11 0");
    assert_eq!(set(3, 3), "11 0");
    assert_eq!(set(3, 121), "11 0");
    // Numbers of steps: the wrong one, its own, one above, and one unused.
    assert_eq!(set(284, 0), "11 2");
    assert_eq!(set(284, 2), "11 2");
    assert_eq!(set(284, 3), "11 2");
    assert_eq!(set(285, 1), "11 2");
    assert_eq!(set(288, 1), "11 2");
    assert_eq!(set(299, 1), "11 2");
    assert_eq!(set(4, 1), "11 0");
    // Facts: changed, not closed, no fact, bytes after it.
    assert_eq!(set(21, 66), "11 0");
    assert_eq!(set(21, 1), "11 0");
    assert_eq!(set(20, 65), "11 0");
    assert_eq!(set(22, 1), "11 0");
    assert_eq!(set(139, 1), "11 0");
    assert_eq!(set(279, 1), "11 1");
    // The first bad step counts.
    let two = |l: &mut Vec<u8>| {
        l[140] = 9;
        l[280] = 9;
    };
    assert_eq!(after(two), "11 1");
}

#[test]
fn another_last_fact_gives_12() {
    assert_eq!(after(|l| l.truncate(280)), "12 0");
    let again = |l: &mut Vec<u8>| {
        let first = l[..140].to_vec();
        l.extend_from_slice(&first);
    };
    assert_eq!(after(again), "12 0");
}

#[test]
fn steps_that_nothing_uses_are_allowed() {
    let first = |l: &mut Vec<u8>| {
        let (key, message, mut last) = (l[..140].to_vec(), l[140..280].to_vec(), l[280..].to_vec());
        last[4] = 3;
        last[6] = 1;
        l.clear();
        for step in [&message, &key, &key, &message, &last] {
            l.extend_from_slice(step);
        }
    };
    assert_eq!(after(first), "0 0");
}

#[test]
fn one_substitution_for_all_hypotheses() {
    let text = "p(a). p(b). attacker(s) :- p(X), p(X). ?- attacker(s).";
    let t = tables(text);
    let mut list = steps(text);
    assert_eq!(checked(&t, &list), "0 0");
    let (a, mut last) = (list[..140].to_vec(), list[140..].to_vec());
    let mut b = a.clone();
    b[0] = 1;
    b[21] = t.rules[128 + 3];
    last[6] = 1;
    list = [a, b, last].concat();
    assert_eq!(checked(&t, &list), "11 2");
    list[280 + 4] = 1;
    assert_eq!(checked(&t, &list), "0 0");
}

#[test]
fn tables_come_before_the_list() {
    let mut t = tables(TEXT);
    t.query[0] = 1;
    assert_eq!(checked(&t, &[]), "4 0");
    t.rules[128] = 9;
    assert_eq!(checked(&t, &[]), "3 1");
}

#[test]
fn a_fact_is_one_closed_fact() {
    // The rule itself would allow any fact, so only the form can be wrong.
    let text = "attacker(X). ?- attacker(s).";
    let t = tables(text);
    let with = |tokens: &[u8]| {
        let mut step = vec![0; 140];
        step[3] = tokens.len() as u8;
        step[20..20 + tokens.len()].copy_from_slice(tokens);
        let list = [step, steps(text)].concat();
        checked(&t, &list)
    };
    assert_eq!(with(&[64, 65]), "0 0");
    assert_eq!(with(&[64, 1]), "11 0");
    assert_eq!(with(&[64, 65, 64, 65]), "11 0");
    assert_eq!(with(&[64, 64]), "11 0");
    assert_eq!(with(&[64, 64, 65]), "11 0");
    assert_eq!(with(&[64, 66]), "11 0");
    assert_eq!(with(&[64]), "11 0");
    assert_eq!(with(&[65, 65]), "11 0");
    assert_eq!(with(&[]), "11 0");
}
