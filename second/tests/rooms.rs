//! Each answer from 5 to 9, and what the buffers hold then.

mod common;
use common::*;

const KEY: &str = "attacker(a). attacker(senc(s,k)).
    attacker(M) :- attacker(senc(M,X)), attacker(X). attacker(k). ?- attacker(s).";

/// Whether a buffer starts with the bytes and is as it was lent after them.
fn holds(line: &str, bytes: &[u8], length: usize) -> bool {
    let buffer = unhex(line);
    let (kept, rest) = buffer.split_at(bytes.len());
    buffer.len() == length && kept == bytes && rest.iter().all(|b| *b == 0xa5)
}

fn agrees(text: &str, lengths: [usize; 3], first: &str) {
    let lines = lent(&tables(text), lengths);
    assert_eq!(lines[0], first);
    let room = [lengths[0] / 128, lengths[1] / 128, lengths[2] / 140];
    let r = run(text, room[0].min(512), room[1].min(512), room[2].min(256));
    let rules: Vec<u8> = r.rules.iter().flat_map(|k| k.bytes()).collect();
    let goals: Vec<u8> = r.goals.iter().flat_map(|k| k.bytes()).collect();
    let steps: Vec<u8> = r.steps.iter().flat_map(|k| k.bytes()).collect();
    assert!(holds(&lines[1], &rules, lengths[0]), "rules");
    assert!(holds(&lines[2], &goals, lengths[1]), "goals");
    assert!(holds(&lines[3], &steps, lengths[2]), "steps");
    assert_eq!(lines.len(), 4);
}

#[test]
fn enough_room() {
    agrees(KEY, [6 * 128, 2 * 128, 3 * 140], "1 0 6 2 3");
    agrees(
        KEY,
        [6 * 128 + 127, 2 * 128 + 127, 3 * 140 + 139],
        "1 0 6 2 3",
    );
    agrees(KEY, [70_000, 70_000, 40_000], "1 0 6 2 3");
}

#[test]
fn answer_5() {
    agrees(KEY, [6 * 128 - 1, 2 * 128, 3 * 140], "5 0 5 0 0");
    agrees(KEY, [127, 0, 0], "5 0 0 0 0");
    agrees(KEY, [0, 0, 0], "5 0 0 0 0");
}

#[test]
fn answer_6() {
    let text = format!(
        "attacker(a). p({}). attacker({}) :- p(X). ?- attacker(s).",
        nest("f", 60, "X"),
        nest("f", 60, "X")
    );
    agrees(&text, [1000, 1000, 1000], "6 0 3 0 0");
}

#[test]
fn answer_7() {
    agrees(KEY, [6 * 128, 2 * 128 - 1, 3 * 140], "7 0 6 1 0");
    agrees(KEY, [6 * 128, 0, 3 * 140], "7 0 6 0 0");
}

#[test]
fn answer_8() {
    let long = nest("f", 59, "a");
    agrees(
        &format!("attacker(a). ?- attacker({long})."),
        [1000, 1000, 0],
        "8 0 1 0 0",
    );
    let h = "h(X1,X2,X3,X4,X5)";
    let body = "attacker(X1), attacker(X2), attacker(X3), attacker(X4), attacker(X5)";
    let query = "h(h(a,b,c,d,e),a1,b1,c1,d1)";
    let text = format!("attacker({h}) :- {body}. ?- attacker({query}).");
    agrees(&text, [1000, 1000, 0], "8 0 1 2 0");
}

#[test]
fn answer_9() {
    agrees(KEY, [6 * 128, 2 * 128, 3 * 140 - 1], "9 0 6 2 2");
    agrees(KEY, [6 * 128, 2 * 128, 139], "9 0 6 2 0");
    let text = |n: usize| {
        let (a, b) = (nest("f", n, "X"), nest("f", 40, "Z"));
        format!("attacker(a). p({a},X). attacker(s) :- p(Y,{b}). ?- attacker(s).")
    };
    // The fact that went away: a predicate, n + 41 tokens, then 41.
    agrees(&text(37), [1000, 1000, 1000], "1 0 4 2 2");
    agrees(&text(38), [1000, 1000, 1000], "9 0 4 2 0");
}

#[test]
fn a_full_table_retires_nothing() {
    // The third rule implies both others, but there is no room to keep it.
    let text = "attacker(f(a)). attacker(f(b)). attacker(f(X)). ?- attacker(s).";
    let r = run(text, 2, 2, 2);
    assert_eq!((r.number, r.rules.len()), (5, 2));
    assert!(r.rules.iter().all(|k| k.live));
    let r = run(text, 3, 2, 2);
    let live: Vec<bool> = r.rules.iter().map(|k| k.live).collect();
    assert_eq!(live, [false, false, true]);
    assert_eq!(r.rules[0].bytes()[122], 2);
}

#[test]
fn records_number_their_parents() {
    let r = run(KEY, 9, 9, 9);
    // attacker(s) from attacker(k), by way of the decryption of senc(s,k).
    let marks: Vec<Vec<u8>> = r.rules.iter().map(|k| k.bytes()[122..].to_vec()).collect();
    assert_eq!(marks[3], [1, 0, 3, 0, 0, 0]);
    assert_eq!(marks[4], [2, 1, 1, 0, 2, 0]);
    assert_eq!(marks[5], [1, 1, 3, 0, 4, 0]);
    let goals: Vec<Vec<u8>> = r.goals.iter().map(|k| k.bytes()[122..].to_vec()).collect();
    assert_eq!(goals[0], [1, 0, 0, 0, 0, 0]);
    assert_eq!(goals[1], [1, 1, 5, 0, 0, 0]);
}

#[test]
fn at_most_512_records_and_256_steps() {
    let count = |start, target| {
        let clauses = second::gen::counter::clauses(start, target);
        clauses.join("\n") + "?- attacker(s)."
    };
    agrees(&count(10, 511), [70_000, 70_000, 40_000], "5 0 512 0 0");
    agrees(&count(11, 511), [70_000, 70_000, 40_000], "9 0 512 2 256");
    agrees(&count(257, 511), [70_000, 70_000, 40_000], "1 0 266 2 256");
    agrees(&count(256, 511), [70_000, 70_000, 40_000], "9 0 267 2 256");
}

#[test]
fn hypotheses_are_taken_in_order() {
    let text = "p(a). attacker(k(X,Y)) :- p(X), p(Y). ?- attacker(s).";
    let r = run(text, 9, 9, 9);
    let marks: Vec<Vec<u8>> = r.rules.iter().map(|k| k.bytes()[122..].to_vec()).collect();
    assert_eq!(marks[2], [1, 1, 0, 0, 1, 0]);
    assert_eq!(marks[3], [1, 2, 0, 0, 1, 0]);
    assert_eq!(marks[4], [1, 1, 0, 0, 2, 0]);
    assert_eq!(marks.len(), 5);
}

#[test]
fn a_retired_record_takes_part_no_more() {
    // The result from the first hypothesis implies the rule it comes from.
    let text = "p(a). attacker(k) :- p(X), p(Y). ?- attacker(s).";
    let r = run(text, 9, 9, 9);
    let marks: Vec<Vec<u8>> = r.rules.iter().map(|k| k.bytes()[122..].to_vec()).collect();
    assert_eq!(marks[1], [2, 0, 1, 0, 0, 0]);
    assert_eq!(marks[2], [2, 1, 0, 0, 1, 0]);
    assert_eq!(marks[3], [1, 1, 0, 0, 2, 0]);
    assert_eq!(marks.len(), 4);
}
