//! Where the rules leave a choice: the smallest drafts that tell readings apart.

mod common;
use common::*;
use second::print::verdict as verdict_of;
use second::run::Origin;

#[test]
fn r1_a_refused_query_has_place_0() {
    let mut t = tables("?- attacker(s).");
    t.query.pop();
    assert_eq!(verdict_of(&t.symbols, &t.rules, &t.query), "refused 4 0\n");
    assert_eq!(verdict_of(&t.symbols, &t.rules, &[]), "refused 4 0\n");
}

#[test]
fn r3_places_of_refusals() {
    let mut t = tables("attacker(a). attacker(b). ?- attacker(s).");
    t.rules[128 + 122] = 1;
    assert_eq!(verdict_of(&t.symbols, &t.rules, &t.query), "refused 3 1\n");
    t.rules.pop();
    assert_eq!(
        verdict_of(&t.symbols, &t.rules, &t.query),
        "refused 3 65535\n"
    );
    t.symbols[1] = 2;
    assert_eq!(verdict_of(&t.symbols, &t.rules, &t.query), "refused 2 0\n");
}

#[test]
fn r4_the_position_counts_without_copies() {
    let r = run(
        "q(a,X). attacker(k) :- p(X), p(X), q(X,X). ?- attacker(s).",
        9,
        9,
        9,
    );
    assert_eq!(r.rules.len(), 3);
    assert_eq!(r.rules[2].origin, Origin::Pair(0, 1, 1));
    assert_eq!(r.rules[2].bytes()[122..], [1, 2, 0, 0, 1, 0]);
}

#[test]
fn r5_only_one_hypothesis_goes_away() {
    let text = "p(a). attacker(s) :- p(X), p(a). ?- attacker(s).";
    assert_eq!(line(text), "derivable 4 2 2");
}

#[test]
fn r6_search_combines_upon_open_hypotheses() {
    let text = "attacker(s) :- attacker(X). attacker(a). ?- attacker(s).";
    assert_eq!(line(text), "derivable 2 3 2");
}

#[test]
fn r7_success_needs_a_record() {
    let text = "attacker(s). ?- attacker(s).";
    assert_eq!(counts(text, 9, 1, 9), [7, 1, 1, 0]);
    assert_eq!(counts(text, 9, 2, 9), [1, 1, 2, 1]);
}

#[test]
fn r8_goal_0_fit_before_room() {
    let long = |n| format!("?- attacker({}).", nest("f", n, "a"));
    assert_eq!(counts(&long(59), 0, 0, 0), [8, 0, 0, 0]);
    assert_eq!(counts(&long(58), 0, 0, 0), [7, 0, 0, 0]);
    assert_eq!(counts(&long(58), 0, 1, 0), [0, 0, 1, 0]);
    assert_eq!(counts(&long(59), 0, 1, 0), [8, 0, 0, 0]);
}

#[test]
fn r9_goal_0_implies_goals_too() {
    // The result is the query from itself, which goal 0 says already.
    let text = "attacker(X) :- attacker(X). ?- attacker(s).";
    assert_eq!(counts(text, 9, 1, 9), [0, 1, 1, 0]);
    let text = "attacker(X) :- attacker(X), attacker(Y). ?- attacker(s).";
    assert_eq!(counts(text, 9, 1, 9), [0, 1, 1, 0]);
}

#[test]
fn r10_room_only_for_something_to_keep() {
    let text = "attacker(X). attacker(s). ?- attacker(s).";
    assert_eq!(counts(text, 1, 9, 9), [1, 1, 2, 1]);
    assert_eq!(counts(text, 0, 9, 9), [5, 0, 0, 0]);
    assert_eq!(counts("?- attacker(s).", 0, 9, 9), [0, 0, 1, 0]);
}

#[test]
fn r11_the_writing_ends_at_the_query() {
    let text = "attacker(s). attacker(f(k)) :- attacker(s).
        attacker(X) :- attacker(f(k)). ?- attacker(s).";
    let out = verdict(text);
    assert_eq!(out.lines().count(), 2);
    assert!(out.ends_with("\n0 0 attacker(s)\n"));
}

#[test]
fn r12_what_stays_free_takes_the_filler() {
    let text = "q(X,f(Y)). attacker(s) :- q(f(Z),Z). ?- attacker(s).";
    let out = verdict(text);
    assert_eq!(out.lines().nth(1), Some("0 0 q(f(f(s)),f(s))"));
}

#[test]
fn r13_the_filler_is_the_first_constant() {
    let text = "p(X). attacker(g(b,a)) :- p(Y). ?- attacker(g(b,a)).";
    assert_eq!(verdict(text).lines().nth(1), Some("0 0 p(b)"));
    let mut t = tables(text);
    // Symbol b made a function: it still is the filler.
    let b = t
        .symbols
        .chunks(16)
        .position(|r| r[2..4] == *b"b\0")
        .unwrap();
    t.symbols[16 * b] = 2;
    let out = verdict_of(&t.symbols, &t.rules, &t.query);
    assert_eq!(out.lines().nth(1), Some("0 0 p(b)"));
}

#[test]
fn r14_steps_repeat_and_constants_print_bare() {
    let text = "p(a). attacker(f(s)) :- p(X), p(a), p(X). ?- attacker(f(s)).";
    assert!(verdict(text).ends_with("\n1 1 attacker(f(s)) 0 0 0\n"));
    let text = "p(a). q(b). attacker(s) :- p(X), p(X), q(Y), p(X). ?- attacker(s).";
    assert!(verdict(text).ends_with("\n2 2 attacker(s) 1 1 0 1\n"));
}

#[test]
fn r15_a_list_may_be_good_where_the_run_answers_8() {
    let text = format!("attacker({0}). ?- attacker({0}).", nest("f", 100, "s"));
    assert_eq!(counts(&text, 9, 9, 9), [8, 1, 0, 0]);
    let t = tables(&text);
    let mut step = vec![0; 140];
    step[3] = t.query[1];
    step[20..].copy_from_slice(&t.query[2..122]);
    assert_eq!(checked(&t, &step), "0 0");
}

#[test]
fn r16_printed_names() {
    let mut t = tables("attacker(abcdefghijklmn). ?- attacker(s).");
    let good = verdict_of(&t.symbols, &t.rules, &t.query);
    assert_eq!(good, "secret 1 1 0\n");
    t.symbols[16 + 8] = 0;
    let bad = verdict_of(&t.symbols, &t.rules, &t.query);
    assert_eq!(bad, "refused 2 1\n");
}
