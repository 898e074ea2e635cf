//! The drafts worked by hand.

mod common;
use common::*;
use second::combine::{combine, Combined};
use second::imply::implies;
use second::rule::Rule;
use second::unify::{Graph, Side};

const CASE: &str = "attacker(a). attacker(senc(s,k)).
    attacker(M) :- attacker(senc(M,X)), attacker(X).";

#[test]
fn case_1_with_the_key() {
    let text = format!("{CASE} attacker(k). ?- attacker(s).");
    let wanted = "derivable 6 2 3
0 3 attacker(k)
1 1 attacker(senc(s,k))
2 2 attacker(s) 1 0
";
    assert_eq!(verdict(&text), wanted);
}

#[test]
fn case_2_without_the_key() {
    let text = format!("{CASE} ?- attacker(s).");
    assert_eq!(verdict(&text), "secret 4 1 0\n");
}

#[test]
fn case_3_no_rules() {
    assert_eq!(verdict("?- attacker(s)."), "secret 0 1 0\n");
}

#[test]
fn case_4_everything() {
    let wanted = "derivable 1 2 1\n0 0 attacker(s)\n";
    assert_eq!(verdict("attacker(X). ?- attacker(s)."), wanted);
}

#[test]
fn case_5_the_filler() {
    let wanted = "derivable 3 2 2\n0 0 p(s)\n1 1 attacker(s) 0\n";
    let text = "p(X). attacker(s) :- p(Y). ?- attacker(s).";
    assert_eq!(verdict(text), wanted);
}

#[test]
fn case_6_a_rule_twice() {
    let wanted = "derivable 2 2 1\n0 2 attacker(s)\n";
    let text = "attacker(a). attacker(a). attacker(s). ?- attacker(s).";
    assert_eq!(verdict(text), wanted);
}

#[test]
fn case_7_a_full_table() {
    let text = "attacker(f(a)). attacker(f(g(X))) :- attacker(f(X)). ?- attacker(a).";
    assert_eq!(counts(text, 4, 9, 9), [5, 4, 0, 0]);
}

#[test]
fn case_8_hypotheses_are_a_multiset() {
    let r = rules(
        "attacker(h(X,Y)) :- attacker(X), attacker(Y).
         attacker(h(Z,Z)) :- attacker(Z).
         attacker(h(Z,Z)) :- attacker(Z), attacker(Z).",
    );
    assert!(!implies(&r[0], &r[1]));
    assert!(implies(&r[0], &r[2]));
    assert!(implies(&r[0], &r[0]));
    assert!(!implies(&r[1], &r[0]));
}

#[test]
fn case_9_a_variable_inside_its_own_term() {
    let r = rules("attacker(X). attacker(f(X)).");
    let mut graph = Graph::new();
    // One side for both, so that the variable is the same.
    let mut side = Side::new();
    let a = graph.add(&r[0].head, &mut side);
    let b = graph.add(&r[1].head, &mut side);
    assert!(!graph.unify(a, b));
    let a = graph.add(&r[0].head, &mut Side::new());
    let b = graph.add(&r[1].head, &mut Side::new());
    assert!(graph.unify(a, b));
}

#[test]
fn case_10_the_papers_combination() {
    let r = rules(
        "attacker(M) :- attacker(pencrypt(M,pk(S))), attacker(S).
         attacker(pencrypt(sign(k(pk(X)),ska),pk(X))) :- attacker(pk(X)).
         attacker(sign(k(pk(X)),ska)) :- attacker(pk(X)), attacker(X).",
    );
    assert_eq!(combine(&r[1], &r[0], 0), Combined::Made(r[2].clone()));
}

#[test]
fn case_11_denning_sacco() {
    assert_eq!(line(DENNING_SACCO), "derivable 32 3 9");
}

#[test]
fn denning_sacco_with_names_signed_is_secret() {
    let text = DENNING_SACCO
        .replace("sign(k(pk(X)),ska)", "sign(pair(pk(X),k(pk(X))),ska)")
        .replace("sign(K,ska)", "sign(pair(pk(skb),K),ska)");
    assert!(line(&text).starts_with("secret "), "{}", line(&text));
}

fn made(left: &str, right: &str) -> Combined {
    let r = rules(&format!("{left} {right}"));
    combine(&r[0], &r[1], 0)
}

fn fits(left: &str, right: &str) -> bool {
    match made(left, right) {
        Combined::Made(rule) => rule.fits(),
        Combined::TooLarge => false,
        Combined::NoUnifier => panic!("no unifier"),
    }
}

#[test]
fn case_12_tokens() {
    // One predicate, the functions, and a variable at the end.
    let left = |n| format!("p({}).", nest("f", n, "X"));
    let right = format!("attacker({}) :- p(Y).", nest("f", 60, "Y"));
    assert!(fits(&left(58), &right));
    assert!(!fits(&left(59), &right));
}

#[test]
fn case_12_variables() {
    let names =
        |from: usize, to: usize| -> Vec<String> { (from..=to).map(|n| format!("X{n}")).collect() };
    let pack = |v: Vec<String>| {
        let rows: Vec<String> = v
            .chunks(4)
            .map(|c| {
                let mut c = c.to_vec();
                c.resize(4, "e".to_string());
                format!("t({})", c.join(","))
            })
            .collect();
        let mut rows = rows;
        rows.resize(5, "e".to_string());
        format!("u({})", rows.join(","))
    };
    let left = format!("p({}).", pack(names(1, 16)));
    let right = |n| format!("attacker(d(Z,{})) :- p(Z).", pack(names(1, n)));
    assert!(fits(&left, &right(16)));
    assert!(!fits(&left, &right(17)));
}

#[test]
fn case_12_hypotheses() {
    let row = |n: usize| -> String {
        let v: Vec<String> = (1..=n).map(|n| format!("attacker(X{n})")).collect();
        v.join(", ")
    };
    let left = |n| format!("p(a) :- {}.", row(n));
    let right = "attacker(s) :- p(a), q(a), q(b), q(c), q(d).";
    assert!(fits(&left(4), right));
    assert!(!fits(&left(5), right));
}

#[test]
fn fifteen_hypotheses_fit_once_copies_are_dropped() {
    let left = "p(t(X1,X2,X3,X4),t(X5,X6,X7,X8)) :- attacker(X1), attacker(X2), attacker(X3),
        attacker(X4), attacker(X5), attacker(X6), attacker(X7), attacker(X8).";
    let right = "attacker(s) :- p(t(A,B,C,D),t(E,F,G,H)), attacker(B), attacker(A), attacker(D),
        attacker(C), attacker(F), attacker(E), attacker(H).";
    let Combined::Made(Rule { body, .. }) = made(left, right) else {
        panic!("it fits");
    };
    assert_eq!(body.len(), 8);
    let other = right.replace("attacker(H)", "attacker(I)");
    assert_eq!(made(left, &other), Combined::TooLarge);
}

#[test]
fn variables_of_one_record_are_made_different() {
    let r = rules("p(f(X)) :- p(X). p(f(f(X))) :- p(X).");
    assert_eq!(combine(&r[0], &r[0], 0), Combined::Made(r[1].clone()));
}

#[test]
fn a_large_result_is_no_answer_of_secret() {
    let big = nest("f", 100, "X");
    let text = format!(
        "p({big}). attacker({}) :- p(X). ?- attacker(s).",
        nest("f", 30, "X")
    );
    assert_eq!(counts(&text, 9, 9, 9), [6, 2, 0, 0]);
}

#[test]
fn a_lone_open_hypothesis_stays() {
    assert_eq!(
        line("attacker(s) :- attacker(X). ?- attacker(s)."),
        "secret 1 2 0"
    );
}

#[test]
fn the_search_leaves_retired_records_alone() {
    let text = "attacker(f(a)). attacker(f(X)). ?- attacker(f(a)).";
    assert_eq!(verdict(text), "derivable 2 2 1\n0 1 attacker(f(a))\n");
}
