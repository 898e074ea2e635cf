//! Text to tables and back.

mod common;
use common::*;
use second::show::show;
use second::text::parse;

fn fault(text: &str) -> (usize, usize, String) {
    let f = parse(text.as_bytes()).expect_err(text);
    (f.line, f.column, f.what)
}

fn place(text: &str) -> (usize, usize) {
    let (line, column, _) = fault(text);
    (line, column)
}

#[test]
fn symbols_are_numbered_by_first_appearance() {
    let t = tables("p(f(b),X) :- attacker(c(X)). ?- attacker(f(a)).");
    let kinds: Vec<[u8; 3]> = t.symbols.chunks(16).map(|r| [r[0], r[1], r[2]]).collect();
    let wanted = [
        [1, 1, b'a'],
        [1, 2, b'p'],
        [2, 1, b'f'],
        [3, 0, b'b'],
        [2, 1, b'c'],
        [3, 0, b'a'],
    ];
    assert_eq!(kinds, wanted);
    assert_eq!(t.rules[..10], [1, 7, 65, 66, 67, 1, 64, 68, 1, 0]);
    assert_eq!(t.query[..6], [0, 3, 64, 66, 69, 0]);
    assert_eq!(&t.symbols[..16], b"\x01\x01attacker\0\0\0\0\0\0");
}

#[test]
fn variables_are_numbered_in_each_clause() {
    let t = tables("p(Zz,Y_1,Zz). p(Y_1,Y_1,A) :- p(A,B,b). ?- attacker(s).");
    assert_eq!(t.rules[2..6], [65, 1, 2, 1]);
    assert_eq!(t.rules[128 + 2..128 + 10], [65, 1, 1, 2, 65, 2, 3, 66]);
}

#[test]
fn blanks_and_comments_mean_nothing() {
    let plain = tables("attacker(f(a,X)) :- attacker(X), p(X). ?- attacker(a).");
    let airy = tables(
        "% one. (\nattacker ( f( a\n,X ) ):-attacker(X)%,\n\t,\r\n p(X) .?-\nattacker(a). %end",
    );
    assert_eq!(plain, airy);
}

#[test]
fn faults_name_line_and_column() {
    assert_eq!(place(""), (1, 1));
    assert_eq!(place("attacker(a).\n"), (2, 1));
    assert_eq!(place("?- attacker(a).\n ?- attacker(a)."), (2, 2));
    assert_eq!(place("attacker(a)\n?- attacker(a)."), (2, 1));
    assert_eq!(place("attacker(a,).?- attacker(a)."), (1, 12));
    assert_eq!(place("attacker().?- attacker(a)."), (1, 10));
    assert_eq!(place("attacker(f(a).?- attacker(a)."), (1, 14));
    assert_eq!(place("X :- attacker(a).?- attacker(a)."), (1, 1));
    assert_eq!(place("attacker(X(a)).?- attacker(a)."), (1, 11));
    assert_eq!(place("attacker(a) :- .?- attacker(a)."), (1, 16));
    assert_eq!(place("attacker(a), p(b).?- attacker(a)."), (1, 12));
    assert_eq!(place("\n\n  attacker(skA).?- attacker(a)."), (3, 12));
    assert_eq!(place("attacker(_).?- attacker(a)."), (1, 10));
    assert_eq!(place("attacker(a). #"), (1, 14));
    assert_eq!(place("?- attacker(X)."), (1, 4));
}

#[test]
fn symbols_keep_kind_and_arity() {
    let two = |text: &str| assert!(fault(text).2.contains("two"), "{text}");
    two("attacker(a,b). ?- attacker(a).");
    two("attacker(f(a)). attacker(f(a,b)). ?- attacker(a).");
    two("attacker(f(f(a,a))). ?- attacker(a).");
    two("attacker(f). attacker(f(a)). ?- attacker(a).");
    two("attacker(attacker(a)). ?- attacker(a).");
    two("p(a). attacker(p). ?- attacker(a).");
    two("attacker(f(a)). f(a). ?- attacker(a).");
}

#[test]
fn limits_are_faults() {
    let says = |text: &str, word: &str| assert!(fault(text).2.contains(word), "{text}");
    says("p. ?- attacker(a).", "arity");
    says("p(a,a,a,a,a). ?- attacker(a).", "arity");
    says("attacker(f(a,a,a,a,a,a,a)). ?- attacker(a).", "arity");
    says("attacker(abcdefghijklmno). ?- attacker(a).", "14");
    tables("attacker(abcdefghijklmn). p(a,a,a,a). attacker(f(a,a,a,a,a,a)). ?- attacker(a).");
    let deep = |n| format!("?- attacker({}).", nest("f", n, "a"));
    tables(&deep(118));
    says(&deep(119), "120");
    says(&deep(300_000), "120");
    let body = |n: usize| {
        format!(
            "attacker(a) :- {}. ?- attacker(a).",
            vec!["p(a)"; n].join(",")
        )
    };
    tables(&body(8));
    says(&body(9), "8 hypotheses");
    let many = |n: usize| {
        let facts: Vec<String> = (0..n / 4)
            .map(|i| format!("p(X{0}a,X{0}b,X{0}c,X{0}d)", i))
            .collect();
        format!("attacker(X0a) :- {}. ?- attacker(a).", facts.join(","))
    };
    tables(&many(32));
    let one_more = many(32).replace("attacker(X0a)", "attacker(Y)");
    says(&one_more, "32");
    let rules = |n: usize| "attacker(a).".repeat(n) + "?- attacker(a).";
    tables(&rules(256));
    says(&rules(257), "256");
    let names = |n: usize| -> String {
        let facts: Vec<String> = (1..n).map(|i| format!("attacker(n{i}).")).collect();
        facts.join(" ") + "?- attacker(n1)."
    };
    tables(&names(128));
    says(&names(129), "128");
}

#[test]
fn tables_show_as_the_text_they_came_from() {
    let text = "attacker(f(a,X1)) :- attacker(X1), p(X2).\np(b).\n?- attacker(f(a,b)).\n";
    assert_eq!(show(&input(text)), text);
    let again = show(&input(DENNING_SACCO));
    assert_eq!(tables(&again), tables(DENNING_SACCO));
}

#[test]
fn any_text_gets_some_answer() {
    let mut rng = second::gen::rng::Rng::new(5);
    let marks = b"()(),,..:-?- \n%attacker aXpf1_Z\xff\0";
    for _ in 0..2000 {
        let mut text = DENNING_SACCO.as_bytes().to_vec();
        for _ in 0..rng.between(1, 4) {
            let at = rng.below(text.len());
            text[at] = *rng.pick(marks);
        }
        if let Err(f) = parse(&text) {
            assert!(f.line >= 1 && f.column >= 1);
        }
        let noise: Vec<u8> = (0..rng.below(60)).map(|_| *rng.pick(marks)).collect();
        let _ = parse(&noise);
    }
}
