//! What the test files share.
#![allow(dead_code)]

use second::print::verdict as verdict_of;
use second::read::{read_input, Input};
use second::rule::Rule;
use second::run::{verify, Room, Run};
use second::stream::{answer, Case, Wish};
use second::text::{parse, Tables};

pub fn tables(text: &str) -> Tables {
    parse(text.as_bytes()).unwrap_or_else(|f| panic!("{f:?}\n{text}"))
}

pub fn input(text: &str) -> Input {
    let t = tables(text);
    read_input(&t.symbols, &t.rules, &t.query).unwrap()
}

/// The whole printed output with full tables.
pub fn verdict(text: &str) -> String {
    let t = tables(text);
    verdict_of(&t.symbols, &t.rules, &t.query)
}

/// The first printed line.
pub fn line(text: &str) -> String {
    verdict(text).lines().next().unwrap().to_string()
}

pub fn run(text: &str, rules: usize, goals: usize, steps: usize) -> Run {
    let room = Room {
        rules,
        goals,
        steps,
    };
    verify(&input(text), room)
}

/// Number and counts with so much room.
pub fn counts(text: &str, rules: usize, goals: usize, steps: usize) -> [usize; 4] {
    let r = run(text, rules, goals, steps);
    [
        r.number as usize,
        r.rules.len(),
        r.goals.len(),
        r.steps.len(),
    ]
}

/// The rules of a text, as trees; the query is added for them.
pub fn rules(text: &str) -> Vec<Rule> {
    input(&format!("{text} ?- attacker(zz).")).rules
}

/// The lines of an answer to a run with buffers of these lengths in bytes.
pub fn lent(t: &Tables, lengths: [usize; 3]) -> Vec<String> {
    let case = Case {
        symbols: t.symbols.clone(),
        rules: t.rules.clone(),
        query: t.query.clone(),
        wish: Wish::Run(lengths),
    };
    answer(&case).lines().map(str::to_string).collect()
}

/// Number and place of a check.
pub fn checked(t: &Tables, list: &[u8]) -> String {
    let case = Case {
        symbols: t.symbols.clone(),
        rules: t.rules.clone(),
        query: t.query.clone(),
        wish: Wish::Check(list.to_vec()),
    };
    answer(&case).trim_end().to_string()
}

/// The step list that a run with full tables writes.
pub fn steps(text: &str) -> Vec<u8> {
    let run = verify(&input(text), Room::FULL);
    second::stream::step_bytes(&run)
}

/// `f` n times around a term.
pub fn nest(f: &str, n: usize, inside: &str) -> String {
    format!("{}{inside}{}", format!("{f}(").repeat(n), ")".repeat(n))
}

/// Bytes from hex digits.
pub fn unhex(line: &str) -> Vec<u8> {
    let digit = |b: u8| (b as char).to_digit(16).unwrap() as u8;
    let pairs = line.as_bytes().chunks(2);
    pairs.map(|p| digit(p[0]) << 4 | digit(p[1])).collect()
}

pub const DENNING_SACCO: &str = "
attacker(pencrypt(M,P)) :- attacker(M), attacker(P).
attacker(pk(S)) :- attacker(S).
attacker(M) :- attacker(pencrypt(M,pk(S))), attacker(S).
attacker(sign(M,S)) :- attacker(M), attacker(S).
attacker(M) :- attacker(sign(M,S)).
attacker(sencrypt(M,K)) :- attacker(M), attacker(K).
attacker(M) :- attacker(sencrypt(M,K)), attacker(K).
attacker(pk(ska)).
attacker(pk(skb)).
attacker(a).
attacker(pencrypt(sign(k(pk(X)),ska),pk(X))) :- attacker(pk(X)).
attacker(sencrypt(s,K)) :- attacker(pencrypt(sign(K,ska),pk(skb))).
?- attacker(s).
";
