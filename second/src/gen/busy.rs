//! Much work that comes to nothing new.

use super::draft::Draft;
use super::rng::Rng;

/// Every pair combines, and almost every result is known already.
pub fn rules(rng: &mut Rng) -> Draft {
    let n = rng.between(20, 84);
    let mut clauses = Vec::new();
    for i in 0..n {
        let (a, b) = (i / 10, i % 10);
        clauses.push(format!("p(pair(n{a},m{b}))."));
        clauses.push(format!("c(pair(n{a},m{b}),Y)."));
        clauses.push(format!("c(X,pair(n{a},m{b})) :- p(X)."));
    }
    clauses.push("attacker(s) :- c(n1,X), c(X,m1).".to_string());
    if rng.percent(50) {
        rng.shuffle(&mut clauses);
    }
    Draft::of_text(&(clauses.join(" ") + "?- attacker(s)."))
}

/// A term comes apart in three ways, and each has a lone variable in front
/// that a row of names resolves to the same goal again and again.
pub fn goals(rng: &mut Rng) -> Draft {
    let mut clauses: Vec<String> = (0..rng.between(1, 110))
        .map(|i| format!("attacker(n{i})."))
        .collect();
    for (a, b) in [("X", "Y"), ("Y", "Z"), ("X", "Z")] {
        let body = format!("attacker(W), attacker({a}), attacker({b})");
        clauses.push(format!("attacker(t(X,Y,Z)) :- {body}."));
    }
    let depth = *rng.pick(&[1, 2, 2, 3]);
    let query = tree(rng, depth);
    if rng.percent(50) {
        rng.shuffle(&mut clauses);
    }
    Draft::of_text(&format!("{} ?- attacker({query}).", clauses.join(" ")))
}

/// A term of three arguments whose leaves are mostly unknown.
fn tree(rng: &mut Rng, depth: usize) -> String {
    if depth == 0 || rng.percent(10) {
        return rng.pick(&["a", "b", "c", "n0"]).to_string();
    }
    let args: Vec<String> = (0..3).map(|_| tree(rng, depth - 1)).collect();
    format!("t({})", args.join(","))
}

/// Each level leaves one of two or three facts behind, so that the goals
/// multiply until the table is full or they have too many hypotheses.
pub fn branches(rng: &mut Rng) -> Draft {
    let mut text = String::new();
    for way in ["Y", "Z", "W"].iter().take(rng.between(2, 3)) {
        text += &format!("attacker(t(X,Y,Z,W)) :- attacker(X), attacker({way}).\n");
    }
    let mut query = rng.pick(&["u", "u", "n0"]).to_string();
    for level in 0..rng.between(3, 10) {
        query = format!("t({query},n{0},m{0},k{0})", level);
    }
    text += *rng.pick(&["", "attacker(n0).", "attacker(n0). attacker(m1)."]);
    Draft::of_text(&format!("{text} ?- attacker({query})."))
}
