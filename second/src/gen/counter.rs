//! A counter of nine bits: each fact is made from the one before, so that a
//! derivation goes as deep as the table is long.

use super::draft::Draft;
use super::rng::Rng;

const BITS: usize = 9;

fn fact(bits: &[String]) -> String {
    format!("p(t({}),{})", bits[..6].join(","), bits[6..].join(","))
}

fn number(n: usize) -> Vec<String> {
    let bit = |k: usize| if n >> k & 1 == 1 { "i" } else { "o" };
    (0..BITS).rev().map(|k| bit(k).to_string()).collect()
}

/// Counting one up where the lowest `k` bits are set.
fn up(k: usize) -> String {
    let row = |low: &str, bit: &str| -> Vec<String> {
        let one = |j: usize| match j.cmp(&k) {
            std::cmp::Ordering::Less => low.to_string(),
            std::cmp::Ordering::Equal => bit.to_string(),
            std::cmp::Ordering::Greater => format!("X{j}"),
        };
        (0..BITS).rev().map(one).collect()
    };
    format!("{} :- {}.", fact(&row("o", "i")), fact(&row("i", "o")))
}

/// Clauses that count from `start` until all bits are set, and ask for `target`.
pub fn clauses(start: usize, target: usize) -> Vec<String> {
    let mut clauses: Vec<String> = (0..BITS).map(up).collect();
    clauses.push(format!("{}.", fact(&number(start))));
    clauses.push(format!("attacker(s) :- {}.", fact(&number(target))));
    clauses
}

/// From 11 on the whole count has room, from 10 down it has none.
pub fn deep(rng: &mut Rng) -> Draft {
    let (start, target) = match rng.below(5) {
        0 => (rng.between(8, 13), 511),
        1 => (rng.between(11, 250), rng.between(490, 511)),
        // 254 counts need just as many steps as there are.
        2 => (rng.between(253, 259), rng.between(510, 511)),
        3 => (rng.between(300, 511), 511),
        _ => (rng.between(0, 511), rng.between(0, 511)),
    };
    let mut clauses = clauses(start, target);
    if rng.percent(50) {
        rng.shuffle(&mut clauses);
    }
    Draft::of_text(&(clauses.join("\n") + "?- attacker(s)."))
}
