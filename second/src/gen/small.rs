//! Small well-formed drafts, with variables or without.

use super::draft::Draft;
use super::pool::Pool;
use super::rng::Rng;
use crate::limits::MAX_TOKENS;
use crate::read::read_input;
use crate::rule::Rule;
use crate::run::{Origin, Record, Room};
use crate::symbols::{Kind, Symbol};
use crate::term::Term;

/// Room for a first look at a draft.
const ROOM: Room = Room {
    rules: 48,
    goals: 8,
    steps: 8,
};

/// Closes a fact by one constant for each variable.
fn closed(fact: &Term, constants: &[u8], rng: &mut Rng) -> Term {
    let values: Vec<Term> = (0..=32).map(|_| Term::leaf(*rng.pick(constants))).collect();
    fact.with(&values)
}

fn draft(rng: &mut Rng, open: bool) -> Draft {
    let mut pool = Pool::new(rng);
    let most = rng.between(1, 4);
    let count = if open {
        rng.between(1, 9)
    } else {
        rng.between(2, 20)
    };
    // Facts mostly come first, so that later hypotheses can meet them.
    let mut rules: Vec<Rule> = (0..count)
        .map(|n| pool.rule(rng, open, if 5 * n < 2 * count { most / 4 } else { most }))
        .collect();
    if rng.percent(40) {
        rng.shuffle(&mut rules);
    }
    if open && rng.percent(5) {
        let at = rng.below(rules.len() + 1);
        rules.insert(at, pool.grower(rng));
    }
    rules.retain(|r| r.size() <= MAX_TOKENS);
    pool.variables.clear();
    let query = query(rng, &pool, &rules);
    Draft::new(&pool.symbols, &rules, &query)
}

/// Most queries have the shape of a conclusion, so that many derive.
fn query(rng: &mut Rng, pool: &Pool, rules: &[Rule]) -> Term {
    if !rules.is_empty() && rng.percent(65) {
        let made: Vec<&Rule> = rules.iter().filter(|r| !r.body.is_empty()).collect();
        let from = if made.is_empty() || rng.percent(20) {
            rng.pick(rules)
        } else {
            rng.pick(&made)
        };
        return closed(&from.head, &pool.constants, rng);
    }
    if rng.percent(10) {
        return Term::App(0, vec![pool.nested(rng)]);
    }
    pool.fact(rng, 2)
}

/// Asks for what completion made last, which takes the most steps.
fn deeper(mut draft: Draft, rng: &mut Rng) -> Draft {
    let Some(run) = draft.verify(ROOM) else {
        return draft;
    };
    let made = |k: &&Record| matches!(k.origin, Origin::Pair(..)) && k.open;
    let Some(last) = run.rules.iter().rev().find(made) else {
        return draft;
    };
    let Ok(input) = read_input(&draft.symbols, &draft.rules, &draft.query) else {
        return draft;
    };
    let constant = |s: &Symbol| s.kind != Kind::Predicate && s.arity == 0;
    let all = (0..input.symbols.len() as u8).zip(&input.symbols);
    let constants: Vec<u8> = all.filter(|(_, s)| constant(s)).map(|(n, _)| n).collect();
    let query = closed(&last.rule.head, &constants, rng);
    draft.query = Draft::new(&[], &[], &query).query;
    draft
}

/// A draft whose rules hold variables.
pub fn small(rng: &mut Rng) -> Draft {
    let plain = draft(rng, true);
    if rng.percent(25) {
        return deeper(plain, rng);
    }
    plain
}

/// A draft of closed rules.
pub fn without_variables(rng: &mut Rng) -> Draft {
    let plain = draft(rng, false);
    if rng.percent(25) {
        return deeper(plain, rng);
    }
    plain
}
