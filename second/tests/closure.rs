//! Answers against plain forward closures, which know nothing of combining.

use second::gen::{case, Kind};
use second::read::{read_input, Input};
use second::rule::Rule;
use second::run::{verify, Room};
use second::stream::{Case, Wish};
use second::symbols::Kind as Sort;
use second::term::Term;
use std::collections::HashSet;

fn judged(case: &Case) -> (Input, u8) {
    let input = read_input(&case.symbols, &case.rules, &case.query).unwrap();
    let Wish::Run(lent) = &case.wish else {
        panic!("no run");
    };
    let number = verify(&input, Room::of_lengths(lent[0], lent[1], lent[2])).number;
    (input, number)
}

/// What closed rules derive, by applying them until nothing is new.
fn closure(rules: &[Rule]) -> HashSet<Term> {
    let mut known: HashSet<Term> = HashSet::new();
    loop {
        let before = known.len();
        for rule in rules {
            if rule.body.iter().all(|f| known.contains(f)) {
                known.insert(rule.head.clone());
            }
        }
        if known.len() == before {
            return known;
        }
    }
}

#[test]
fn closed_tables_agree_with_a_plain_closure() {
    let (mut secret, mut derivable) = (0, 0);
    for n in 0..1500 {
        let (input, number) = judged(&case(9, n, Kind::Closed));
        let derives = closure(&input.rules).contains(&input.query);
        match number {
            0 => assert!(!derives, "{n}"),
            1 | 9 => assert!(derives, "{n}"),
            _ => continue,
        }
        secret += usize::from(!derives);
        derivable += usize::from(derives);
    }
    assert!(secret > 300 && derivable > 300, "{secret} {derivable}");
}

/// Some closed terms: the query's own parts, constants, and a few over them.
fn universe(input: &Input) -> Vec<Term> {
    let mut terms: Vec<Term> = Vec::new();
    let mut parts = vec![&input.query];
    while let Some(Term::App(_, args)) = parts.pop() {
        terms.extend(args.iter().cloned());
        parts.extend(args);
    }
    let symbols = (0..input.symbols.len() as u8).zip(&input.symbols);
    for (n, symbol) in symbols.filter(|(_, s)| s.kind != Sort::Predicate) {
        let args = vec![input.filler.clone(); symbol.arity];
        terms.push(Term::App(n, args));
    }
    let mut seen = HashSet::new();
    terms.retain(|t| t.size() < 12 && seen.insert(t.clone()));
    terms.truncate(8);
    terms
}

/// Every closed instance of a rule over the universe.
fn instances(rule: &Rule, universe: &[Term]) -> Vec<Rule> {
    let rule = rule.renumber();
    let count = rule.variables().len() as u32;
    let total = universe.len().pow(count);
    let instance = |mut n: usize| {
        let mut values = vec![universe[0].clone()];
        for _ in 0..count {
            values.push(universe[n % universe.len()].clone());
            n /= universe.len();
        }
        Rule {
            head: rule.head.with(&values),
            body: rule.body.iter().map(|f| f.with(&values)).collect(),
        }
    };
    (0..total).map(instance).collect()
}

#[test]
fn nothing_secret_is_derived_over_a_small_universe() {
    let (mut secret, mut derivable) = (0, 0);
    for n in 0..1500 {
        let (input, number) = judged(&case(19, n, Kind::Small));
        if number > 1 || input.rules.iter().any(|r| r.variables().len() > 3) {
            continue;
        }
        let universe = universe(&input);
        let rules: Vec<Rule> = input
            .rules
            .iter()
            .flat_map(|r| instances(r, &universe))
            .collect();
        let derives = closure(&rules).contains(&input.query);
        assert!(!derives || number == 1, "{n}");
        secret += usize::from(number == 0);
        derivable += usize::from(derives);
    }
    assert!(secret > 300 && derivable > 300, "{secret} {derivable}");
}
