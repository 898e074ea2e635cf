//! Unifier and implication against plain versions on small random rules.

mod common;
use common::*;
use second::combine::{combine, Combined};
use second::gen::rng::Rng;
use second::imply::implies;
use second::rule::Rule;
use second::term::Term;
use second::unify::{Graph, Side};
use std::collections::BTreeMap;
use std::time::{Duration, Instant};

type Binding = BTreeMap<usize, Term>;

fn apply(term: &Term, s: &Binding) -> Term {
    match term {
        Term::Var(v) => s.get(v).map_or(term.clone(), |t| apply(t, s)),
        Term::App(f, args) => Term::App(*f, args.iter().map(|a| apply(a, s)).collect()),
    }
}

fn occurs(v: usize, term: &Term) -> bool {
    let mut seen = Vec::new();
    term.variables(&mut seen);
    seen.contains(&v)
}

/// The textbook unifier, with substitutions applied in full.
fn textbook(a: &Term, b: &Term, s: &mut Binding) -> bool {
    match (apply(a, s), apply(b, s)) {
        (Term::Var(x), Term::Var(y)) if x == y => true,
        (Term::Var(x), t) | (t, Term::Var(x)) => {
            let good = !occurs(x, &t);
            s.insert(x, t);
            good
        }
        (Term::App(f, x), Term::App(g, y)) => {
            f == g && x.iter().zip(&y).all(|(a, b)| textbook(a, b, s))
        }
    }
}

/// Symbols: 0 attacker/1, 1 q/2, 2 f/1, 3 g/2, 4 a, 5 b.
const ARITY: [usize; 6] = [1, 2, 1, 2, 0, 0];

fn term(rng: &mut Rng, depth: usize, variables: usize) -> Term {
    if rng.percent(50) || depth == 0 {
        if rng.percent(75) {
            return Term::Var(rng.between(1, variables));
        }
        return Term::leaf(rng.between(4, 5) as u8);
    }
    let f = rng.between(2, 3);
    let args = (0..ARITY[f])
        .map(|_| term(rng, depth - 1, variables))
        .collect();
    Term::App(f as u8, args)
}

fn fact(rng: &mut Rng, depth: usize, variables: usize) -> Term {
    let p = rng.below(2);
    let args = (0..ARITY[p]).map(|_| term(rng, depth, variables)).collect();
    Term::App(p as u8, args)
}

fn rule(rng: &mut Rng, most: usize, depth: usize) -> Rule {
    let variables = rng.between(1, 3);
    let body = (0..rng.between(0, most))
        .map(|_| fact(rng, depth, variables))
        .collect();
    Rule {
        head: fact(rng, depth, variables),
        body,
    }
}

fn shift(term: &Term) -> Term {
    let far: Vec<Term> = (0..50).map(|v| Term::Var(v + 100)).collect();
    term.with(&far)
}

#[test]
fn unifiers_exist_where_the_textbook_says() {
    let mut rng = Rng::new(1);
    let (mut yes, mut no) = (0, 0);
    for _ in 0..20_000 {
        let (a, b) = (term(&mut rng, 3, 3), term(&mut rng, 3, 3));
        let mut graph = Graph::new();
        let mut side = Side::new();
        let nodes = (graph.add(&a, &mut side), graph.add(&b, &mut side));
        let found = graph.unify(nodes.0, nodes.1);
        assert_eq!(found, textbook(&a, &b, &mut Binding::new()), "{a:?} {b:?}");
        if found {
            assert_eq!(graph.expand(nodes.0), graph.expand(nodes.1));
        }
        yes += usize::from(found);
        no += usize::from(!found);
    }
    assert!(yes > 2000 && no > 2000, "{yes} {no}");
}

#[test]
fn combinations_are_those_of_the_textbook() {
    let mut rng = Rng::new(2);
    let mut made = 0;
    for _ in 0..20_000 {
        let (r, into) = (rule(&mut rng, 3, 2), rule(&mut rng, 3, 2));
        for upon in 0..into.body.len() {
            let far = Rule {
                head: shift(&into.head),
                body: into.body.iter().map(shift).collect(),
            };
            let mut s = Binding::new();
            let wanted = if textbook(&r.head, &far.body[upon], &mut s) {
                let rest = far.body.iter().enumerate().filter(|(i, _)| *i != upon);
                let body = r.body.iter().chain(rest.map(|(_, f)| f));
                let whole = Rule {
                    head: apply(&far.head, &s),
                    body: body.map(|f| apply(f, &s)).collect(),
                };
                made += 1;
                Combined::Made(whole.drop_copies().renumber())
            } else {
                Combined::NoUnifier
            };
            assert_eq!(combine(&r, &into, upon), wanted, "{r:?} {into:?} {upon}");
        }
    }
    assert!(made > 2000, "{made}");
}

/// Every way to send hypotheses to different hypotheses.
fn somehow(from: &[Term], to: &[Term], used: &mut Vec<usize>, s: &Binding) -> bool {
    let Some(first) = from.first() else {
        return true;
    };
    (0..to.len()).any(|i| {
        let mut s = s.clone();
        if used.contains(&i) || !matches(first, &to[i], &mut s) {
            return false;
        }
        used.push(i);
        let good = somehow(&from[1..], to, used, &s);
        used.pop();
        good
    })
}

fn matches(from: &Term, to: &Term, s: &mut Binding) -> bool {
    match (from, to) {
        (Term::Var(v), _) => s.entry(*v).or_insert_with(|| to.clone()) == to,
        (Term::App(f, x), Term::App(g, y)) => {
            f == g && x.iter().zip(y).all(|(a, b)| matches(a, b, s))
        }
        _ => false,
    }
}

#[test]
fn implication_is_found_by_trying_everything() {
    let mut rng = Rng::new(3);
    let mut yes = 0;
    for _ in 0..40_000 {
        let r = rule(&mut rng, 4, 1);
        let mut q = rule(&mut rng, 4, 1);
        if rng.percent(60) {
            // An instance with more hypotheses, in another order.
            let values: Vec<Term> = (0..4).map(|_| term(&mut rng, 1, 3)).collect();
            q.head = r.head.with(&values);
            q.body.extend(r.body.iter().map(|f| f.with(&values)));
            rng.shuffle(&mut q.body);
        }
        if rng.percent(20) && !q.body.is_empty() {
            q.body.pop();
        }
        let mut s = Binding::new();
        let wanted =
            matches(&r.head, &q.head, &mut s) && somehow(&r.body, &q.body, &mut Vec::new(), &s);
        assert_eq!(implies(&r, &q), wanted, "{r:?} {q:?}");
        yes += usize::from(wanted);
    }
    assert!(yes > 5000, "{yes}");
}

fn quickly(what: &str, work: impl FnOnce()) {
    let start = Instant::now();
    work();
    let took = start.elapsed();
    assert!(took < Duration::from_secs(2), "{what} took {took:?}");
}

#[test]
fn eight_hypotheses_of_one_shape() {
    let ring = |n: usize, name: &str| -> Vec<String> {
        (0..n)
            .map(|i| format!("q({name}{i},{name}{})", (i + 1) % n))
            .collect()
    };
    let whole = format!("attacker(s) :- {}.", ring(8, "X").join(","));
    let split = [ring(5, "X"), ring(3, "Y")].concat();
    let split = format!("attacker(s) :- {}.", split.join(","));
    let r = rules(&format!("{whole} {split}"));
    quickly("rings", || {
        for _ in 0..200 {
            assert!(!implies(&r[0], &r[1]));
            assert!(!implies(&r[1], &r[0]));
            assert!(implies(&r[0], &r[0]));
        }
    });
}

#[test]
fn terms_that_double_on_both_sides() {
    let n = 26;
    let mut graph = Graph::new();
    let (mut left, mut right) = (Side::new(), Side::new());
    let twice = |v| Term::App(3, vec![Term::Var(v), Term::Var(v)]);
    quickly("doubling", || {
        for i in 1..n {
            let pairs = [(Term::Var(i), twice(i + 1)), (twice(i + 1), Term::Var(i))];
            for (a, b) in pairs {
                let a = graph.add(&a, &mut left);
                let b = graph.add(&b, &mut right);
                assert!(graph.unify(a, b));
            }
        }
        let (a, b) = (left[1].unwrap(), right[1].unwrap());
        assert!(graph.unify(a, b));
        assert_eq!(graph.size(a, 121, &mut Vec::new()), 121);
        assert_eq!(graph.size(left[n].unwrap(), 121, &mut Vec::new()), 1);
    });
}
