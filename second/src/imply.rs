//! Implication: one substitution that carries the conclusion over and the
//! hypotheses, one to one, to different hypotheses.

use crate::rule::Rule;
use crate::term::Term;

/// What the variables of one rule stand for in another, and in which order
/// they were tied, so that a choice can be taken back.
#[derive(Default)]
pub struct Match<'a> {
    values: Vec<Option<&'a Term>>,
    trail: Vec<usize>,
}

impl<'a> Match<'a> {
    /// Extends the match so that `from` becomes `to`; it may be left half done.
    pub fn carry(&mut self, from: &Term, to: &'a Term) -> bool {
        match (from, to) {
            (Term::Var(v), _) => self.tie(*v, to),
            (Term::App(f, x), Term::App(g, y)) => {
                f == g && x.len() == y.len() && x.iter().zip(y).all(|(a, b)| self.carry(a, b))
            }
            _ => false,
        }
    }

    fn tie(&mut self, variable: usize, to: &'a Term) -> bool {
        if self.values.len() <= variable {
            self.values.resize(variable + 1, None);
        }
        if let Some(old) = self.values[variable] {
            return old == to;
        }
        self.values[variable] = Some(to);
        self.trail.push(variable);
        true
    }

    /// As `carry`, but a failure leaves no trace.
    fn attempt(&mut self, from: &Term, to: &'a Term) -> bool {
        let mark = self.trail.len();
        let good = self.carry(from, to);
        if !good {
            self.back(mark);
        }
        good
    }

    fn back(&mut self, mark: usize) {
        for v in self.trail.drain(mark..) {
            self.values[v] = None;
        }
    }
}

/// Whether `r` implies `q`.
pub fn implies(r: &Rule, q: &Rule) -> bool {
    if r.body.len() > q.body.len() {
        return false;
    }
    let mut m = Match::default();
    if !m.carry(&r.head, &q.head) {
        return false;
    }
    let rows: Vec<&Term> = r.body.iter().collect();
    place(rows, &q.body, 0, &mut m)
}

/// Places the hypothesis with the fewest ways first and goes back on failure.
fn place<'a>(rows: Vec<&Term>, body: &'a [Term], used: u32, m: &mut Match<'a>) -> bool {
    if rows.is_empty() {
        return true;
    }
    let ways: Vec<Vec<usize>> = rows.iter().map(|f| targets(f, body, used, m)).collect();
    let narrow = (0..rows.len()).min_by_key(|i| ways[*i].len()).unwrap_or(0);
    let mut rest = rows.clone();
    let fact = rest.remove(narrow);
    for to in &ways[narrow] {
        let mark = m.trail.len();
        if m.attempt(fact, &body[*to]) && place(rest.clone(), body, used | 1 << to, m) {
            return true;
        }
        m.back(mark);
    }
    false
}

/// Hypotheses not used yet that the fact can become.
fn targets<'a>(fact: &Term, body: &'a [Term], used: u32, m: &mut Match<'a>) -> Vec<usize> {
    let mark = m.trail.len();
    let free = (0..body.len()).filter(|to| used & (1 << to) == 0);
    free.filter(|to| {
        let good = m.attempt(fact, &body[*to]);
        m.back(mark);
        good
    })
    .collect()
}
