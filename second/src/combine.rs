//! Combining two rules upon a hypothesis, and the way back to both parents.

use crate::limits::MAX_TOKENS;
use crate::rule::Rule;
use crate::term::Term;
use crate::unify::{may_unify, Graph, Side};

#[derive(Clone, Debug, PartialEq, Eq)]
pub enum Combined {
    NoUnifier,
    TooLarge,
    Made(Rule),
}

/// Both rules in one graph, with the conclusion and the hypothesis made equal.
struct Meeting {
    graph: Graph,
    /// Variables of R, then those of R'.
    sides: [Side; 2],
    /// The fact that goes away.
    met: usize,
    /// What stays: the conclusion, then the hypotheses in order.
    stay: Vec<usize>,
}

fn meet(r: &Rule, into: &Rule, upon: usize) -> Option<Meeting> {
    let fact = into.body.get(upon)?;
    if !may_unify(&r.head, fact) {
        return None;
    }
    let mut graph = Graph::new();
    let (mut left, mut right) = (Side::new(), Side::new());
    let met = graph.add(&r.head, &mut left);
    let other = graph.add(fact, &mut right);
    if !graph.unify(met, other) {
        return None;
    }
    let mut stay = vec![graph.add(&into.head, &mut right)];
    stay.extend(r.body.iter().map(|f| graph.add(f, &mut left)));
    let rest = into.body.iter().enumerate().filter(|(i, _)| *i != upon);
    stay.extend(rest.map(|(_, f)| graph.add(f, &mut right)));
    Some(Meeting {
        graph,
        sides: [left, right],
        met,
        stay,
    })
}

/// R combined with R' upon hypothesis `upon` of R', counted from 0.
pub fn combine(r: &Rule, into: &Rule, upon: usize) -> Combined {
    let Some(mut m) = meet(r, into, upon) else {
        return Combined::NoUnifier;
    };
    // One fact over the limit can't be mended by dropping copies.
    let Some(mut facts) = m.facts() else {
        return Combined::TooLarge;
    };
    let head = facts.remove(0);
    let rule = Rule { head, body: facts }.drop_copies();
    if rule.fits() {
        Combined::Made(rule.renumber())
    } else {
        Combined::TooLarge
    }
}

impl Meeting {
    /// The facts that stay, as trees, unless one passes the limit.
    fn facts(&mut self) -> Option<Vec<Term>> {
        let mut memo = Vec::new();
        for node in &self.stay {
            if self.graph.size(*node, MAX_TOKENS + 1, &mut memo) > MAX_TOKENS {
                return None;
            }
        }
        let graph = &mut self.graph;
        Some(self.stay.iter().map(|n| graph.expand(*n)).collect())
    }

    /// Ties the free classes to values, and what is still free to the filler.
    fn settle(&mut self, values: &[Term], filler: &Term) -> Option<()> {
        let mut order = Vec::new();
        self.facts()?.iter().for_each(|f| f.variables(&mut order));
        // Slot 0 of the values is unused, since variables count from 1.
        for (node, value) in order.iter().zip(values.iter().skip(1)) {
            let value = self.graph.add(value, &mut Side::new());
            self.graph.unify(*node, value);
        }
        let nodes: Vec<usize> = self.sides.iter().flatten().flatten().copied().collect();
        for node in nodes {
            if self.graph.is_free(node) {
                let value = self.graph.add(filler, &mut Side::new());
                self.graph.unify(node, value);
            }
        }
        Some(())
    }

    fn values(&mut self, side: usize, filler: &Term) -> Vec<Term> {
        let nodes = self.sides[side].clone();
        nodes
            .iter()
            .map(|n| n.map_or_else(|| filler.clone(), |n| self.graph.expand(n)))
            .collect()
    }
}

/// Values for the variables of both parents, from the values of the result;
/// none where the fact that went away passes the limit.
pub fn parents(
    (r, into, upon): (&Rule, &Rule, usize),
    values: &[Term],
    filler: &Term,
) -> Option<[Vec<Term>; 2]> {
    let mut m = meet(r, into, upon)?;
    m.settle(values, filler)?;
    if m.graph.size(m.met, MAX_TOKENS + 1, &mut Vec::new()) > MAX_TOKENS {
        return None;
    }
    Some([m.values(0, filler), m.values(1, filler)])
}
