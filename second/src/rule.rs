//! Rules as trees: dropping copies, fit, renumbering, and their bytes.

use crate::limits::*;
use crate::term::Term;

#[derive(Clone, Debug, PartialEq, Eq)]
pub struct Rule {
    pub head: Term,
    pub body: Vec<Term>,
}

impl Rule {
    /// The conclusion, then the hypotheses.
    pub fn facts(&self) -> impl Iterator<Item = &Term> {
        std::iter::once(&self.head).chain(&self.body)
    }

    /// How many tokens all facts take.
    pub fn size(&self) -> usize {
        self.facts().map(Term::size).sum()
    }

    /// Variables in order of first appearance.
    pub fn variables(&self) -> Vec<usize> {
        let mut seen = Vec::new();
        self.facts().for_each(|f| f.variables(&mut seen));
        seen
    }

    /// Keeps only the first of equal hypotheses.
    pub fn drop_copies(self) -> Rule {
        let mut body: Vec<Term> = Vec::with_capacity(self.body.len());
        for fact in self.body {
            if !body.contains(&fact) {
                body.push(fact);
            }
        }
        Rule {
            head: self.head,
            body,
        }
    }

    /// Whether a rule without copies has room in a record.
    pub fn fits(&self) -> bool {
        self.body.len() <= MAX_HYPOTHESES
            && self.size() <= MAX_TOKENS
            && self.variables().len() <= MAX_VARIABLES
    }

    /// Numbers the variables 1, 2, .. by first appearance.
    pub fn renumber(&self) -> Rule {
        let order = self.variables();
        Rule {
            head: self.head.renumber(&order),
            body: self.body.iter().map(|f| f.renumber(&order)).collect(),
        }
    }

    /// Whether every hypothesis is attacker of a lone variable.
    pub fn all_open(&self) -> bool {
        self.body.iter().all(Term::is_open)
    }

    /// The record of an input rule; the marks at its end are left zero.
    pub fn bytes(&self) -> [u8; RULE_BYTES] {
        let mut tokens = Vec::with_capacity(MAX_TOKENS);
        self.facts().for_each(|f| f.tokens(&mut tokens));
        let mut out = [0; RULE_BYTES];
        out[0] = self.body.len() as u8;
        out[1] = tokens.len() as u8;
        for (to, from) in out[TOKENS_AT..STATE_AT].iter_mut().zip(tokens) {
            *to = from;
        }
        out
    }
}
