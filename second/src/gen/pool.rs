//! Random terms, facts and rules over a small random table of symbols.

use super::draft::symbol;
use super::rng::Rng;
use crate::rule::Rule;
use crate::symbols::{Kind, Symbol};
use crate::term::Term;

/// What random terms are made from.
pub struct Pool {
    pub symbols: Vec<Symbol>,
    predicates: Vec<u8>,
    functions: Vec<u8>,
    pub constants: Vec<u8>,
    /// Numbers of the variables a rule may use; none in closed drafts.
    pub variables: Vec<usize>,
    /// Conclusions so far, so that hypotheses can meet them.
    heads: Vec<Term>,
}

impl Pool {
    pub fn new(rng: &mut Rng) -> Pool {
        let mut symbols = vec![symbol(Kind::Predicate, 1, "attacker")];
        for name in ["p", "q"] {
            if rng.percent(60) {
                symbols.push(symbol(Kind::Predicate, rng.between(1, 3), name));
            }
        }
        for name in ["f", "g", "h"].iter().take(rng.between(1, 3)) {
            let arity = *rng.pick(&[1, 1, 2, 2, 2, 3]);
            let kind = *rng.pick(&[Kind::Function, Kind::Function, Kind::Name]);
            symbols.push(symbol(kind, arity, name));
        }
        for name in ["a", "b", "s", "c", "d"].iter().take(rng.between(1, 5)) {
            let kind = *rng.pick(&[Kind::Name, Kind::Name, Kind::Function]);
            symbols.push(symbol(kind, 0, name));
        }
        // The order of the table should not matter, but symbol 0 is fixed.
        rng.shuffle(&mut symbols[1..]);
        Pool::sorted(symbols)
    }

    fn sorted(symbols: Vec<Symbol>) -> Pool {
        let which = |want: &dyn Fn(&Symbol) -> bool| -> Vec<u8> {
            let all = symbols.iter().enumerate();
            all.filter(|(_, s)| want(s)).map(|(n, _)| n as u8).collect()
        };
        let predicate = |s: &Symbol| s.kind == Kind::Predicate;
        Pool {
            predicates: which(&|s| predicate(s)),
            functions: which(&|s| !predicate(s) && s.arity > 0),
            constants: which(&|s| !predicate(s) && s.arity == 0),
            variables: Vec::new(),
            heads: Vec::new(),
            symbols,
        }
    }

    fn term(&self, rng: &mut Rng, depth: usize) -> Term {
        if depth > 0 && rng.percent(45) {
            let f = *rng.pick(&self.functions);
            return self.applied(rng, f, depth - 1);
        }
        if !self.variables.is_empty() && rng.percent(65) {
            return Term::Var(*rng.pick(&self.variables));
        }
        Term::leaf(*rng.pick(&self.constants))
    }

    fn applied(&self, rng: &mut Rng, f: u8, depth: usize) -> Term {
        let arity = self.symbols[f as usize].arity;
        Term::App(f, (0..arity).map(|_| self.term(rng, depth)).collect())
    }

    /// A term about as long as a query may get before it has no room.
    pub fn nested(&self, rng: &mut Rng) -> Term {
        let f = *rng.pick(&self.functions);
        let (arity, filler) = (self.symbols[f as usize].arity, self.constants[0]);
        let mut term = Term::leaf(filler);
        for _ in 0..*rng.pick(&[10, 19, 20, 28, 29, 58, 59]) / arity {
            let mut args = vec![Term::leaf(filler); arity];
            args[rng.below(arity)] = term;
            term = Term::App(f, args);
        }
        term
    }

    pub fn fact(&self, rng: &mut Rng, depth: usize) -> Term {
        let predicate = if rng.percent(55) {
            0
        } else {
            *rng.pick(&self.predicates)
        };
        self.applied(rng, predicate, depth)
    }

    fn hypothesis(&self, rng: &mut Rng, body: &[Term]) -> Term {
        if !body.is_empty() && rng.percent(12) {
            return rng.pick(body).clone();
        }
        if !self.variables.is_empty() && rng.percent(30) {
            return Term::App(0, vec![Term::Var(*rng.pick(&self.variables))]);
        }
        if !self.heads.is_empty() && rng.percent(75) {
            let head = rng.pick(&self.heads).clone();
            return self.blurred(rng, &head, true);
        }
        self.fact(rng, 2)
    }

    /// A conclusion that says everything would leave nothing else to do, so
    /// most take their variables from the hypotheses, and few are lone ones.
    fn conclusion(&mut self, rng: &mut Rng, depth: usize, body: &[Term]) -> Term {
        if rng.percent(85) {
            let mut seen = Vec::new();
            body.iter().for_each(|f| f.variables(&mut seen));
            self.variables = seen;
        }
        let mut head = self.fact(rng, depth);
        for _ in 0..2 {
            if head.is_open() {
                head = self.fact(rng, depth.max(1));
            }
        }
        head
    }

    /// A fact with variables of this rule here and there, or a changed constant.
    fn blurred(&self, rng: &mut Rng, term: &Term, whole: bool) -> Term {
        match term {
            Term::App(f, args) if whole || !rng.percent(20) => {
                let args = args.iter().map(|a| self.blurred(rng, a, false));
                Term::App(*f, args.collect())
            }
            Term::Var(_) if rng.percent(25) => self.term(rng, 1),
            _ if self.variables.is_empty() && rng.percent(80) => term.clone(),
            _ if self.variables.is_empty() => Term::leaf(*rng.pick(&self.constants)),
            _ => Term::Var(*rng.pick(&self.variables)),
        }
    }

    /// A rule that makes a longer fact from each fact of its predicate.
    pub fn grower(&self, rng: &mut Rng) -> Rule {
        let (p, f) = (*rng.pick(&self.predicates), *rng.pick(&self.functions));
        let arity = |n: u8| self.symbols[n as usize].arity;
        let around = |f: u8, inside: &Term| Term::App(f, vec![inside.clone(); arity(f)]);
        let mut more = around(f, &Term::Var(2));
        if rng.percent(60) {
            more = around(f, &more);
        }
        // A variable of its own keeps the hypothesis from being open.
        let (mut head, mut body) = (vec![Term::Var(1); arity(p)], vec![Term::Var(1); arity(p)]);
        head[0] = more;
        body[0] = if p == 0 {
            around(f, &Term::Var(2))
        } else {
            Term::Var(2)
        };
        if p == 0 {
            head[0] = around(f, &head[0]);
        }
        Rule {
            head: Term::App(p, head),
            body: vec![Term::App(p, body)],
        }
    }

    pub fn rule(&mut self, rng: &mut Rng, open: bool, most: usize) -> Rule {
        self.variables.clear();
        if open {
            for _ in 0..rng.between(1, 3) {
                let far = *rng.pick(&[4, 4, 4, 32]);
                self.variables.push(rng.between(1, far));
            }
        }
        let mut body = Vec::new();
        for _ in 0..hypotheses(rng, most) {
            let fact = self.hypothesis(rng, &body);
            body.push(fact);
        }
        let depth = if rng.percent(6) {
            rng.between(5, 7)
        } else {
            rng.between(0, 2)
        };
        let head = self.conclusion(rng, depth, &body);
        self.heads.push(head.clone());
        Rule { head, body }
    }
}

fn hypotheses(rng: &mut Rng, most: usize) -> usize {
    let usual = [0, 0, 1, 1, 1, 1, 2, 2, 2, 3, 3, 4];
    if rng.percent(3) {
        rng.between(5, 8)
    } else {
        (*rng.pick(&usual)).min(most)
    }
}
