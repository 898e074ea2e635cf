//! Terms as trees; a fact is a term whose head is a predicate.

use crate::limits::FIRST_SYMBOL;

#[derive(Clone, Debug, PartialEq, Eq, Hash)]
pub enum Term {
    Var(usize),
    App(u8, Vec<Term>),
}

impl Term {
    /// A symbol without arguments.
    pub fn leaf(symbol: u8) -> Term {
        Term::App(symbol, Vec::new())
    }

    /// How many tokens the term takes.
    pub fn size(&self) -> usize {
        match self {
            Term::Var(_) => 1,
            Term::App(_, args) => 1 + args.iter().map(Term::size).sum::<usize>(),
        }
    }

    /// The size after each variable gets a value, found without building it.
    pub fn size_with(&self, values: &[Term]) -> usize {
        match self {
            Term::Var(v) => values.get(*v).map_or(1, Term::size),
            Term::App(_, args) => args
                .iter()
                .fold(1usize, |n, a| n.saturating_add(a.size_with(values))),
        }
    }

    /// Puts values in the place of variables; one without a value stays.
    pub fn with(&self, values: &[Term]) -> Term {
        match self {
            Term::Var(v) => values.get(*v).unwrap_or(self).clone(),
            Term::App(f, args) => Term::App(*f, args.iter().map(|a| a.with(values)).collect()),
        }
    }

    /// Lists variables in order of first appearance.
    pub fn variables(&self, seen: &mut Vec<usize>) {
        match self {
            Term::Var(v) if !seen.contains(v) => seen.push(*v),
            Term::Var(_) => {}
            Term::App(_, args) => args.iter().for_each(|a| a.variables(seen)),
        }
    }

    /// Gives each variable the number of its place in `order`, from 1.
    pub fn renumber(&self, order: &[usize]) -> Term {
        match self {
            Term::Var(v) => {
                let place = order.iter().position(|o| o == v);
                Term::Var(place.map_or(*v, |p| p + 1))
            }
            Term::App(f, args) => Term::App(*f, args.iter().map(|a| a.renumber(order)).collect()),
        }
    }

    /// Appends the tokens in prefix order.
    pub fn tokens(&self, out: &mut Vec<u8>) {
        match self {
            Term::Var(v) => out.push(*v as u8),
            Term::App(f, args) => {
                out.push(FIRST_SYMBOL + f);
                args.iter().for_each(|a| a.tokens(out));
            }
        }
    }

    /// Attacker of a lone variable.
    pub fn is_open(&self) -> bool {
        matches!(self, Term::App(0, args) if matches!(args[..], [Term::Var(_)]))
    }
}
