//! A draft: three tables before a wish is added to them.

use crate::limits::{RULE_BYTES, STEP_BYTES};
use crate::read::read_input;
use crate::rule::Rule;
use crate::run::{verify, Room, Run};
use crate::stream::{Case, Wish};
use crate::symbols::{write_symbols, Kind, Symbol};
use crate::term::Term;
use crate::text;

#[derive(Clone, Debug)]
pub struct Draft {
    pub symbols: Vec<u8>,
    pub rules: Vec<u8>,
    pub query: Vec<u8>,
}

impl Draft {
    pub fn new(symbols: &[Symbol], rules: &[Rule], query: &Term) -> Draft {
        let query = Rule {
            head: query.clone(),
            body: Vec::new(),
        };
        Draft {
            symbols: write_symbols(symbols),
            rules: rules.iter().flat_map(|r| r.bytes()).collect(),
            query: query.bytes().to_vec(),
        }
    }

    /// A text that doesn't parse becomes empty tables, which a test looks for.
    pub fn of_text(text: &str) -> Draft {
        let tables = text::parse(text.as_bytes());
        let (symbols, rules, query) = match tables {
            Ok(t) => (t.symbols, t.rules, t.query),
            Err(_) => (Vec::new(), Vec::new(), Vec::new()),
        };
        Draft {
            symbols,
            rules,
            query,
        }
    }

    pub fn wish(self, wish: Wish) -> Case {
        Case {
            symbols: self.symbols,
            rules: self.rules,
            query: self.query,
            wish,
        }
    }

    /// A run with room for so many rules, goals and steps.
    pub fn run_with(self, rules: usize, goals: usize, steps: usize) -> Case {
        let lent = [rules * RULE_BYTES, goals * RULE_BYTES, steps * STEP_BYTES];
        self.wish(Wish::Run(lent))
    }

    /// What our own run makes of it.
    pub fn verify(&self, room: Room) -> Option<Run> {
        let input = read_input(&self.symbols, &self.rules, &self.query).ok()?;
        Some(verify(&input, room))
    }
}

pub fn symbol(kind: Kind, arity: usize, name: &str) -> Symbol {
    Symbol {
        kind,
        arity,
        name: name.to_string(),
    }
}
