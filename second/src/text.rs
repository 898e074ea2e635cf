//! From Prolog-like text to tables.

use crate::limits::*;
use crate::rule::Rule;
use crate::symbols::{is_name, write_symbols, Kind, Symbol};
use crate::term::Term;

/// What is wrong with a text, and where; lines and columns count from 1.
#[derive(Clone, Debug, PartialEq, Eq)]
pub struct Fault {
    pub line: usize,
    pub column: usize,
    pub what: String,
}

/// The three tables as bytes.
#[derive(Clone, Debug, PartialEq, Eq)]
pub struct Tables {
    pub symbols: Vec<u8>,
    pub rules: Vec<u8>,
    pub query: Vec<u8>,
}

type Place = usize;
type Read<T> = Result<T, (Place, String)>;

/// Turns a text into tables, or says where it can't be.
pub fn parse(text: &[u8]) -> Result<Tables, Fault> {
    let mut reader = Reader::new(text);
    reader.clauses().map_err(|(place, what)| {
        let before = &text[..place.min(text.len())];
        let start = before
            .iter()
            .rposition(|b| *b == b'\n')
            .map_or(0, |n| n + 1);
        Fault {
            line: 1 + before.iter().filter(|b| **b == b'\n').count(),
            column: 1 + before.len() - start,
            what,
        }
    })
}

/// A symbol under way: the arity is not known before its bracket closes.
struct Entry {
    name: Vec<u8>,
    kind: Kind,
    arity: Option<usize>,
}

struct Reader<'a> {
    text: &'a [u8],
    at: Place,
    symbols: Vec<Entry>,
    /// Of the clause being read.
    variables: Vec<&'a [u8]>,
    tokens: usize,
}

fn fault<T>(place: Place, what: &str) -> Read<T> {
    Err((place, what.to_string()))
}

impl<'a> Reader<'a> {
    fn new(text: &'a [u8]) -> Reader<'a> {
        let attacker = Entry {
            name: b"attacker".to_vec(),
            kind: Kind::Predicate,
            arity: Some(1),
        };
        Reader {
            text,
            at: 0,
            symbols: vec![attacker],
            variables: Vec::new(),
            tokens: 0,
        }
    }

    fn clauses(&mut self) -> Read<Tables> {
        let (mut rules, mut query) = (Vec::new(), None);
        while self.peek().is_some() {
            let start = self.at;
            self.variables.clear();
            self.tokens = 0;
            if self.eat(b"?-") {
                if query.is_some() {
                    return fault(start, "a second query");
                }
                query = Some(self.query()?);
            } else {
                if rules.len() == MAX_INPUT_RULES * RULE_BYTES {
                    return fault(start, "more than 256 rules");
                }
                rules.extend_from_slice(&self.clause()?.bytes());
            }
        }
        let Some(query) = query else {
            return fault(self.at, "no query");
        };
        Ok(Tables {
            symbols: self.table(),
            rules,
            query,
        })
    }

    fn table(&self) -> Vec<u8> {
        let symbol = |e: &Entry| Symbol {
            kind: e.kind,
            arity: e.arity.unwrap_or(0),
            name: e.name.iter().map(|b| *b as char).collect(),
        };
        let symbols: Vec<Symbol> = self.symbols.iter().map(symbol).collect();
        write_symbols(&symbols)
    }

    fn query(&mut self) -> Read<Vec<u8>> {
        self.peek();
        let start = self.at;
        let head = self.fact()?;
        if !self.variables.is_empty() {
            return fault(start, "a variable in the query");
        }
        self.expect(b".")?;
        let rule = Rule {
            head,
            body: Vec::new(),
        };
        Ok(rule.bytes().to_vec())
    }

    fn clause(&mut self) -> Read<Rule> {
        let head = self.fact()?;
        let mut body = Vec::new();
        if self.eat(b":-") {
            loop {
                self.peek();
                if body.len() == MAX_HYPOTHESES {
                    return fault(self.at, "more than 8 hypotheses");
                }
                body.push(self.fact()?);
                if !self.eat(b",") {
                    break;
                }
            }
        }
        self.expect(b".")?;
        Ok(Rule { head, body })
    }

    fn fact(&mut self) -> Read<Term> {
        self.peek();
        let start = self.at;
        let name = self.word();
        if name.is_empty() {
            return fault(start, "a fact was expected");
        }
        self.applied(start, name, Some(Kind::Predicate))
    }

    fn term(&mut self) -> Read<Term> {
        self.peek();
        let start = self.at;
        let word = self.word();
        if word.first().is_some_and(u8::is_ascii_uppercase) {
            self.count(start)?;
            return self.variable(start, word);
        }
        if word.is_empty() {
            return fault(start, "a term was expected");
        }
        self.applied(start, word, None)
    }

    fn variable(&mut self, start: Place, word: &'a [u8]) -> Read<Term> {
        let known = self.variables.iter().position(|v| *v == word);
        if known.is_none() && self.variables.len() == MAX_VARIABLES {
            return fault(start, "more than 32 variables");
        }
        let place = known.unwrap_or_else(|| {
            self.variables.push(word);
            self.variables.len() - 1
        });
        Ok(Term::Var(place + 1))
    }

    /// A symbol and its arguments; the count of tokens bounds the depth.
    fn applied(&mut self, start: Place, name: &[u8], kind: Option<Kind>) -> Read<Term> {
        self.count(start)?;
        let bracket = self.eat(b"(");
        let inside = if bracket { Kind::Function } else { Kind::Name };
        let kind = kind.unwrap_or(inside);
        let number = self.enter(start, name, kind)?;
        let args = if bracket {
            self.arguments()?
        } else {
            Vec::new()
        };
        let (least, most) = match kind {
            Kind::Predicate => (1, 4),
            _ => (0, 6),
        };
        if args.len() < least || args.len() > most {
            return fault(start, "arity out of range");
        }
        let arity = &mut self.symbols[number as usize].arity;
        if *arity.get_or_insert(args.len()) != args.len() {
            return fault(start, "a symbol with two arities");
        }
        Ok(Term::App(number, args))
    }

    fn arguments(&mut self) -> Read<Vec<Term>> {
        let mut args = vec![self.term()?];
        while self.eat(b",") {
            args.push(self.term()?);
        }
        self.expect(b")")?;
        Ok(args)
    }

    /// The number of a symbol, new or known, before its arguments get theirs.
    fn enter(&mut self, start: Place, name: &[u8], kind: Kind) -> Read<u8> {
        if !is_name(name) {
            return fault(start, "a name is a letter a-z, then a-z or 0-9");
        }
        if name.len() > 14 {
            return fault(start, "a name of more than 14 characters");
        }
        if let Some(n) = self.symbols.iter().position(|e| e.name == name) {
            if self.symbols[n].kind != kind {
                return fault(start, "a symbol of two kinds or arities");
            }
            return Ok(n as u8);
        }
        if self.symbols.len() == MAX_SYMBOLS {
            return fault(start, "more than 128 symbols");
        }
        self.symbols.push(Entry {
            name: name.to_vec(),
            kind,
            arity: None,
        });
        Ok(self.symbols.len() as u8 - 1)
    }

    fn count(&mut self, place: Place) -> Read<()> {
        self.tokens += 1;
        if self.tokens > MAX_TOKENS {
            return fault(place, "a clause of more than 120 tokens");
        }
        Ok(())
    }

    /// The next byte that is no blank and in no comment.
    fn peek(&mut self) -> Option<u8> {
        while let Some(b) = self.text.get(self.at) {
            if *b == b'%' {
                let rest = &self.text[self.at..];
                self.at += rest.iter().position(|b| *b == b'\n').unwrap_or(rest.len());
            } else if b.is_ascii_whitespace() {
                self.at += 1;
            } else {
                return Some(*b);
            }
        }
        None
    }

    /// Letters, digits and underscores; what they may be is the caller's matter.
    fn word(&mut self) -> &'a [u8] {
        let rest = &self.text[self.at..];
        let part = |b: &u8| b.is_ascii_alphanumeric() || *b == b'_';
        let length = rest.iter().position(|b| !part(b)).unwrap_or(rest.len());
        self.at += length;
        &rest[..length]
    }

    fn eat(&mut self, sign: &[u8]) -> bool {
        self.peek();
        let found = self.text[self.at..].starts_with(sign);
        if found {
            self.at += sign.len();
        }
        found
    }

    fn expect(&mut self, sign: &[u8]) -> Read<()> {
        if self.eat(sign) {
            return Ok(());
        }
        let what = format!("'{}' was expected", String::from_utf8_lossy(sign));
        Err((self.at, what))
    }
}
