//! From bytes to tables: rules, the query, and facts of a step.

use crate::limits::*;
use crate::rule::Rule;
use crate::symbols::{read_symbols, Kind, Refusal, Symbol};
use crate::term::Term;

/// Everything a run or a check starts from.
#[derive(Clone, Debug)]
pub struct Input {
    pub symbols: Vec<Symbol>,
    pub rules: Vec<Rule>,
    pub query: Term,
    pub filler: Term,
}

/// Judges the three tables in their order.
pub fn read_input(symbols: &[u8], rules: &[u8], query: &[u8]) -> Result<Input, Refusal> {
    let symbols = read_symbols(symbols)?;
    let rules = read_rules(rules, &symbols)?;
    let query = read_query(query, &symbols).ok_or(Refusal {
        number: 4,
        place: 0,
    })?;
    let filler = first_constant(&query).ok_or(Refusal {
        number: 4,
        place: 0,
    })?;
    Ok(Input {
        symbols,
        rules,
        query,
        filler,
    })
}

fn read_rules(bytes: &[u8], symbols: &[Symbol]) -> Result<Vec<Rule>, Refusal> {
    let refuse = |place| Refusal { number: 3, place };
    if !bytes.len().is_multiple_of(RULE_BYTES) || bytes.len() / RULE_BYTES > MAX_INPUT_RULES {
        return Err(refuse(WHOLE_TABLE));
    }
    let records = bytes.chunks(RULE_BYTES).enumerate();
    records
        .map(|(at, record)| read_rule(record, symbols).ok_or(refuse(at as u16)))
        .collect()
}

fn read_query(bytes: &[u8], symbols: &[Symbol]) -> Option<Term> {
    if bytes.len() != RULE_BYTES {
        return None;
    }
    let rule = read_rule(bytes, symbols)?;
    let closed = rule.body.is_empty() && rule.variables().is_empty();
    closed.then_some(rule.head)
}

/// The first symbol without arguments, in prefix order.
fn first_constant(term: &Term) -> Option<Term> {
    match term {
        Term::Var(_) => None,
        Term::App(_, args) if args.is_empty() => Some(term.clone()),
        Term::App(_, args) => args.iter().find_map(first_constant),
    }
}

fn read_rule(record: &[u8], symbols: &[Symbol]) -> Option<Rule> {
    let hypotheses = record[0] as usize;
    let count = record[1] as usize;
    if hypotheses > MAX_HYPOTHESES {
        return None;
    }
    let tokens = counted(&record[TOKENS_AT..], count)?;
    let mut facts = read_facts(tokens, symbols)?;
    if facts.len() != hypotheses + 1 {
        return None;
    }
    let head = facts.remove(0);
    Some(Rule { head, body: facts })
}

/// The counted tokens, where all that follows them is zero.
pub fn counted(bytes: &[u8], count: usize) -> Option<&[u8]> {
    if !(MIN_TOKENS..=MAX_TOKENS).contains(&count) || count > bytes.len() {
        return None;
    }
    let (tokens, rest) = bytes.split_at(count);
    rest.iter().all(|b| *b == 0).then_some(tokens)
}

/// Facts one after the other that use up all tokens.
pub fn read_facts(tokens: &[u8], symbols: &[Symbol]) -> Option<Vec<Term>> {
    let mut at = 0;
    let mut facts = Vec::new();
    while at < tokens.len() {
        facts.push(read_term(tokens, &mut at, symbols, true)?);
    }
    Some(facts)
}

/// One term in prefix order; a predicate heads a fact and stands nowhere else.
fn read_term(tokens: &[u8], at: &mut usize, symbols: &[Symbol], fact: bool) -> Option<Term> {
    let token = *tokens.get(*at)?;
    *at += 1;
    if (1..=MAX_VARIABLES as u8).contains(&token) && !fact {
        return Some(Term::Var(token as usize));
    }
    let number = token.checked_sub(FIRST_SYMBOL)?;
    let symbol = symbols.get(number as usize)?;
    if (symbol.kind == Kind::Predicate) != fact {
        return None;
    }
    let args: Option<Vec<Term>> = (0..symbol.arity)
        .map(|_| read_term(tokens, at, symbols, false))
        .collect();
    Some(Term::App(number, args?))
}
