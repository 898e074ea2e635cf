//! The symbol table: what it holds, and which byte strings are one.

use crate::limits::*;

#[derive(Clone, Copy, Debug, PartialEq, Eq)]
pub enum Kind {
    Predicate,
    Function,
    Name,
}

#[derive(Clone, Debug, PartialEq, Eq)]
pub struct Symbol {
    pub kind: Kind,
    pub arity: usize,
    pub name: String,
}

/// Which table was refused, and where.
#[derive(Clone, Copy, Debug, PartialEq, Eq)]
pub struct Refusal {
    pub number: u8,
    pub place: u16,
}

/// Reads a whole symbol table or says why not.
pub fn read_symbols(bytes: &[u8]) -> Result<Vec<Symbol>, Refusal> {
    let refuse = |place| Err(Refusal { number: 2, place });
    let count = bytes.len() / SYMBOL_BYTES;
    if !bytes.len().is_multiple_of(SYMBOL_BYTES) || count == 0 || count > MAX_SYMBOLS {
        return refuse(WHOLE_TABLE);
    }
    let mut symbols: Vec<Symbol> = Vec::with_capacity(count);
    for (at, record) in bytes.chunks(SYMBOL_BYTES).enumerate() {
        match read_symbol(record) {
            Some(s) if fits_in(&s, &symbols) => symbols.push(s),
            _ => return refuse(at as u16),
        }
    }
    Ok(symbols)
}

/// What a symbol owes to those before it.
fn fits_in(symbol: &Symbol, earlier: &[Symbol]) -> bool {
    if earlier.is_empty() {
        return symbol.kind == Kind::Predicate && symbol.arity == 1;
    }
    earlier.iter().all(|e| e.name != symbol.name)
}

fn read_symbol(record: &[u8]) -> Option<Symbol> {
    let arity = record[1] as usize;
    let (kind, least, most) = match record[0] {
        1 => (Kind::Predicate, 1, 4),
        2 => (Kind::Function, 0, 6),
        3 => (Kind::Name, 0, 6),
        _ => return None,
    };
    if arity < least || arity > most {
        return None;
    }
    let name = read_name(&record[2..])?;
    Some(Symbol { kind, arity, name })
}

fn read_name(bytes: &[u8]) -> Option<String> {
    let length = bytes.iter().position(|b| *b == 0).unwrap_or(bytes.len());
    let (name, rest) = bytes.split_at(length);
    let good = is_name(name) && rest.iter().all(|b| *b == 0);
    good.then(|| name.iter().map(|b| *b as char).collect())
}

/// A letter, then letters or digits; the length is the table's matter.
pub fn is_name(name: &[u8]) -> bool {
    name.first().is_some_and(u8::is_ascii_lowercase)
        && name
            .iter()
            .all(|b| b.is_ascii_lowercase() || b.is_ascii_digit())
}

/// The bytes of a symbol table.
pub fn write_symbols(symbols: &[Symbol]) -> Vec<u8> {
    let mut out = Vec::with_capacity(symbols.len() * SYMBOL_BYTES);
    for s in symbols {
        let mut record = [0u8; SYMBOL_BYTES];
        record[0] = match s.kind {
            Kind::Predicate => 1,
            Kind::Function => 2,
            Kind::Name => 3,
        };
        record[1] = s.arity as u8;
        for (to, from) in record[2..].iter_mut().zip(s.name.bytes()) {
            *to = from;
        }
        out.extend_from_slice(&record);
    }
    out
}
