//! The printed verdict.

use crate::limits::*;
use crate::read::{read_input, Input};
use crate::run::{verify, Room};
use crate::symbols::{Refusal, Symbol};
use crate::term::Term;
use std::fmt::Write;
use std::io::Read;
use std::path::Path;

/// The files in the order that decides which refusal is printed, with the
/// number of the refusal and the longest good length.
const FILES: [(&str, u8, usize); 3] = [
    ("symbols", 2, MAX_SYMBOLS * SYMBOL_BYTES),
    ("rules", 3, MAX_INPUT_RULES * RULE_BYTES),
    ("query", 4, RULE_BYTES),
];

/// Reads the three files of a folder; the first that can't be read is named.
pub fn read_files(folder: &Path) -> Result<[Vec<u8>; 3], Refusal> {
    let read = FILES.map(|(name, number, limit)| {
        read_file(&folder.join(name), limit).map_err(|_| Refusal {
            number,
            place: WHOLE_TABLE,
        })
    });
    let [symbols, rules, query] = read;
    Ok([symbols?, rules?, query?])
}

/// One byte past the limit is enough to see that a file is too long.
fn read_file(path: &Path, limit: usize) -> std::io::Result<Vec<u8>> {
    let mut bytes = Vec::new();
    let file = std::fs::File::open(path)?;
    file.take(limit as u64 + 1).read_to_end(&mut bytes)?;
    Ok(bytes)
}

/// The whole output for a folder.
pub fn verdict_of_folder(folder: &Path) -> String {
    match read_files(folder) {
        Ok([symbols, rules, query]) => verdict(&symbols, &rules, &query),
        Err(refusal) => refused(refusal),
    }
}

/// The whole output for three tables.
pub fn verdict(symbols: &[u8], rules: &[u8], query: &[u8]) -> String {
    match read_input(symbols, rules, query) {
        Ok(input) => judged(&input),
        Err(refusal) => refused(refusal),
    }
}

/// The line for a refusal.
pub fn refused(refusal: Refusal) -> String {
    format!("refused {} {}\n", refusal.number, refusal.place)
}

fn judged(input: &Input) -> String {
    let run = verify(input, Room::FULL);
    let word = match run.number {
        0 => "secret".to_string(),
        1 => "derivable".to_string(),
        n => format!("room {n}"),
    };
    let counts = [run.rules.len(), run.goals.len(), run.steps.len()];
    let mut out = format!("{word} {} {} {}\n", counts[0], counts[1], counts[2]);
    if run.number != 1 {
        return out;
    }
    for (n, step) in run.steps.iter().enumerate() {
        let _ = write!(
            out,
            "{n} {} {}",
            step.rule,
            fact(&step.fact, &input.symbols)
        );
        for used in &step.uses {
            let _ = write!(out, " {used}");
        }
        out.push('\n');
    }
    out
}

/// A term with the printed names; arguments in brackets with commas.
pub fn fact(term: &Term, symbols: &[Symbol]) -> String {
    match term {
        Term::Var(v) => format!("X{v}"),
        Term::App(f, args) => {
            let name = symbols.get(*f as usize).map_or("?", |s| &s.name);
            if args.is_empty() {
                return name.to_string();
            }
            let args: Vec<String> = args.iter().map(|a| fact(a, symbols)).collect();
            format!("{name}({})", args.join(","))
        }
    }
}
