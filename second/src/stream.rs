//! A stream of cases, and the answers to it.

use crate::check::check;
use crate::limits::*;
use crate::read::read_input;
use crate::run::{verify, Room, Run};
use std::io::{self, Read, Write};

/// Longest symbols, rules, query, then the buffers of a run.
const RUN_LENGTHS: [usize; 6] = [4_096, 40_960, 4_096, 70_000, 70_000, 40_000];
/// As above, then the step list and two numbers that stay zero.
const CHECK_LENGTHS: [usize; 6] = [4_096, 40_960, 4_096, 40_000, 0, 0];

/// What every lent byte is before a run.
const LENT: u8 = 165;

#[derive(Clone, Debug, PartialEq, Eq)]
pub enum Wish {
    /// Run with rule, goal and step buffers of these lengths.
    Run([usize; 3]),
    /// Check this step list.
    Check(Vec<u8>),
}

#[derive(Clone, Debug, PartialEq, Eq)]
pub struct Case {
    pub symbols: Vec<u8>,
    pub rules: Vec<u8>,
    pub query: Vec<u8>,
    pub wish: Wish,
}

impl Case {
    /// The case as it stands in a stream.
    pub fn bytes(&self) -> Vec<u8> {
        let (first, lent, list): (u8, [usize; 3], &[u8]) = match &self.wish {
            Wish::Run(lent) => (0, *lent, &[]),
            Wish::Check(list) => (1, [list.len(), 0, 0], list),
        };
        let mut out = vec![first];
        let tables = [&self.symbols[..], &self.rules, &self.query];
        for length in tables.iter().map(|t| t.len()).chain(lent) {
            out.extend_from_slice(&(length as u32).to_le_bytes());
        }
        tables.iter().for_each(|t| out.extend_from_slice(t));
        out.extend_from_slice(list);
        out
    }
}

/// What stands next in a stream.
pub enum Next {
    End,
    Bad,
    Case(Case),
}

/// Reads one case.
pub fn next_case(stream: &mut impl Read) -> io::Result<Next> {
    let first = take(stream, 1)?;
    let limits = match first[..] {
        [] => return Ok(Next::End),
        [0] => RUN_LENGTHS,
        [1] => CHECK_LENGTHS,
        _ => return Ok(Next::Bad),
    };
    let header = take(stream, 24)?;
    if header.len() < 24 {
        return Ok(Next::Bad);
    }
    let mut n = [0usize; 6];
    for (to, from) in n.iter_mut().zip(header.chunks(4)) {
        *to = from.iter().rev().fold(0, |sum, b| sum << 8 | *b as usize);
    }
    if n.iter().zip(limits).any(|(length, limit)| *length > limit) {
        return Ok(Next::Bad);
    }
    let parts = [n[0], n[1], n[2], if first[0] == 1 { n[3] } else { 0 }];
    let mut read = Vec::with_capacity(4);
    for length in parts {
        let bytes = take(stream, length)?;
        if bytes.len() < length {
            return Ok(Next::Bad);
        }
        read.push(bytes);
    }
    Ok(Next::Case(assemble(
        read,
        first[0] == 1,
        [n[3], n[4], n[5]],
    )))
}

fn assemble(mut parts: Vec<Vec<u8>>, checks: bool, lent: [usize; 3]) -> Case {
    let mut pop = || parts.pop().unwrap_or_default();
    let (list, query, rules, symbols) = (pop(), pop(), pop(), pop());
    let wish = if checks {
        Wish::Check(list)
    } else {
        Wish::Run(lent)
    };
    Case {
        symbols,
        rules,
        query,
        wish,
    }
}

/// Up to `length` bytes; fewer only where the stream ends.
fn take(stream: &mut impl Read, length: usize) -> io::Result<Vec<u8>> {
    let mut bytes = Vec::with_capacity(length);
    stream.take(length as u64).read_to_end(&mut bytes)?;
    Ok(bytes)
}

/// Answers case after case until the stream ends or a case is bad.
pub fn answer_all(mut input: impl Read, mut output: impl Write) -> io::Result<()> {
    loop {
        match next_case(&mut input)? {
            Next::End => return output.flush(),
            Next::Bad => {
                writeln!(output, "bad case")?;
                return output.flush();
            }
            Next::Case(case) => output.write_all(answer(&case).as_bytes())?,
        }
    }
}

/// The lines for one case.
pub fn answer(case: &Case) -> String {
    let input = read_input(&case.symbols, &case.rules, &case.query);
    match (&case.wish, input) {
        (Wish::Check(_), Err(r)) => format!("{} {}\n", r.number, r.place),
        (Wish::Check(list), Ok(input)) => {
            let (number, place) = check(&input, list);
            format!("{number} {place}\n")
        }
        (Wish::Run(lent), Err(r)) => {
            let mut out = format!("{} {} 0 0 0\n", r.number, r.place);
            lent.iter().for_each(|n| hex(&[], *n, &mut out));
            out
        }
        (Wish::Run(lent), Ok(input)) => {
            let room = Room::of_lengths(lent[0], lent[1], lent[2]);
            written(&verify(&input, room), lent)
        }
    }
}

fn written(run: &Run, lent: &[usize; 3]) -> String {
    let counts = [run.rules.len(), run.goals.len(), run.steps.len()];
    let mut out = format!(
        "{} 0 {} {} {}\n",
        run.number, counts[0], counts[1], counts[2]
    );
    let rules: Vec<u8> = run.rules.iter().flat_map(|r| r.bytes()).collect();
    let goals: Vec<u8> = run.goals.iter().flat_map(|r| r.bytes()).collect();
    hex(&rules, lent[0], &mut out);
    hex(&goals, lent[1], &mut out);
    hex(&step_bytes(run), lent[2], &mut out);
    out
}

/// The step list of a run.
pub fn step_bytes(run: &Run) -> Vec<u8> {
    run.steps.iter().flat_map(|s| s.bytes()).collect()
}

/// A buffer's line: what was written, then the bytes as they were lent.
fn hex(bytes: &[u8], length: usize, out: &mut String) {
    const DIGITS: &[u8; 16] = b"0123456789abcdef";
    out.reserve(2 * length + 1);
    let rest = std::iter::repeat(&LENT);
    for b in bytes.iter().chain(rest).take(length) {
        out.push(DIGITS[(b >> 4) as usize] as char);
        out.push(DIGITS[(b & 15) as usize] as char);
    }
    out.push('\n');
}

/// Lengths of the largest useful buffers.
pub const FULL_BUFFERS: [usize; 3] = [
    MAX_RECORDS * RULE_BYTES,
    MAX_RECORDS * RULE_BYTES,
    MAX_STEPS * STEP_BYTES,
];
