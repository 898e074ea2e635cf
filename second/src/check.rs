//! The step checker.

use crate::imply::Match;
use crate::limits::*;
use crate::read::{counted, read_facts, Input};
use crate::term::Term;

/// Number and place for a step list against tables already judged good.
pub fn check(input: &Input, list: &[u8]) -> (u8, u16) {
    let count = list.len() / STEP_BYTES;
    if !list.len().is_multiple_of(STEP_BYTES) || count == 0 || count > MAX_STEPS {
        return (10, 0);
    }
    let mut facts: Vec<Term> = Vec::with_capacity(count);
    for (at, step) in list.chunks(STEP_BYTES).enumerate() {
        match read_step(input, step, &facts) {
            Some(fact) => facts.push(fact),
            None => return (11, at as u16),
        }
    }
    if facts.last() == Some(&input.query) {
        (0, 0)
    } else {
        (12, 0)
    }
}

/// The fact of a good step, given the facts of those before it.
fn read_step(input: &Input, step: &[u8], earlier: &[Term]) -> Option<Term> {
    let number = |at: usize| step[at] as usize + 256 * step[at + 1] as usize;
    let rule = input.rules.get(number(0))?;
    if step[2] as usize != rule.body.len() {
        return None;
    }
    let tokens = counted(&step[20..], step[3] as usize)?;
    let fact = closed_fact(tokens, input)?;
    let mut m = Match::default();
    if !m.carry(&rule.head, &fact) {
        return None;
    }
    for slot in 0..MAX_HYPOTHESES {
        let used = number(4 + 2 * slot);
        match rule.body.get(slot) {
            Some(hypothesis) if !m.carry(hypothesis, earlier.get(used)?) => return None,
            None if used != 0 => return None,
            _ => {}
        }
    }
    Some(fact)
}

fn closed_fact(tokens: &[u8], input: &Input) -> Option<Term> {
    let mut facts = read_facts(tokens, &input.symbols)?;
    let mut seen = Vec::new();
    facts.iter().for_each(|f| f.variables(&mut seen));
    let fact = facts.pop()?;
    (facts.is_empty() && seen.is_empty()).then_some(fact)
}
