//! Writing a derivation: from the goal reached back to input rules.

use crate::combine::parents;
use crate::limits::*;
use crate::read::Input;
use crate::rule::Rule;
use crate::run::{Origin, Record, Run, Stop};
use crate::term::Term;

#[derive(Clone, Debug, PartialEq, Eq)]
pub struct Step {
    pub rule: usize,
    /// One step for each hypothesis of the input rule, repeats included.
    pub uses: Vec<usize>,
    pub fact: Term,
}

impl Step {
    pub fn bytes(&self) -> [u8; STEP_BYTES] {
        let mut out = [0; STEP_BYTES];
        out[..2].copy_from_slice(&(self.rule as u16).to_le_bytes());
        out[2] = self.uses.len() as u8;
        let mut tokens = Vec::with_capacity(MAX_TOKENS);
        self.fact.tokens(&mut tokens);
        out[3] = tokens.len() as u8;
        for (slot, used) in out[4..20].chunks_mut(2).zip(&self.uses) {
            slot.copy_from_slice(&(*used as u16).to_le_bytes());
        }
        for (to, from) in out[20..].iter_mut().zip(tokens) {
            *to = from;
        }
        out
    }
}

/// An instance waiting to be written: its record and its variables' values,
/// from slot 1 on.
struct Pending {
    goal: bool,
    number: usize,
    values: Vec<Term>,
}

/// Writes the steps that conclude the query, last goal first.
pub fn derive(run: &mut Run, input: &Input, room: usize) -> Result<(), Stop> {
    let Some(last) = run.goals.len().checked_sub(1) else {
        return Ok(());
    };
    // An own stack, since a chain of parents may be hundreds of records long.
    let mut waiting = vec![Pending {
        goal: true,
        number: last,
        values: Vec::new(),
    }];
    while let Some(next) = waiting.pop() {
        let table = if next.goal { &run.goals } else { &run.rules };
        let record = &table[next.number];
        let instance = instance(&record.rule, &next.values).ok_or(9)?;
        if run.steps.iter().any(|s| s.fact == instance.head) {
            continue;
        }
        match record.origin {
            Origin::Query => {}
            Origin::Input(n) => {
                let step = input_step(&input.rules[n], n, instance, &run.steps).ok_or(9)?;
                if run.steps.len() >= room {
                    return Err(9);
                }
                run.steps.push(step);
                if run.steps.last().is_some_and(|s| s.fact == input.query) {
                    return Ok(());
                }
            }
            Origin::Pair(..) => waiting.extend(both(run, record, &next, &input.filler).ok_or(9)?),
        }
    }
    Ok(())
}

/// R' below R, so that R is written first.
fn both(run: &Run, record: &Record, next: &Pending, filler: &Term) -> Option<[Pending; 2]> {
    let Origin::Pair(r, into, upon) = record.origin else {
        return None;
    };
    let table = if next.goal { &run.goals } else { &run.rules };
    let pair = (&run.rules[r].rule, &table[into].rule, upon);
    let [left, right] = parents(pair, &next.values, filler)?;
    let below = Pending {
        goal: next.goal,
        number: into,
        values: right,
    };
    let above = Pending {
        goal: false,
        number: r,
        values: left,
    };
    Some([below, above])
}

/// The closed facts of an instance, unless one passes the limit.
fn instance(rule: &Rule, values: &[Term]) -> Option<Rule> {
    if rule.facts().any(|f| f.size_with(values) > MAX_TOKENS) {
        return None;
    }
    Some(Rule {
        head: rule.head.with(values),
        body: rule.body.iter().map(|f| f.with(values)).collect(),
    })
}

/// One step by an input rule; its hypotheses are always concluded by now.
fn input_step(rule: &Rule, number: usize, instance: Rule, steps: &[Step]) -> Option<Step> {
    let mut different: Vec<&Term> = Vec::new();
    let mut uses = Vec::with_capacity(rule.body.len());
    for fact in &rule.body {
        if !different.contains(&fact) {
            different.push(fact);
        }
        let slot = different.iter().position(|d| *d == fact)?;
        let closed = instance.body.get(slot)?;
        uses.push(steps.iter().position(|s| s.fact == *closed)?);
    }
    Some(Step {
        rule: number,
        uses,
        fact: instance.head,
    })
}
