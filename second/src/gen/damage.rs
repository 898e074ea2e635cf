//! Damage to bytes: of each table and of step lists.

use super::any_draft;
use super::check::{with_steps, LONGEST};
use super::rng::Rng;
use crate::limits::*;
use crate::stream::{Case, Wish};

/// Values at which a test of a byte turns.
const EDGES: [u8; 34] = [
    0, 1, 2, 3, 4, 5, 6, 7, 8, 9, 31, 32, 33, 47, 48, 57, 58, 63, 64, 65, 66, 70, 96, 97, 119, 120,
    121, 122, 123, 127, 128, 191, 192, 255,
];

pub fn damage(rng: &mut Rng) -> Case {
    let mut case = if rng.percent(30) {
        let (draft, list) = with_steps(rng);
        draft.wish(Wish::Check(list))
    } else {
        let draft = any_draft(rng);
        draft.run_with(rng.between(4, 24), rng.between(2, 8), rng.between(2, 8))
    };
    for _ in 0..*rng.pick(&[1, 1, 1, 1, 2, 3]) {
        match rng.below(8) {
            0 => hurt(&mut case.symbols, SYMBOL_BYTES, MAX_SYMBOLS, rng),
            1..=4 => hurt(&mut case.rules, RULE_BYTES, MAX_INPUT_RULES, rng),
            5 => hurt(&mut case.query, RULE_BYTES, 1, rng),
            _ => match &mut case.wish {
                Wish::Check(list) => hurt(list, STEP_BYTES, MAX_STEPS, rng),
                Wish::Run(lent) => lent[rng.below(3)] += rng.below(200),
            },
        }
    }
    if let Wish::Check(list) = &mut case.wish {
        list.truncate(LONGEST);
    }
    case
}

fn hurt(table: &mut Vec<u8>, unit: usize, most: usize, rng: &mut Rng) {
    if table.is_empty() || rng.percent(12) {
        return resize(table, unit, most, rng);
    }
    let record = rng.below(table.len().div_ceil(unit)) * unit;
    let at = (record + inside(unit, rng)).min(table.len() - 1);
    match rng.below(4) {
        0 => table[at] ^= 1 << rng.below(8),
        1 => table[at] = rng.draw() as u8,
        2 => table[at] = table[at].wrapping_add(*rng.pick(&[1, 255])),
        _ => table[at] = *rng.pick(&EDGES),
    }
}

/// A byte of a record; the first and last ones mean most.
fn inside(unit: usize, rng: &mut Rng) -> usize {
    match rng.below(6) {
        0 => 0,
        1 => 1,
        2 => unit - 1 - rng.below(6),
        3 => rng.below(unit),
        _ => 2 + rng.below(12.min(unit - 2)),
    }
}

fn resize(table: &mut Vec<u8>, unit: usize, most: usize, rng: &mut Rng) {
    match rng.below(8) {
        0 => table.clear(),
        1 => table.truncate(table.len().saturating_sub(unit)),
        2 => table.truncate(rng.below(table.len() + 1)),
        3 => table.push(rng.below(2) as u8),
        4 => table.extend(vec![0; unit]),
        5 => repeat(table, unit, (table.len() / unit + 1) * unit),
        6 => repeat(table, unit, most * unit),
        _ => repeat(table, unit, (most + 1) * unit),
    }
}

/// Grows a table by copies of its last record, numbered apart where it names.
fn repeat(table: &mut Vec<u8>, unit: usize, wanted: usize) {
    if table.len() < unit {
        return table.resize(wanted, 0);
    }
    let last = table[table.len() - unit..].to_vec();
    let mut n = 0u32;
    while table.len() < wanted {
        let mut copy = last.clone();
        if unit == SYMBOL_BYTES {
            let name = format!("z{n}");
            copy[2..].fill(0);
            copy[2..2 + name.len()].copy_from_slice(name.as_bytes());
        }
        table.extend_from_slice(&copy);
        n += 1;
    }
}
