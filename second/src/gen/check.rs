//! Check cases: step lists of our own runs, as written and damaged.

use super::any_draft;
use super::draft::Draft;
use super::rng::Rng;
use crate::limits::{FIRST_SYMBOL, STEP_BYTES};
use crate::run::Room;
use crate::stream::{step_bytes, Case, Wish};

const ROOM: Room = Room {
    rules: 96,
    goals: 48,
    steps: 48,
};

/// Longest list that a stream takes.
pub const LONGEST: usize = 40_000;

pub fn check(rng: &mut Rng) -> Case {
    let (draft, mut list) = with_steps(rng);
    if rng.percent(80) {
        spoil(&mut list, rng);
    }
    if rng.percent(5) {
        spoil(&mut list, rng);
    }
    list.truncate(LONGEST);
    draft.wish(Wish::Check(list))
}

/// A draft and its step list; after some tries a list may be empty.
pub fn with_steps(rng: &mut Rng) -> (Draft, Vec<u8>) {
    for wanted in [3, 2, 2, 2, 1, 1, 1, 1] {
        let draft = any_draft(rng);
        if let Some(run) = draft.verify(ROOM) {
            if run.number == 1 && run.steps.len() >= wanted {
                return (draft, step_bytes(&run));
            }
        }
    }
    (any_draft(rng), Vec::new())
}

/// One kind of damage to a list.
fn spoil(list: &mut Vec<u8>, rng: &mut Rng) {
    let count = list.len() / STEP_BYTES;
    if count == 0 {
        return lengthen(list, rng);
    }
    let step = rng.below(count);
    let at = step * STEP_BYTES;
    match rng.below(14) {
        0 => slot(list, at, rng.below(count + 1), rng),
        1 => slot(list, at, step + rng.below(3), rng),
        2 => list[at] = rng.below(12) as u8,
        3 => list[at + 1] = rng.between(1, 255) as u8,
        4 => list[at + 2] = rng.below(10) as u8,
        5 => list[at + 3] = *rng.pick(&[0, 1, 2, 3, 4, 119, 120, 121, 255]),
        6 => fact_byte(list, at, rng),
        7 => list[at + STEP_BYTES - 1 - rng.below(60)] ^= 1 << rng.below(8),
        8 => list[at + 4 + rng.below(16)] = rng.below(4) as u8,
        9 => list.truncate((count - 1) * STEP_BYTES),
        10 => list.truncate(list.len() - rng.between(1, STEP_BYTES)),
        11 => again(list, step),
        12 => swap(list, step, rng.below(count)),
        _ => lengthen(list, rng),
    }
}

/// Writes a step number into a slot, most often one in use.
fn slot(list: &mut [u8], at: usize, number: usize, rng: &mut Rng) {
    let used = (list[at + 2] as usize).clamp(1, 8);
    let to = at + 4 + 2 * rng.below(used);
    list[to..to + 2].copy_from_slice(&(number as u16).to_le_bytes());
}

fn fact_byte(list: &mut [u8], at: usize, rng: &mut Rng) {
    let tokens = (list[at + 3] as usize).clamp(1, 120);
    let to = at + 20 + rng.below(tokens);
    list[to] = match rng.below(4) {
        0 => rng.between(1, 33) as u8,
        1 => list[to] ^ (1 << rng.below(8)),
        _ => FIRST_SYMBOL + rng.below(10) as u8,
    };
}

/// Repeats a step at the end: a list may hold steps that nothing uses.
fn again(list: &mut Vec<u8>, step: usize) {
    let bytes = list[step * STEP_BYTES..(step + 1) * STEP_BYTES].to_vec();
    list.extend_from_slice(&bytes);
}

fn swap(list: &mut [u8], a: usize, b: usize) {
    for i in 0..STEP_BYTES {
        list.swap(a * STEP_BYTES + i, b * STEP_BYTES + i);
    }
}

/// Up to 255, 256 or 257 steps, by repeating the list or by zeros.
fn lengthen(list: &mut Vec<u8>, rng: &mut Rng) {
    let wanted = STEP_BYTES * *rng.pick(&[0, 1, 255, 256, 257, 285]);
    if list.len() < STEP_BYTES || wanted == 0 {
        return list.resize(wanted, 0);
    }
    let first = list[..STEP_BYTES].to_vec();
    let last = list[list.len() - STEP_BYTES..].to_vec();
    if first[2] != 0 {
        return list.resize(wanted, 0);
    }
    // The first step uses none, so it stays good wherever it stands.
    while list.len() + STEP_BYTES < wanted {
        list.extend_from_slice(&first);
    }
    list.extend_from_slice(&last);
}
