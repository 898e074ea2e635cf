//! Buffers just too short, just long enough, and of odd lengths.

use super::draft::Draft;
use super::rng::Rng;
use super::{any_draft, hostile};
use crate::limits::{RULE_BYTES, STEP_BYTES};
use crate::run::Room;
use crate::stream::{Case, Wish};

/// Enough for most drafts, and little enough to stay quick.
const WIDE: Room = Room {
    rules: 96,
    goals: 64,
    steps: 48,
};

pub fn room(rng: &mut Rng) -> Case {
    let draft = match rng.below(20) {
        0..=3 => hostile::growing(rng),
        4 => hostile::long_query(rng),
        5 => hostile::wide_goals(rng),
        _ => derivable(rng),
    };
    let Some(run) = draft.verify(WIDE) else {
        return draft.run_with(0, 0, 0);
    };
    let needed = [run.rules.len(), run.goals.len(), run.steps.len()];
    let short = rng.below(4);
    let mut lent = [0; 3];
    for (i, unit) in [RULE_BYTES, RULE_BYTES, STEP_BYTES].into_iter().enumerate() {
        lent[i] = length(rng, needed[i], unit, i == short);
    }
    draft.wish(Wish::Run(lent))
}

/// Prefers drafts with steps to write, since only those can lack step room.
fn derivable(rng: &mut Rng) -> Draft {
    let mut draft = any_draft(rng);
    for _ in 0..3 {
        if draft.verify(WIDE).is_some_and(|r| r.number == 1) {
            break;
        }
        draft = any_draft(rng);
    }
    draft
}

fn length(rng: &mut Rng, needed: usize, unit: usize, short: bool) -> usize {
    let records = match rng.below(8) {
        _ if short => rng.below(needed.max(1)),
        0 => needed + 1,
        1 => needed + 5,
        2 => needed.saturating_sub(1),
        _ => needed,
    };
    // Bytes past the last whole record must stay as they were lent.
    let odd = match rng.below(3) {
        0 => 0,
        1 => unit - 1,
        _ => rng.below(unit),
    };
    records * unit + odd
}
