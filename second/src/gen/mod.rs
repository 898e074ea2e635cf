//! Cases for comparisons, the same for the same seed.

mod busy;
mod check;
pub mod counter;
mod damage;
pub mod draft;
pub mod hostile;
mod pool;
mod protocol;
pub mod rng;
mod room;
mod small;

use crate::stream::{Case, FULL_BUFFERS};
use draft::Draft;
use rng::Rng;

#[derive(Clone, Copy, Debug, PartialEq, Eq)]
pub enum Kind {
    Small,
    Protocol,
    Closed,
    Damage,
    Room,
    Check,
    Hostile,
    All,
}

pub const KINDS: [(&str, Kind); 8] = [
    ("small", Kind::Small),
    ("protocol", Kind::Protocol),
    ("closed", Kind::Closed),
    ("damage", Kind::Damage),
    ("room", Kind::Room),
    ("check", Kind::Check),
    ("hostile", Kind::Hostile),
    ("all", Kind::All),
];

/// The kind that a word means.
pub fn kind(word: &str) -> Option<Kind> {
    let found = KINDS.iter().find(|(name, _)| *name == word);
    found.map(|(_, kind)| *kind)
}

/// Case `number` of the stream that a seed gives.
pub fn case(seed: u64, number: u64, kind: Kind) -> Case {
    let start = Rng::new(seed).draw() ^ Rng::new(number ^ 0x5bd1_e995).draw();
    let mut rng = Rng::new(start.wrapping_add(kind as u64));
    one(&mut rng, kind, number)
}

fn one(rng: &mut Rng, kind: Kind, number: u64) -> Case {
    match kind {
        Kind::Small => {
            let draft = small::small(rng);
            lend(draft, rng)
        }
        Kind::Protocol => {
            let (rules, goals) = (rng.between(40, 160), rng.between(8, 48));
            protocol::protocol(rng).run_with(rules, goals, rng.between(16, 48))
        }
        Kind::Closed => {
            let draft = small::without_variables(rng);
            draft.run_with(rng.between(16, 64), rng.between(8, 64), rng.between(16, 32))
        }
        Kind::Damage => damage::damage(rng),
        Kind::Room => room::room(rng),
        Kind::Check => check::check(rng),
        Kind::Hostile => hostile::hostile(rng, number),
        Kind::All => {
            let (_, kind) = *rng.pick(&KINDS[..7]);
            let number = rng.draw();
            one(rng, kind, number)
        }
    }
}

/// Mostly enough room, now and then too little, rarely full tables.
fn lend(draft: Draft, rng: &mut Rng) -> Case {
    if rng.percent(2) {
        return draft.wish(crate::stream::Wish::Run(FULL_BUFFERS));
    }
    let rules = if rng.percent(85) {
        rng.between(24, 96)
    } else {
        rng.between(0, 8)
    };
    let goals = if rng.percent(85) {
        rng.between(8, 40)
    } else {
        rng.between(0, 3)
    };
    let steps = if rng.percent(80) {
        rng.between(8, 24)
    } else {
        rng.between(0, 3)
    };
    draft.run_with(rules, goals, steps)
}

/// A draft of any harmless kind, as a start for damage and checks.
fn any_draft(rng: &mut Rng) -> Draft {
    match rng.below(4) {
        0 => protocol::protocol(rng),
        1 => small::without_variables(rng),
        _ => small::small(rng),
    }
}
