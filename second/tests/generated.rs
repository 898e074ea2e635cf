//! Properties over many generated cases.

use second::check::check;
use second::gen::{case, Kind, KINDS};
use second::read::{read_input, Input};
use second::run::{verify, Room, Run};
use second::stream::{answer, step_bytes, Case, Wish};
use std::collections::BTreeMap;
use std::time::{Duration, Instant};

fn input(case: &Case) -> Option<Input> {
    read_input(&case.symbols, &case.rules, &case.query).ok()
}

fn run(case: &Case) -> Option<(Input, Run)> {
    let Wish::Run(lent) = &case.wish else {
        return None;
    };
    let input = input(case)?;
    let run = verify(&input, Room::of_lengths(lent[0], lent[1], lent[2]));
    Some((input, run))
}

fn number(case: &Case) -> u8 {
    let text = answer(case);
    text.split(' ').next().and_then(|n| n.parse().ok()).unwrap()
}

fn numbers(kind: Kind, count: u64) -> BTreeMap<u8, usize> {
    let mut found = BTreeMap::new();
    for n in 0..count {
        *found.entry(number(&case(7, n, kind))).or_insert(0) += 1;
    }
    found
}

#[test]
fn the_same_seed_gives_the_same_stream() {
    for (_, kind) in KINDS {
        for n in 0..20 {
            assert_eq!(case(3, n, kind), case(3, n, kind));
        }
        let differs = (0..20).any(|n| case(3, n, kind) != case(4, n, kind));
        assert!(differs, "{kind:?}");
    }
}

#[test]
fn every_text_of_a_generator_parses() {
    for kind in [Kind::Protocol, Kind::Hostile] {
        for n in 0..2000 {
            let case = case(11, n, kind);
            assert!(!case.symbols.is_empty(), "{kind:?} {n}");
        }
    }
}

#[test]
fn every_answer_occurs() {
    let small = numbers(Kind::Small, 3000);
    for wanted in [0, 1, 5, 6, 7, 8, 9] {
        assert!(small.contains_key(&wanted), "small {wanted} {small:?}");
    }
    let room = numbers(Kind::Room, 2000);
    for wanted in [0, 1, 5, 6, 7, 8, 9] {
        assert!(room.contains_key(&wanted), "room {wanted} {room:?}");
    }
    let check = numbers(Kind::Check, 1000);
    for wanted in [0, 10, 11, 12] {
        assert!(check.contains_key(&wanted), "check {wanted} {check:?}");
    }
    let damage = numbers(Kind::Damage, 3000);
    for wanted in [0, 1, 2, 3, 4, 10, 11, 12] {
        assert!(damage.contains_key(&wanted), "damage {wanted} {damage:?}");
    }
}

#[test]
fn derivations_written_are_accepted() {
    let mut accepted = 0;
    for kind in [Kind::Small, Kind::Protocol, Kind::Closed, Kind::Room] {
        for n in 0..2000 {
            let case = case(5, n, kind);
            let Some((input, run)) = run(&case) else {
                continue;
            };
            if run.number != 1 {
                continue;
            }
            assert_eq!(check(&input, &step_bytes(&run)), (0, 0), "{kind:?} {n}");
            accepted += 1;
        }
    }
    assert!(accepted > 2000, "{accepted}");
}

#[test]
fn no_two_steps_conclude_the_same() {
    for n in 0..2000 {
        let Some((_, run)) = run(&case(21, n, Kind::Small)) else {
            continue;
        };
        for (i, step) in run.steps.iter().enumerate() {
            assert!(run.steps[..i].iter().all(|s| s.fact != step.fact), "{n}");
        }
    }
}

#[test]
fn every_case_is_quick() {
    for (name, kind) in KINDS {
        let mut slowest = (Duration::ZERO, 0);
        for n in 0..380 {
            let case = case(13, n, kind);
            let start = Instant::now();
            answer(&case);
            slowest = slowest.max((start.elapsed(), n));
        }
        eprintln!("{name}: slowest {slowest:?}");
        assert!(slowest.0 < Duration::from_secs(3), "{name} {slowest:?}");
    }
}

#[test]
fn hostile_families_give_both_outcomes() {
    let mut found: BTreeMap<u64, BTreeMap<u8, usize>> = BTreeMap::new();
    let families = second::gen::hostile::FAMILIES.len() as u64;
    for n in 0..60 * families {
        let family = found.entry(n % families).or_default();
        let answer = number(&case(17, n, Kind::Hostile));
        *family.entry(answer).or_insert(0) += 1;
    }
    for (family, answers) in found {
        eprintln!("family {family}: {answers:?}");
        assert!(answers.len() > 1, "family {family}: {answers:?}");
        assert!(!answers.contains_key(&2), "family {family}: {answers:?}");
    }
}
