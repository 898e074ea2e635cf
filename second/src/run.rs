//! The run: keeping rules, loading, completion and search.

use crate::combine::{combine, Combined};
use crate::derive::{derive, Step};
use crate::imply::implies;
use crate::limits::*;
use crate::read::Input;
use crate::rule::Rule;

/// How many records and steps there is room for.
#[derive(Clone, Copy, Debug)]
pub struct Room {
    pub rules: usize,
    pub goals: usize,
    pub steps: usize,
}

impl Room {
    /// Full tables.
    pub const FULL: Room = Room {
        rules: MAX_RECORDS,
        goals: MAX_RECORDS,
        steps: MAX_STEPS,
    };

    /// What buffers of these lengths in bytes hold.
    pub fn of_lengths(rules: usize, goals: usize, steps: usize) -> Room {
        Room {
            rules: MAX_RECORDS.min(rules / RULE_BYTES),
            goals: MAX_RECORDS.min(goals / RULE_BYTES),
            steps: MAX_STEPS.min(steps / STEP_BYTES),
        }
    }
}

/// Where a record comes from.
#[derive(Clone, Copy, Debug, PartialEq, Eq)]
pub enum Origin {
    /// Goal 0.
    Query,
    /// An input rule's number.
    Input(usize),
    /// R, R', and the hypothesis of R' from 0. For a goal R' is a goal.
    Pair(usize, usize, usize),
}

#[derive(Clone, Debug)]
pub struct Record {
    pub rule: Rule,
    pub live: bool,
    pub origin: Origin,
    /// Kept here since every pair asks: are all hypotheses open?
    pub open: bool,
}

impl Record {
    fn new(rule: Rule, origin: Origin) -> Record {
        let open = rule.all_open();
        Record {
            rule,
            live: true,
            origin,
            open,
        }
    }

    /// The bytes of a working record.
    pub fn bytes(&self) -> [u8; RULE_BYTES] {
        let mut out = self.rule.bytes();
        out[STATE_AT] = if self.live { 1 } else { 2 };
        let (upon, first, second) = match self.origin {
            Origin::Query => (0, 0, 0),
            Origin::Input(n) => (0, n, 0),
            Origin::Pair(r, into, upon) => (upon + 1, r, into),
        };
        out[STATE_AT + 1] = upon as u8;
        out[STATE_AT + 2..STATE_AT + 4].copy_from_slice(&(first as u16).to_le_bytes());
        out[STATE_AT + 4..].copy_from_slice(&(second as u16).to_le_bytes());
        out
    }
}

/// All that a run leaves behind.
#[derive(Debug)]
pub struct Run {
    pub number: u8,
    pub rules: Vec<Record>,
    pub goals: Vec<Record>,
    pub steps: Vec<Step>,
}

/// The number that ends a run early.
pub type Stop = u8;

/// Runs the whole procedure on tables already judged good.
pub fn verify(input: &Input, room: Room) -> Run {
    let mut run = Run {
        number: 0,
        rules: Vec::new(),
        goals: Vec::new(),
        steps: Vec::new(),
    };
    run.number = match run.whole(input, room) {
        Ok(true) => 1,
        Ok(false) => 0,
        Err(stop) => stop,
    };
    run
}

impl Run {
    fn whole(&mut self, input: &Input, room: Room) -> Result<bool, Stop> {
        for (n, rule) in input.rules.iter().enumerate() {
            let rule = rule.clone().drop_copies().renumber();
            self.keep(rule, Origin::Input(n), room)?;
        }
        self.complete(room)?;
        if !self.search(input, room)? {
            return Ok(false);
        }
        derive(self, input, room.steps).map(|()| true)
    }

    /// Takes in a rule that fits, unless a live record says as much already.
    fn keep(&mut self, rule: Rule, origin: Origin, room: Room) -> Result<(), Stop> {
        if !rule.fits() {
            return Err(6);
        }
        let known = |k: &Record| k.live && implies(&k.rule, &rule);
        if self.rules.iter().any(known) {
            return Ok(());
        }
        // Room comes before retiring, so that a full table is left as it was.
        if self.rules.len() >= room.rules {
            return Err(5);
        }
        for k in self.rules.iter_mut().filter(|k| k.live) {
            k.live = !implies(&rule, &k.rule);
        }
        self.rules.push(Record::new(rule, origin));
        Ok(())
    }

    fn complete(&mut self, room: Room) -> Result<(), Stop> {
        let mut i = 0;
        while i < self.rules.len() {
            for j in 0..=i {
                self.pair(i, j, room)?;
                if j < i {
                    self.pair(j, i, room)?;
                }
            }
            i += 1;
        }
        Ok(())
    }

    /// Combines R with every hypothesis of R' that is not open.
    fn pair(&mut self, r: usize, into: usize, room: Room) -> Result<(), Stop> {
        for upon in 0..self.rules[into].rule.body.len() {
            // Asked each time, as keeping a result may retire either.
            let (a, b) = (&self.rules[r], &self.rules[into]);
            if !a.live || !b.live || !a.open || b.rule.body[upon].is_open() {
                continue;
            }
            match combine(&a.rule, &b.rule, upon) {
                Combined::NoUnifier => {}
                Combined::TooLarge => return Err(6),
                Combined::Made(made) => self.keep(made, Origin::Pair(r, into, upon), room)?,
            }
        }
        Ok(())
    }

    /// Looks for a goal without hypotheses; it is the last goal if there is one.
    fn search(&mut self, input: &Input, room: Room) -> Result<bool, Stop> {
        let first = Rule {
            head: input.query.clone(),
            body: vec![input.query.clone()],
        };
        if !first.fits() {
            return Err(8);
        }
        if room.goals == 0 {
            return Err(7);
        }
        self.goals.push(Record::new(first, Origin::Query));
        let mut g = 0;
        while g < self.goals.len() {
            if self.advance(g, room)? {
                return Ok(true);
            }
            g += 1;
        }
        Ok(false)
    }

    /// Combines each usable rule with one goal upon its first hypothesis.
    fn advance(&mut self, g: usize, room: Room) -> Result<bool, Stop> {
        for r in 0..self.rules.len() {
            if !self.rules[r].live || !self.rules[r].open {
                continue;
            }
            let made = match combine(&self.rules[r].rule, &self.goals[g].rule, 0) {
                Combined::NoUnifier => continue,
                Combined::TooLarge => return Err(8),
                Combined::Made(made) => made,
            };
            if self.goals.iter().any(|k| implies(&k.rule, &made)) {
                continue;
            }
            if self.goals.len() >= room.goals {
                return Err(7);
            }
            let done = made.body.is_empty();
            self.goals.push(Record::new(made, Origin::Pair(r, g, 0)));
            if done {
                return Ok(true);
            }
        }
        Ok(false)
    }
}
