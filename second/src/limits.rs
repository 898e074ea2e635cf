//! The numbers that the formats fix, in one place.

pub const SYMBOL_BYTES: usize = 16;
pub const RULE_BYTES: usize = 128;
pub const STEP_BYTES: usize = 140;

pub const MAX_SYMBOLS: usize = 128;
pub const MAX_INPUT_RULES: usize = 256;
pub const MAX_RECORDS: usize = 512;
pub const MAX_STEPS: usize = 256;

pub const MAX_HYPOTHESES: usize = 8;
pub const MIN_TOKENS: usize = 2;
pub const MAX_TOKENS: usize = 120;
pub const MAX_VARIABLES: usize = 32;

/// Token of symbol 0; symbol n has the token n above it.
pub const FIRST_SYMBOL: u8 = 64;

/// Where the tokens of a rule record start and end, and its marks after them.
pub const TOKENS_AT: usize = 2;
pub const STATE_AT: usize = 122;

/// Place of a refusal that concerns a whole table.
pub const WHOLE_TABLE: u16 = 65_535;
