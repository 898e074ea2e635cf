//! A second verifier for rule tables, written to be compared with the first.
//!
//! Terms are trees, unification works on a shared graph, and every answer is
//! a pure function of the bytes handed in.

pub mod check;
pub mod combine;
pub mod derive;
pub mod gen;
pub mod imply;
pub mod limits;
pub mod print;
pub mod read;
pub mod rule;
pub mod run;
pub mod show;
pub mod stream;
pub mod symbols;
pub mod term;
pub mod text;
pub mod unify;
