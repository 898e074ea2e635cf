//! Tables back as text, for looking at a case.

use crate::print::fact;
use crate::read::Input;
use crate::rule::Rule;
use std::fmt::Write;

/// One clause a line, then the query.
pub fn show(input: &Input) -> String {
    let mut out = String::new();
    for rule in &input.rules {
        let _ = writeln!(out, "{}.", clause(rule, input));
    }
    let _ = writeln!(out, "?- {}.", fact(&input.query, &input.symbols));
    out
}

fn clause(rule: &Rule, input: &Input) -> String {
    let head = fact(&rule.head, &input.symbols);
    if rule.body.is_empty() {
        return head;
    }
    let body: Vec<String> = rule.body.iter().map(|f| fact(f, &input.symbols)).collect();
    format!("{head} :- {}", body.join(", "))
}
