//! Drafts at the edges: what doubles, circles, just fits or just doesn't.

use super::busy;
use super::counter;
use super::draft::Draft;
use super::protocol::protocol;
use super::rng::Rng;
use crate::stream::{Case, Wish, FULL_BUFFERS};

type Family = fn(&mut Rng) -> Draft;

/// The families, and whether they are hostile only with full tables.
pub const FAMILIES: [(Family, bool); 21] = [
    (doubling, false),
    (doubling_both, false),
    (circle, false),
    (variables, false),
    (hypotheses, false),
    (tokens, false),
    (fifteen, false),
    (long_instance, false),
    (counter::deep, true),
    (same_shape, false),
    (free_but_one, false),
    (growing, false),
    (long_query, true),
    (full_input, true),
    (wide_goals, false),
    (deep_terms, false),
    (doubling_values, false),
    (busy::rules, true),
    (busy::goals, true),
    (busy::branches, true),
    (protocol, false),
];

/// Every family in turn; the wide ones get full tables.
pub fn hostile(rng: &mut Rng, number: u64) -> Case {
    let which = (number % FAMILIES.len() as u64) as usize;
    let (family, wide) = FAMILIES[which];
    let draft = family(rng);
    if rng.percent(if wide { 90 } else { 20 }) {
        return draft.wish(Wish::Run(FULL_BUFFERS));
    }
    draft.run_with(rng.between(20, 160), rng.between(8, 64), rng.between(4, 64))
}

/// `f` n times around a term.
fn nest(f: &str, n: usize, inside: &str) -> String {
    format!("{}{inside}{}", format!("{f}(").repeat(n), ")".repeat(n))
}

fn list(items: &[String]) -> String {
    items.join(", ")
}

/// Many terms in one, with few tokens for the spine.
fn pack(items: &[String]) -> String {
    let mut rest = "e".to_string();
    for part in items.chunks(5).rev() {
        let mut args = part.to_vec();
        args.resize(5, "e".to_string());
        rest = format!("t({},{rest})", args.join(","));
    }
    rest
}

fn attackers(from: usize, to: usize, letter: &str) -> Vec<String> {
    (from..=to)
        .map(|n| format!("attacker({letter}{n})"))
        .collect()
}

/// Chains whose instances double with every link, on one side.
fn doubling(rng: &mut Rng) -> Draft {
    let n = rng.between(2, 24);
    let (mut left, mut right) = (Vec::new(), Vec::new());
    for i in 1..=n {
        left.extend([format!("X{i}"), format!("X{i}")]);
        right.extend([format!("Y{i}"), format!("f(Y{0},Y{0})", i + 1)]);
    }
    let head = rng.pick(&["s", "Y1", "Y3", "f(s,Y2)"]).to_string();
    let last = if rng.percent(50) {
        format!(", attacker(Y{n})")
    } else {
        String::new()
    };
    let text = format!(
        "p({}). attacker(a). attacker({head}) :- p({}){last}. ?- attacker(s).",
        pack(&left),
        pack(&right)
    );
    Draft::of_text(&text)
}

/// Chains on both sides that are also made equal.
fn doubling_both(rng: &mut Rng) -> Draft {
    let n = rng.between(2, 22);
    let (mut left, mut right) = (vec!["X1".to_string()], vec!["Y1".to_string()]);
    for i in 1..=n {
        left.extend([format!("X{i}"), format!("f(X{0},X{0})", i + 1)]);
        right.extend([format!("f(Y{0},Y{0})", i + 1), format!("Y{i}")]);
    }
    if rng.percent(50) {
        left.reverse();
        right.reverse();
    }
    let head = rng.pick(&["s", "Y1", "Y2"]).to_string();
    let text = format!(
        "p({}). attacker({head}) :- p({}). ?- attacker(s).",
        pack(&left),
        pack(&right)
    );
    Draft::of_text(&text)
}

/// Variables bound in a row whose end may be its start.
fn circle(rng: &mut Rng) -> Draft {
    let n = rng.between(1, 20);
    let (mut left, mut right) = (Vec::new(), Vec::new());
    for i in 1..=n {
        left.extend([format!("X{i}"), format!("X{i}")]);
        right.extend([format!("Y{i}"), format!("g(Y{})", i + 1)]);
    }
    let end = *rng.pick(&[1, 1, n + 1, n + 2]);
    left.push(format!("X{n}"));
    right.push(format!("g(Y{end})"));
    let text = format!(
        "attacker(s) :- p({}). p({}). attacker(c) :- p(Z). ?- attacker({}).",
        pack(&right),
        pack(&left),
        rng.pick(&["s", "c"])
    );
    Draft::of_text(&text)
}

/// Results of 30 to 34 variables.
fn variables(rng: &mut Rng) -> Draft {
    let total = rng.between(30, 34);
    let n = rng.between(total.saturating_sub(31), total.min(31));
    let left: Vec<String> = (1..=n).map(|i| format!("X{i}")).collect();
    let right: Vec<String> = (n + 1..=total).map(|i| format!("Y{i}")).collect();
    let tail = if rng.percent(50) { ", q(s)" } else { "" };
    let text = format!(
        "p({}). attacker(d(Z,{})) :- p(Z){tail}. attacker(s). ?- attacker(s).",
        pack(&left),
        pack(&right)
    );
    Draft::of_text(&text)
}

/// Results of 7 to 10 hypotheses.
fn hypotheses(rng: &mut Rng) -> Draft {
    let total = rng.between(7, 10);
    let n = rng.between(1.max(total - 7), total.min(8));
    let mut body: Vec<String> = (1..=total - n).map(|i| format!("q(Y{i},c)")).collect();
    body.push("p(Y1,Z)".to_string());
    rng.shuffle(&mut body);
    let text = format!(
        "p(X1,c) :- {}. attacker(s) :- {}. {} ?- attacker(s).",
        list(&attackers(1, n, "X")),
        list(&body),
        rng.pick(&["", "q(a,X).", "q(X,X). attacker(a)."])
    );
    Draft::of_text(&text)
}

/// Results of 117 to 123 tokens.
fn tokens(rng: &mut Rng) -> Draft {
    let total = rng.between(117, 123) - 2;
    let n = rng.between(total - 114, 114);
    let text = format!(
        "p({}). attacker({}) :- p(Y){}. attacker(s). ?- attacker(s).",
        nest("g", n, "X"),
        nest("g", total - n, "Y"),
        rng.pick(&["", ", p(Y)", ", p(c)"])
    );
    Draft::of_text(&text)
}

/// Up to 15 hypotheses of which enough become equal, or not.
fn fifteen(rng: &mut Rng) -> Draft {
    let mut body: Vec<String> = (1..=7)
        .map(|i| {
            let own = if rng.percent(4) {
                i + 10
            } else {
                rng.between(1, 8)
            };
            format!("attacker(Y{own})")
        })
        .collect();
    body.insert(rng.below(8), "p(t(Y1,Y2,Y3,Y4,Y5,Y6),Y7,Y8)".to_string());
    let (small, large) = ("a".to_string(), nest("g", rng.between(1, 11), "a"));
    let known = rng.pick(&[small, large]).clone();
    // A conclusion of the attacker's would meet its own hypotheses again.
    let to = *rng.pick(&["attacker(s)", "q(s)", "q(s)"]);
    let text = format!(
        "p(t(X1,X2,X3,X4,X5,X6),X7,X8) :- {}. attacker({known}). {to} :- {}. ?- {to}.",
        list(&attackers(1, 8, "X")),
        list(&body)
    );
    Draft::of_text(&text)
}

/// A record that fits whose eliminated fact has about 120 tokens.
fn long_instance(rng: &mut Rng) -> Draft {
    let n = rng.between(50, 56);
    let (a, b) = (rng.between(0, 12), n);
    let text = format!(
        "p({},X). attacker(s) :- p(Y,{}). ?- attacker(s).",
        nest("g", a, "X"),
        nest("g", b, "Z")
    );
    Draft::of_text(&text)
}

/// Rules of eight hypotheses of one shape, compared with each other.
fn same_shape(rng: &mut Rng) -> Draft {
    let mut text = String::new();
    for _ in 0..rng.between(2, 24) {
        let nodes = rng.between(4, 9);
        let round = rng.percent(40);
        let mut edges: Vec<String> = (0..8)
            .map(|i| {
                let (a, b) = if round {
                    (i % nodes, (i + 1) % nodes)
                } else {
                    (rng.below(nodes), rng.below(nodes))
                };
                format!("q(X{a},X{b})")
            })
            .collect();
        rng.shuffle(&mut edges);
        text += &format!("attacker(s) :- {}.\n", list(&edges));
    }
    text += *rng.pick(&["", "q(a,b).", "q(a,b). q(b,a).", "q(X,a)."]);
    Draft::of_text(&(text + "?- attacker(s)."))
}

/// Seven hypotheses that go anywhere and one that has no place: all ways to
/// place the seven come to nothing.
fn free_but_one(rng: &mut Rng) -> Draft {
    let mut text = String::new();
    for i in 0..rng.between(2, 8) {
        let mut body: Vec<String> = (1..8).map(|k| format!("q(X{k},Y{k})")).collect();
        let special = match rng.below(4) {
            0 => "q(Z,Z)".to_string(),
            1 => format!("q(Z,c{i})"),
            2 => format!("q(c{i},Z)"),
            _ => "q(Z,Y1)".to_string(),
        };
        let at = if rng.percent(80) { 7 } else { rng.below(8) };
        body.insert(at, special);
        text += &format!("attacker(s) :- {}.\n", list(&body));
    }
    text += *rng.pick(&["", "", "q(c1,c2)."]);
    Draft::of_text(&(text + "?- attacker(s)."))
}

/// Completions that end only where room does.
pub fn growing(rng: &mut Rng) -> Draft {
    let text = *rng.pick(&[
        "attacker(g(a)). attacker(g(h(X))) :- attacker(g(X)). ?- attacker(a).",
        "p(a). p(g(X)) :- p(X). attacker(s) :- p(X). ?- attacker(s).",
        "p(a,b). p(g(X),Y) :- p(X,Y). p(X,g(Y)) :- p(X,Y). ?- attacker(a).",
        "p(X). p(f(X,Y)) :- p(X), p(g(Y)). p(g(Z)) :- attacker(Z). ?- p(g(g(a))).",
        "p(f(X,Y)) :- p(X), p(Y). p(a). p(b). ?- attacker(f(a,b)).",
        "attacker(f(X,Y)) :- attacker(X), attacker(Y). attacker(X) :- attacker(f(g(X),X)).
         attacker(g(X)) :- attacker(f(X,X)). ?- attacker(f(a,f(a,a))).",
        "p(a,X). p(Y,f(X,X)) :- p(Y,X). ?- attacker(a).",
        "p(a). p(f(X,X)) :- p(X). ?- p(f(a,a)).",
        "q(X,Y) :- attacker(X), attacker(Y). q(X,f(Y,Z)) :- q(X,Y), q(Y,Z). ?- q(a,b).",
    ]);
    Draft::of_text(text)
}

/// Queries about 60 tokens long, and some as long as they get.
pub fn long_query(rng: &mut Rng) -> Draft {
    let n = *rng.pick(&[56, 57, 58, 59, 60, 116, 117, 118]);
    let text = format!(
        "attacker(a). attacker(g(X)) :- attacker(X){}. ?- attacker({}).",
        rng.pick(&["", ", attacker(a)", ", attacker(Y)"]),
        nest("g", n, "a")
    );
    Draft::of_text(&text)
}

/// As many symbols and rules as the input may have.
fn full_input(rng: &mut Rng) -> Draft {
    let mut text = String::new();
    let names = rng.between(118, 124);
    for i in 0..256 {
        let (a, b, c) = (i % names, rng.below(names), rng.below(names));
        text += &match rng.below(if i < names { 1 } else { 4 }) {
            0 => format!("attacker(g(n{a}))."),
            1 => format!("attacker(n{a}) :- attacker(n{b})."),
            2 => format!("p(n{a},n{b})."),
            _ => format!("attacker(n{a}) :- p(n{b},n{c}), attacker(X)."),
        };
    }
    text += &format!(
        "?- attacker({}).",
        rng.pick(&["n1", "n2", "g(n3)", "g(g(n3))"])
    );
    Draft::of_text(&text)
}

/// Goals that fan out in number or in hypotheses.
pub fn wide_goals(rng: &mut Rng) -> Draft {
    let arity = rng.between(2, 6);
    let args: Vec<String> = (1..=arity).map(|i| format!("X{i}")).collect();
    let text_rule = format!(
        "attacker(h({})) :- {}.",
        args.join(","),
        list(&attackers(1, arity, "X"))
    );
    let inner = |rng: &mut Rng| {
        let parts: Vec<String> = (0..arity).map(|_| format!("n{}", rng.below(4))).collect();
        format!("h({})", parts.join(","))
    };
    let parts: Vec<String> = (0..arity)
        .map(|i| if i < 3 { inner(rng) } else { "a".to_string() })
        .collect();
    let known: Vec<String> = (0..rng.between(1, 4))
        .map(|i| format!("attacker(n{i})."))
        .collect();
    let text = format!(
        "{text_rule} {} attacker(n1) :- attacker(X), attacker(Y). ?- attacker(h({})).",
        known.join(" "),
        parts.join(",")
    );
    Draft::of_text(&text)
}

/// Terms as deep as a record allows, met with each other.
fn deep_terms(rng: &mut Rng) -> Draft {
    let (a, b) = (rng.between(100, 118), rng.between(90, 114));
    let text = format!(
        "p({}). attacker({}) :- p({}). p({}). ?- attacker(s).",
        nest("g", a, "X"),
        rng.pick(&["s", "Z", "g(Z)"]),
        nest("g", b, "Z"),
        nest("g", rng.between(1, 118), "s")
    );
    Draft::of_text(&text)
}

/// A row of rules, each doubling what it is given.
fn doubling_values(rng: &mut Rng) -> Draft {
    let n = rng.between(2, 9);
    let start = *rng.pick(&["a", "X", "g(X)"]);
    let mut text = format!("d0({start},X).");
    for i in 1..=n {
        text += &format!("d{i}(f(X,X),Y) :- d{}(X,Y).", i - 1);
    }
    let head = *rng.pick(&["s", "Y"]);
    text += &format!("attacker({head}) :- d{n}(X,Y). ?- attacker(s).");
    Draft::of_text(&text)
}
