//! Each cause of a refusal, with its number and place.

mod common;
use common::*;
use second::text::Tables;

const TEXT: &str = "attacker(a). attacker(M) :- attacker(senc(M,X)), attacker(X), p(M,X).
    attacker(s) :- p(s,a). ?- attacker(s).";

/// The answer to a run after one change; nothing may be written.
fn after(change: impl Fn(&mut Tables)) -> String {
    let mut t = tables(TEXT);
    change(&mut t);
    let lines = lent(&t, [300, 200, 150]);
    assert_eq!(lines[1], "a5".repeat(300));
    assert_eq!(lines[2], "a5".repeat(200));
    assert_eq!(lines[3], "a5".repeat(150));
    let check = checked(&t, &[]);
    assert_eq!(lines[0], format!("{check} 0 0 0"));
    check
}

fn symbol(t: &mut Tables, n: usize, at: usize, byte: u8) {
    t.symbols[16 * n + at] = byte;
}

fn rule(t: &mut Tables, n: usize, at: usize, byte: u8) {
    t.rules[128 * n + at] = byte;
}

#[test]
fn the_draft_is_good_as_it_stands() {
    assert_eq!(lent(&tables(TEXT), [1280, 1280, 1400])[0], "0 0 3 1 0");
}

#[test]
fn symbol_tables_of_a_bad_length() {
    assert_eq!(after(|t| t.symbols.clear()), "2 65535");
    assert_eq!(after(|t| t.symbols.push(0)), "2 65535");
    assert_eq!(after(|t| t.symbols.truncate(15)), "2 65535");
    assert_eq!(after(|t| t.symbols.resize(16 * 129, 0)), "2 65535");
    // The length comes first, even where record 0 is bad.
    let both = |t: &mut Tables| {
        t.symbols[0] = 9;
        t.symbols.push(0);
    };
    assert_eq!(after(both), "2 65535");
}

#[test]
fn a_hundred_and_twenty_eight_symbols_are_good() {
    let mut t = tables(TEXT);
    for n in t.symbols.len() / 16..128 {
        let mut record = [0; 16];
        record[0] = 3;
        record[2..6].copy_from_slice(format!("z{n:03}").as_bytes());
        t.symbols.extend_from_slice(&record);
    }
    assert_eq!(lent(&t, [1280, 1280, 1400])[0], "0 0 3 1 0");
}

#[test]
fn symbols_of_a_bad_kind_or_arity() {
    assert_eq!(after(|t| symbol(t, 1, 0, 0)), "2 1");
    assert_eq!(after(|t| symbol(t, 2, 0, 4)), "2 2");
    assert_eq!(after(|t| symbol(t, 0, 0, 2)), "2 0");
    assert_eq!(after(|t| symbol(t, 0, 1, 2)), "2 0");
    assert_eq!(after(|t| symbol(t, 2, 1, 7)), "2 2");
    assert_eq!(after(|t| symbol(t, 3, 1, 0)), "2 3");
    assert_eq!(after(|t| symbol(t, 3, 1, 5)), "2 3");
    assert_eq!(after(|t| symbol(t, 1, 1, 7)), "2 1");
    // A good record all the same; what is bad now is the rule that uses it.
    assert_eq!(after(|t| symbol(t, 1, 1, 6)), "3 0");
}

#[test]
fn arities_at_the_limit_are_good() {
    let mut t = tables("p(a,b,c,d). attacker(f(a,b,c,d,e,g)). ?- attacker(s).");
    assert_eq!(lent(&t, [1280, 1280, 1400])[0], "0 0 2 1 0");
    // A name may have arguments.
    let f = t
        .symbols
        .chunks(16)
        .position(|r| r[2..4] == *b"f\0")
        .unwrap();
    t.symbols[16 * f] = 3;
    assert_eq!(lent(&t, [1280, 1280, 1400])[0], "0 0 2 1 0");
}

#[test]
fn symbols_of_a_bad_name() {
    for bad in [0, b'A', b'0', b'_', b'`', b'{', 255] {
        assert_eq!(after(|t| symbol(t, 1, 2, bad)), "2 1", "{bad}");
    }
    for bad in [b'A', b'/', b':', b'`', b'{', 1, 255] {
        assert_eq!(after(|t| symbol(t, 1, 3, bad)), "2 1", "{bad}");
    }
    assert_eq!(after(|t| symbol(t, 2, 15, b'a')), "2 2");
    // A name that an earlier symbol of another kind has.
    assert_eq!(after(|t| t.symbols.copy_within(2..16, 16 * 4 + 2)), "2 4");
}

#[test]
fn rule_tables_of_a_bad_length() {
    assert_eq!(after(|t| t.rules.push(0)), "3 65535");
    assert_eq!(after(|t| t.rules.truncate(127)), "3 65535");
    let many = |t: &mut Tables| t.rules = t.rules[..128].repeat(257);
    assert_eq!(after(many), "3 65535");
    let mut t = tables(TEXT);
    t.rules = t.rules[..128].repeat(256);
    assert_eq!(lent(&t, [1280, 1280, 1400])[0], "0 0 1 1 0");
}

#[test]
fn rules_of_bad_counts() {
    assert_eq!(after(|t| rule(t, 0, 0, 1)), "3 0");
    assert_eq!(after(|t| rule(t, 1, 0, 2)), "3 1");
    assert_eq!(after(|t| rule(t, 1, 0, 9)), "3 1");
    assert_eq!(after(|t| rule(t, 0, 1, 0)), "3 0");
    assert_eq!(after(|t| rule(t, 0, 1, 1)), "3 0");
    assert_eq!(after(|t| rule(t, 0, 1, 3)), "3 0");
    assert_eq!(after(|t| rule(t, 0, 1, 121)), "3 0");
    assert_eq!(after(|t| rule(t, 0, 1, 255)), "3 0");
}

#[test]
fn rules_of_bad_tokens() {
    for bad in [0, 33, 63, 64, 66, 67, 69, 191, 192, 255] {
        // Record 0 is attacker(a): a predicate or a function is bad there.
        assert_eq!(after(|t| rule(t, 0, 3, bad)), "3 0", "{bad}");
    }
    assert_eq!(after(|t| rule(t, 0, 2, 1)), "3 0");
    assert_eq!(after(|t| rule(t, 0, 2, 65)), "3 0");
    assert_eq!(
        lent(
            &{
                let mut t = tables(TEXT);
                rule(&mut t, 0, 3, 32);
                t
            },
            [1280, 1280, 1400]
        )[0]
        .split(' ')
        .next(),
        Some("1")
    );
}

#[test]
fn predicates_stand_only_at_the_head() {
    let tokens = |t: &mut Tables, tokens: &[u8]| {
        t.rules[1] = tokens.len() as u8;
        t.rules[2..2 + tokens.len()].copy_from_slice(tokens);
    };
    // Numbers: 64 attacker, 65 a, 66 senc, 67 p, 68 s.
    assert_eq!(after(|t| tokens(t, &[64, 64, 65])), "3 0");
    assert_eq!(after(|t| tokens(t, &[64, 66, 65, 64, 65])), "3 0");
    assert_eq!(after(|t| tokens(t, &[66, 65, 65])), "3 0");
    assert_eq!(after(|t| tokens(t, &[1, 65])), "3 0");
    let mut t = tables(TEXT);
    tokens(&mut t, &[64, 66, 65, 68]);
    assert_eq!(lent(&t, [1280, 1280, 1400])[0], "0 0 4 1 0");
}

#[test]
fn rules_with_bytes_after_their_tokens() {
    for at in [4, 60, 121, 122, 123, 124, 125, 126, 127] {
        assert_eq!(after(|t| rule(t, 0, at, 1)), "3 0", "{at}");
    }
    assert_eq!(after(|t| rule(t, 2, 127, 1)), "3 2");
}

#[test]
fn refused_queries() {
    assert_eq!(after(|t| t.query.clear()), "4 0");
    assert_eq!(after(|t| t.query.push(0)), "4 0");
    assert_eq!(after(|t| t.query = t.query.repeat(2)), "4 0");
    assert_eq!(after(|t| t.query[3] = 1), "4 0");
    assert_eq!(after(|t| t.query[122] = 1), "4 0");
    assert_eq!(after(|t| t.query[1] = 3), "4 0");
    let rule_as_query = |t: &mut Tables| t.query = t.rules[256..384].to_vec();
    assert_eq!(after(rule_as_query), "4 0");
}

#[test]
fn the_order_of_refusals() {
    let all = |t: &mut Tables| {
        t.symbols.clear();
        t.rules.push(0);
        t.query.clear();
    };
    assert_eq!(after(all), "2 65535");
    let two = |t: &mut Tables| {
        t.rules[0] = 9;
        t.query.clear();
    };
    assert_eq!(after(two), "3 0");
}
