//! Protocol-like drafts: known handshakes with clauses lost, added or moved,
//! and handshakes made up from random messages.

use super::draft::Draft;
use super::rng::Rng;

/// Constructors and destructors; a draft takes those whose symbols it uses.
const TOOLS: [(&str, &[&str]); 7] = [
    (
        "senc",
        &[
            "attacker(senc(M,K)) :- attacker(M), attacker(K).",
            "attacker(M) :- attacker(senc(M,K)), attacker(K).",
        ],
    ),
    (
        "penc",
        &[
            "attacker(penc(M,P)) :- attacker(M), attacker(P).",
            "attacker(M) :- attacker(penc(M,pk(S))), attacker(S).",
        ],
    ),
    ("pk", &["attacker(pk(S)) :- attacker(S)."]),
    (
        "sign",
        &[
            "attacker(sign(M,S)) :- attacker(M), attacker(S).",
            "attacker(M) :- attacker(sign(M,S)).",
        ],
    ),
    (
        "pair",
        &[
            "attacker(pair(X,Y)) :- attacker(X), attacker(Y).",
            "attacker(X) :- attacker(pair(X,Y)).",
            "attacker(Y) :- attacker(pair(X,Y)).",
        ],
    ),
    ("hash", &["attacker(hash(X)) :- attacker(X)."]),
    (
        "mess",
        &[
            "attacker(Y) :- mess(X,Y), attacker(X).",
            "mess(X,Y) :- attacker(X), attacker(Y).",
        ],
    ),
];

/// Messages of handshakes in the manner of the literature, and their query.
const HANDSHAKES: [&str; 8] = [
    // Key transport with a signature.
    "attacker(pk(ska)).
     attacker(pk(skb)).
     attacker(a).
     attacker(penc(sign(k(pk(X)),ska),pk(X))) :- attacker(pk(X)).
     attacker(senc(s,K)) :- attacker(penc(sign(K,ska),pk(skb))).
     ?- attacker(s).",
    // The same with names inside the signature.
    "attacker(pk(ska)).
     attacker(pk(skb)).
     attacker(a).
     attacker(penc(sign(pair(pk(X),k(pk(X))),ska),pk(X))) :- attacker(pk(X)).
     attacker(senc(s,K)) :- attacker(penc(sign(pair(pk(skb),K),ska),pk(skb))).
     ?- attacker(s).",
    // Public-key handshake with two nonces.
    "attacker(pk(ska)).
     attacker(pk(skb)).
     attacker(a).
     attacker(penc(pair(na(pk(X)),pk(ska)),pk(X))) :- attacker(pk(X)).
     attacker(penc(pair(N,nb(N)),pk(ska))) :- attacker(penc(pair(N,pk(ska)),pk(skb))).
     attacker(penc(M,pk(X))) :- attacker(pk(X)), attacker(penc(pair(na(pk(X)),M),pk(ska))).
     attacker(senc(s,nb(N))) :- attacker(penc(nb(N),pk(skb))).
     ?- attacker(s).",
    // The repaired one: the second message names its sender.
    "attacker(pk(ska)).
     attacker(pk(skb)).
     attacker(a).
     attacker(penc(pair(na(pk(X)),pk(ska)),pk(X))) :- attacker(pk(X)).
     attacker(penc(pair(N,pair(nb(N),pk(skb))),pk(ska))) :- attacker(penc(pair(N,pk(ska)),pk(skb))).
     attacker(penc(M,pk(X))) :- attacker(pk(X)), attacker(penc(pair(na(pk(X)),pair(M,pk(X))),pk(ska))).
     attacker(senc(s,nb(N))) :- attacker(penc(nb(N),pk(skb))).
     ?- attacker(s).",
    // Shared keys with a server.
    "attacker(a).
     attacker(ida).
     attacker(idb).
     attacker(pair(ida,na)).
     attacker(senc(pair(Y,kab(X,Y)),kas)) :- attacker(pair(X,Y)).
     attacker(senc(pair(ida,kab(ida,Y)),kbs)) :- attacker(pair(ida,Y)).
     attacker(senc(s,K)) :- attacker(senc(pair(ida,K),kbs)).
     ?- attacker(s).",
    // A private channel.
    "attacker(a).
     mess(c,senc(s,k)).
     attacker(hash(k)).
     mess(c,k) :- mess(c,senc(X,k)), attacker(hash(k)).
     attacker(c) :- attacker(senc(a,a)).
     ?- attacker(s).",
    // Key agreement with both results of the agreement as functions.
    "attacker(g(xa)).
     attacker(g(xb)).
     attacker(a).
     attacker(h1(X,Y)) :- attacker(Y), attacker(g(X)).
     attacker(h1(X,Y)) :- attacker(X), attacker(g(Y)).
     attacker(g(X)) :- attacker(X).
     attacker(senc(s,h1(xa,Y))) :- attacker(g(Y)).
     ?- attacker(s).",
    // A challenge answered by a hash.
    "attacker(a).
     attacker(hash(pair(N,k))) :- attacker(N).
     attacker(senc(s,hash(pair(nb,k)))).
     attacker(nb).
     attacker(pair(X,Y)) :- attacker(X), attacker(hash(pair(Y,X))).
     ?- attacker(s).",
];

/// A protocol with some clauses lost, added or moved.
pub fn protocol(rng: &mut Rng) -> Draft {
    let mut clauses: Vec<String> = if rng.percent(60) {
        let lines = rng.pick(&HANDSHAKES).lines();
        lines.map(|c| c.trim().to_string()).collect()
    } else {
        made_up(rng)
    };
    add_tools(&mut clauses, rng);
    if rng.percent(50) {
        let lost = rng.below(clauses.len());
        if !clauses[lost].starts_with('?') {
            clauses.remove(lost);
        }
    }
    if rng.percent(30) {
        let name = *rng.pick(&["k", "ska", "skb", "kas", "kbs", "na"]);
        // A name that is a function elsewhere would have two arities.
        if !applied(&clauses, name) {
            clauses.push(format!("attacker({name})."));
        }
    }
    if rng.percent(15) && !applied(&clauses, "k") {
        clauses.push(format!("attacker({}) :- attacker(X).", message(rng, 1)));
    }
    if rng.percent(60) {
        rng.shuffle(&mut clauses);
    }
    Draft::of_text(&clauses.join("\n"))
}

/// Whether some clause gives the symbol arguments.
fn applied(clauses: &[String], name: &str) -> bool {
    let (text, start) = (clauses.join(" "), format!("{name}("));
    let mut found = text.match_indices(&start);
    found.any(|(at, _)| !text[..at].ends_with(|c: char| c.is_ascii_alphanumeric()))
}

fn add_tools(clauses: &mut Vec<String>, rng: &mut Rng) {
    let text = clauses.join(" ");
    let mut tools: Vec<String> = Vec::new();
    for (symbol, rules) in TOOLS {
        let used = text.contains(&format!("{symbol}("));
        if used || rng.percent(10) {
            tools.extend(rules.iter().map(|r| r.to_string()));
        }
    }
    tools.append(clauses);
    *clauses = tools;
}

/// A handshake of two to five messages that nobody designed.
fn made_up(rng: &mut Rng) -> Vec<String> {
    let mut clauses: Vec<String> = vec!["attacker(a).".into(), "attacker(pk(ska)).".into()];
    for _ in 0..rng.between(1, 4) {
        let conclusion = message(rng, 2);
        let body: Vec<String> = (0..rng.below(3))
            .map(|_| format!("attacker({})", message(rng, 2)))
            .collect();
        let arrow = if body.is_empty() { "" } else { " :- " };
        clauses.push(format!("attacker({conclusion}){arrow}{}.", body.join(", ")));
    }
    clauses.push(format!(
        "attacker({}).",
        message(rng, 2).replace(['X', 'Y'], "s")
    ));
    clauses.push("?- attacker(s).".into());
    clauses
}

fn message(rng: &mut Rng, depth: usize) -> String {
    if depth == 0 || rng.percent(20) {
        return rng.pick(&["X", "Y", "a", "s", "ska", "k"]).to_string();
    }
    let (left, right) = (message(rng, depth - 1), message(rng, depth - 1));
    match rng.below(6) {
        0 => format!("senc({left},{right})"),
        1 => format!("penc({left},pk({right}))"),
        2 => format!("sign({left},{right})"),
        3 => format!("pair({left},{right})"),
        4 => format!("hash({left})"),
        _ => format!("pk({left})"),
    }
}
