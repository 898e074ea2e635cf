#!/usr/bin/env python3
"""Turns the proofs of functions that walk goal by goal (Proof.antt) into invariants and answers.

usage: tools/turn_proofs.py CRATE NAMES.json [FUNCTION..]     at the top of the repository

NAMES.json is what `rt check --generated DIR --old-names` writes in the crate's folder. A goal that was answered by
`search rules` alone gets no answer, since the check tries more than that by itself. A place `c.before.before.f.x` becomes `c.f.x`,
by today's name of the step. What a function's file had of lemmas of its own stays, in Answers.antt.
"""

import json
import os
import re
import sys

SIGNATURE = re.compile(r"^(?:abbrev |pub |unfoldable )*(\S+) :(?: |$)")
DROPPED = re.compile(r"^use (borrow\.Author\.Rules|Rattle\.\S+\.(Statement|Tie|Reads|Kinds|Lts-\w+|\{statement\})|borrow\.Fn|Rattle\.\S+\.\{statement\})")


def plain(s):
    return s.replace("-", "_")


def blocks(text):
    """The head, and then each definition with the comments before it."""
    out, now, pending = [], [], []
    head = True
    for line in text.splitlines():
        if SIGNATURE.match(line):
            out.append(now)
            now = pending + [line]
            pending = []
            head = False
        elif not head and line.startswith("--"):
            pending.append(line)
        else:
            if pending and line.strip():
                now += pending
                pending = []
            now.append(line)
    out.append(now)
    return ["\n".join(b).rstrip() + "\n" for b in out]


class Places:
    def __init__(self, d):
        self.by = {p[0]: p for p in d["places"]}
        self.arm = {p[0]: a for p, a in zip(d["places"], d["arms"]) if a}

    def arms(self, at):
        """What the arms of matches tell on the way to a place: (old step, path) to the arm's own field."""
        out = {}
        while at is not None:
            a = self.arm.get(at)
            if a:
                for new, old, path in a[2]:
                    out.setdefault((plain(old), ".".join(path)), f"{a[0]}.{new}")
            at = self.by[at][1]
        return out

    def chain(self, at):
        """The steps from a place back to the start: (old name, new name, renamed fields)."""
        out = []
        while at is not None:
            p = self.by[at]
            out.append((p[2][0], p[2][1], dict(map(tuple, p[4])) if p[4] else {}, p))
            at = p[1]
        return out


def steps(body, chain, arms, params, said):
    """Rewrites each c.before.. path of a body."""

    def arm(m):
        for (old, path), new in arms.items():
            if path and plain(m.group(1)) == old and (m.group(2) + ".").startswith("." + path + "."):
                return f"c.{new}{m.group(2)[len(path) + 1:]}"
        return m.group(0)

    body = re.sub(r"(?<![\w'.-])c(?:\.before)*\.([\w'-]+)((?:\.[\w'-]+)+)", arm, body)

    def one(m):
        depth = m.group(1).count(".before")
        step = m.group(2)
        if step in ("args", "requires", "ranges", "well_formed", "lifetimes", "type_inv", "auto", "utf8"):
            return f"c.{step}{m.group(3) or str()}"
        found = [(i, s) for i, s in enumerate(chain) if plain(s[0]) == plain(step)]
        if not found:
            if step.startswith("in-"):
                return m.group(0)
            said.append(f"no step {step}")
            return m.group(0)
        if len(found) > 1:
            found.sort(key=lambda f: abs(f[0] - depth))
            said.append(f"{step}: one of {[s[1] for _, s in found]}")
        new, fields = found[0][1][1], found[0][1][2]
        rest = m.group(3) or ""
        callee = found[0][1][3][3]
        if rest == ".auto" and callee in params:
            kept = re.match(r"((?:\.1)*)(\.0)?", body[m.end() :])
            autos.append((f"c.{new}.auto{kept.group(0)}", f"c.{new}.auto.{params[callee][kept.group(1).count('.1')]}"))
        if rest and rest[1:] in fields:
            rest = "." + fields[rest[1:]]
        return f"c.{new}{rest}"

    # a local that stands for a step: its fields may have new names
    for m in re.finditer(r"let (\S+) = c((?:\.before)*)\.([\w'-]+) in", body):
        found = [s for s in chain if plain(s[0]) == plain(m.group(3))]
        if found and found[0][2]:
            fields = found[0][2]
            body = re.sub(
                rf"(?<![\w'.-]){re.escape(m.group(1))}\.([\w'-]+)",
                lambda n: f"{m.group(1)}.{fields.get(n.group(1), n.group(1))}",
                body,
            )
    autos = []
    body = re.sub(r"(?<![\w'.-])c((?:\.before)*)\.([\w'-]+)(\.[\w'-]+)?", one, body)
    for old, new in autos:
        body = re.sub(rf"{re.escape(old)}(?![\w.]*\.[01])", new, body)
    return body


def loop_parts(name, d):
    for pair, variables in d["loops"]:
        for kind in ("invariant", "decreases"):
            if plain(name) == plain(f"{kind}-{pair[0]}"):
                return f"{kind}-{pair[1]}", variables, d["changed"][[l[0] for l in d["loops"]].index(pair)]
    return None


def invariant(block, name, d, said):
    new, variables, changed = loop_parts(name, d)
    m = re.search(rf"^{re.escape(name)}((?: \S+)*) =(.*)$", block, re.S | re.M)
    if not m:
        said.append(f"{name}: no clause")
        return ""
    given = m.group(1).split()
    flags = changed if len(changed) == len(variables) else [True] * len(variables)
    slots = [f"l.initial.{v}" if c else f"l.{v}" for v, c in zip(variables, flags)] + [f"l.{v}" for v, c in zip(variables, flags) if c]
    if len(slots) != len(given):
        said.append(f"{name}: {len(given)} variables for {len(slots)} places: {given} {slots}")
        slots = [f"l.initial.{g.rstrip('₀')}" if g.endswith("₀") else f"l.{g}" for g in given]
    body = m.group(2)
    for g, s in zip(given, slots):
        if g != "_":
            body = re.sub(rf"(?<![\w'.₀-]){re.escape(g)}(?![\w'₀-])", s, body)
    before = block[: m.start()]
    comment = "".join(l + "\n" for l in before.splitlines() if l.startswith("--"))
    opens = "".join(l + "\n" for l in before.splitlines() if l.startswith("unfolding"))
    return f"{comment}abbrev pub {new} : goal.{new}\n{opens}{new} l ={body.rstrip()}\n"


def uses(head, body, extra=()):
    keep = []
    for line in head.splitlines():
        if not line.startswith("use ") or DROPPED.match(line):
            continue
        m = re.match(r"^(use [^{]+\.)\{([^}]*)\}$", line)
        if not m:
            keep.append(line)
            continue
        names = [n.strip() for n in m.group(2).split(",")]
        left = []
        for n in names:
            word = n.split(" as ")[-1].strip()
            parts = [p for p in word.split("◌") if p]
            if all(re.search(rf"(?<![\w'-]){re.escape(p)}(?![\w'-])" if re.match(r"\w", p) else re.escape(p), body) for p in parts):
                left.append(n)
        if left:
            keep.append(f"{m.group(1)}{{{', '.join(left)}}}")
    return "\n".join(keep) + "\n" if keep else ""


def turn(crate, folder, key, d):
    path = os.path.join(folder, "Proof.antt")
    text = open(path, encoding="utf-8").read()
    bs = blocks(text)
    head = bs[0]
    f = re.search(r"\.\+(\w+)\.Lts", key)
    cycle = f.group(1) if f else None
    title = [l for l in head.splitlines() if l.startswith("--")]
    where = Places(d)
    said = []
    needs = [n for n in d["needs"]]
    invariants, answers, own = [], [], []
    tied = 0
    for b in bs[1:]:
        sig = next(l for l in b.splitlines() if SIGNATURE.match(l))
        name = SIGNATURE.match(sig).group(1)
        i = re.search(r"(?:tie|\w+-lts)\.((?:invariant|decreases)-\S+)", sig)
        if i:
            invariants.append(invariant(re.sub(rf"(?m)^{re.escape(name)} ", i.group(1) + " ", b), i.group(1), d, said))
            continue
        if cycle and re.search(r": Measures ", sig):
            m = re.search(r"(?m)= (.*)$", b.splitlines()[-1])
            ps = d["params"][[p for p in d["params"] if p.endswith("::" + cycle)][0]]

            def parameter(n):
                i = n.group(0).count(".1")
                return "l." + ps[i]

            body = re.sub(r"(?<![\w.])a((?:\.1)*)(\.0)?(?![\w.]*\.[01])", parameter, m.group(1))
            invariants.append(f"abbrev pub decreases-{cycle} : goal.decreases-{cycle}\ndecreases-{cycle} l = {body}\n")
            continue
        if cycle and re.search(r": ℕ → (In |\w+-lts\.Claims)", sig):
            continue
        m = re.search(r"(?:tie|\w+-lts)\.Need-(\S+)", sig)
        if m:
            tied += 1
            old = plain(m.group(1))
            words = {old, plain(name), re.sub(rf"^{cycle}_", "", plain(name)), re.sub(r"^(overflow|nonzero)_", "", old), re.sub(r"^slice_bounds_", "part_", old)}
            at = [i for i, n in enumerate(needs) if plain(n[0]) == old] or [i for i, n in enumerate(needs) if plain(n[0]) in words]
            if not at and re.search(r"=\s*search rules\s*$", b.strip()):
                continue
            if not at:
                said.append(f"no goal {m.group(1)}")
                own.append("-- LEFT\n" + b)
                continue
            new = needs[at[0]][1]
            place = d["asked_at"][at[0]][0]
            lines = b.splitlines()
            i = lines.index(sig)
            body = "\n".join(lines[i + 1 :]) + "\n"
            if re.search(rf"^{re.escape(name)}(?: \S+)* =\s*search rules\s*$", body.strip(), re.S):
                continue
            chain = where.chain(place)
            body = steps(body, chain, where.arms(place), d["params"], said)
            if cycle:
                body = re.sub(r"c\.requires\.1(?=[.\s,)])", "c.requires", body)
            body = re.sub(rf"^{re.escape(name)} ((?:t )?\S+)(?: κs)? =", f"{new} \\1 =", body, flags=re.M)
            comment = "".join(l + "\n" for l in lines[:i])
            answers.append(f"{comment}pub {new} : goal.{new}\n{body}")
            continue
        if re.search(r"\bstatement\b", sig):
            continue
        own.append(b)
    own = [re.sub(r"^pub ", "", b) if not b.startswith("--") else b for b in own]
    module = key.split(".", 1)[1].rsplit(".", 1)[0]
    base = f"Rattle.{crate}.proofs.{module}"
    if invariants:
        body = "\n".join(invariants)
        with open(os.path.join(folder, "Invariants.antt"), "w", encoding="utf-8") as f:
            f.write("\n".join(title) + "\n" + uses(head, body) + f"use {base}.Given as goal\n\n" + body)
    if answers or own:
        body = "\n".join(own + answers)
        with open(os.path.join(folder, "Answers.antt"), "w", encoding="utf-8") as f:
            f.write(("" if invariants else "\n".join(title) + "\n") + uses(head, body) + f"use {base}.Goals as goal\n\n" + body)
    os.remove(path)
    return tied, len(answers), said


def main(argv):
    crate, names = argv[0], json.load(open(argv[1], encoding="utf-8"))
    wanted = argv[2:]
    top = os.path.join("crates", crate, "proofs")
    for folder, dirs, files in sorted(os.walk(top)):
        if "Proof.antt" not in files:
            continue
        f = os.path.relpath(folder, top)
        if wanted and f not in wanted:
            continue
        key = f"Rattle-{crate}-proofs.{f.replace(os.sep, '.')}.Lts"
        if key not in names and "+" in f:
            key += "-" + f.split("+")[1]
        if key not in names:
            print(f"{f}: not in the names")
            continue
        n, k, said = turn(crate, folder, key, names[key])
        print(f"{f}: {n} goals, {k} answers" + "".join(f"\n    {s}" for s in said))


if __name__ == "__main__":
    main(sys.argv[1:])
