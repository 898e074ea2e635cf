#!/usr/bin/env python3
"""Brings the repository's own definitions and lemmas to one spelling: words in snake case, types and modules as they are.

usage: tools/respell.py        at the top of the repository, once, right after the kit's port.py

A name is turned where a signature of specs/ or of a lemma file of proofs/ declares it: `usesMatched` becomes `uses_matched`,
and `span-step` becomes `span_step`. It is turned in .antt files, in the ghost items and clauses of .rt files, and in the
pages of docs/ and README.md. Functions of src/, strings, and the names that Rattle makes keep their spelling.
It stops, and writes nothing, where two names would fall together.
"""

import os
import re
import sys

STOPS = r"\s(){}\[\].,;:|\"⌜⌝@"
TOKEN = re.compile(rf"(?<![^{STOPS}])[^{STOPS}]+")
SIGNATURE = re.compile(rf"^\s*(?:abbrev |unfoldable |pub )*([^{STOPS}]+) :(?: |$)")
CLAUSE = re.compile(r"^\s*(?:ghost use |requires\b|ensures\b)")

# Names that a kit's derive makes, and what std calls its own.
KEPT = {"Term-discrete"}
# Where the plain turn would fall together with another lemma's name. (A lemma that would have its function's name gets `_lem`.)
CHOSEN = {"first-bad-ok": "first_bad_bytes_ok"}
# Fields of one record, spelled as a definition of another crate that nothing beside it imports.
APART = {"name_new"}


def files(top, endings):
    for folder, dirs, names in os.walk(top):
        dirs[:] = sorted(d for d in dirs if d not in ("out", ".git"))
        for n in sorted(names):
            if n.endswith(endings):
                yield os.path.join(folder, n)


def read(p):
    with open(p, encoding="utf-8") as f:
        return f.read()


def own(path):
    """Is this a file of definitions or lemmas, and not the proof of one function?"""
    parts = path.split(os.sep)
    i = parts.index("crates") + 2
    return parts[i] == "specs" or (parts[i] == "proofs" and len(parts) == i + 2)


def turned(name):
    if name in KEPT or name[0].isupper():
        return name
    if name in CHOSEN:
        return CHOSEN[name]
    s = re.sub(r"(?<=[a-z0-9'])([A-Z])", r"-\1", name)
    s = re.sub(r"(?<=[A-Z])([A-Z])", r"-\1", s)
    return re.sub(r"(?<=[\w'])-(?=[\w'])", "_", s).lower() if s.isascii() else re.sub(r"(?<=[\w'])-(?=[\w'])", "_", s)


def declared(antt):
    names = set()
    for p in antt:
        if own(p):
            for line in read(p).splitlines():
                m = SIGNATURE.match(line.split("--")[0])
                if m:
                    names.add(m.group(1))
    return names


def turn_text(text, new, dotted):
    """Each token that is a name; one behind a dot only where it is a field or goes by its module's path."""

    def one(m):
        t = m.group(0)
        if t not in new:
            return t
        before = text[m.start() - 1] if m.start() else ""
        if before == "." and "-" in t and not dotted(text, m.start()):
            return t
        return new[t]

    return TOKEN.sub(one, text)


def borrowed(text, crates):
    """The names that a file takes from the libraries of the kit: those keep their spelling."""
    names = set()
    for m in re.finditer(r"(?m)^(?:ghost )?use ([^{\n]+)\.\{([^}]*)\}", text):
        path = m.group(1).split(".")
        if not (path[0] == "Rattle" and path[1] in crates):
            names |= {n.split(" as ")[0].strip() for n in m.group(2).split(",")}
    return names


def by_path(text, at):
    """Does a path of modules stand before the dot, as in `Laws.span-step`?"""
    return bool(re.search(r"(?:^|[\s({\[])(?:[A-Z]\w*\.)+$", text[max(0, at - 200) : at]))


def turn_rt(text, new):
    out = []
    for line in text.splitlines(keepends=True):
        out.append(turn_text(line, new, by_path) if CLAUSE.match(line) else line)
    return "".join(out)


def main():
    top = os.path.join(os.getcwd(), "crates")
    antt = list(files(top, (".antt",)))
    rt = list(files(top, (".rt",)))
    names = declared(antt)
    new = {n: turned(n) for n in names if turned(n) != n}
    plain = {turned(n) for n in names if "-" not in n}
    for n in new:
        if "-" in n and new[n] in plain:
            new[n] += "_lem"
    back = {}
    bad = []
    for n in sorted(names):
        back.setdefault(new.get(n, n), []).append(n)
    for to, olds in back.items():
        if len(olds) > 1 and to not in APART:
            bad.append(f"{', '.join(olds)} would all be {to}")
    seen = {}
    for p in antt + rt:
        for line in read(p).splitlines():
            line = line.split("--")[0] if p.endswith(".antt") else line if CLAUSE.match(line) else ""
            for m in TOKEN.finditer(line):
                if "." not in line[m.start() - 1 : m.start()] + line[m.end() : m.end() + 1]:
                    seen.setdefault(m.group(0), set()).add(os.path.relpath(p, top))
    for n, to in sorted(new.items()):
        if to in seen and to not in names:
            both = seen[to] & seen.get(n, set())
            if both:
                bad.append(f"{n}: {to} stands already beside it in {', '.join(sorted(both)[:4])}")
    if bad and "--anyway" not in sys.argv:
        print("\n".join(bad))
        print(f"respell: {len(bad)} names would fall together; nothing was written")
        return 1
    crates = set(os.listdir(top))
    for p in antt + rt:
        t = read(p)
        here = {n: to for n, to in new.items() if n not in borrowed(t, crates)}
        u = turn_text(t, here, by_path) if p.endswith(".antt") else turn_rt(t, here)
        if u != t:
            with open(p, "w", encoding="utf-8") as f:
                f.write(u)
    for p in ["README.md", *files(os.path.join(os.getcwd(), "docs"), (".md",))]:
        t = read(p)
        u = re.sub(r"`([^`]*)`", lambda m: "`" + turn_text(m.group(1), new, lambda *_: True) + "`", t)
        if u != t:
            with open(p, "w", encoding="utf-8") as f:
                f.write(u)
    print(f"respell: {len(new)} names in snake case")
    return 0


if __name__ == "__main__":
    raise SystemExit(main())
