#!/usr/bin/env python3
"""Turned the repository's own names to the spelling of the installed Rattle, once: words in snake case, types in camel case.

usage: python3 docs/history/spell_names.py [--list]     at the top of a checkout, after the kit's upgrade script; --list writes nothing

An own name is one that specs/ or proofs/ declares: a definition, lemma, record, field, constructor, parameter or local name.
Names that Rattle makes (goals, and the steps of a proof's facts) and names of a library keep their dashes.
Functions of src/, exported names, strings, inputs and outputs are not touched.
"""
import collections
import glob
import re
import sys

TOKEN = re.compile(r"[^\s(){}\[\];,.:λ\"`]+")
HEAD = re.compile(r"^\s*(?:(?:pub|abbrev|unfoldable|record|data|ruleset|module)\s+)*([^\s(){}\[\];,.:λ\"]+)\s*(?=[:({]|$)")
BOUND = re.compile(r"[({]((?:[^\s(){}\[\];,.:λ\"]+\s+)*[^\s(){}\[\];,.:λ\"]+)\s+:\s")
LET = re.compile(r"(?:\blet|\belim|λ)\s+((?:[^\s(){}\[\];,.:λ\"=]+\s*)+)[:=.]")
KINDS = re.compile(r"^\s*(?:[|\[]\s*)?([a-z][^\s(){}\[\];,.:λ\"]*)\s+((?:[a-z][\w'-]*\s+)+)=")
PLAIN = re.compile(r"^[A-Za-z][A-Za-z0-9_']*(?:-[A-Za-z0-9_']+)+$")

# Named after a word of the library that has another name today.
BY_HAND = {"names-getD": "names_get_or"}


def files(ends):
    for top in ("specs", "proofs", "src"):
        for p in sorted(glob.glob(f"crates/*/{top}/**/*", recursive=True)):
            if p.endswith(ends) and "/out/" not in p:
                yield p


def text_of(p):
    with open(p, encoding="utf-8") as f:
        return f.read()


def made_by_rattle(lines):
    """The goals that a proof file answers."""
    return {m[1] for l in lines if (m := re.match(r"\s*(?:abbrev\s+)?pub\s+(\S+)\s*:\s*(?:goal|need|choice)\.", l))}


def own_names():
    own, made = collections.defaultdict(set), set()
    for p in files(".antt"):
        lines = text_of(p).split("\n")
        goals = made_by_rattle(lines)
        made |= goals
        for l in lines:
            l = l.split("--")[0]
            if l.startswith("use "):
                continue
            found = []
            if (m := HEAD.match(l)) and re.match(r"\s*(?:\w+\s+)*\S+\s*(?:[({].*)?:", l):
                found.append(m[1])
            for m in BOUND.finditer(l):
                found += m[1].split()
            for m in LET.finditer(l):
                found += m[1].split()
            if m := KINDS.match(l):
                found += m[2].split()
            for n in found:
                if PLAIN.match(n) and n not in goals:
                    own[n].add(p)
    return own, made


def of_libraries():
    """For each file, the names that it imports from elsewhere than the repository."""
    crates = {p.split("/")[1] for p in glob.glob("crates/*/src")}
    by_file = {}
    for p in files((".antt", ".rt")):
        names = set()
        for m in re.finditer(r"\buse\s+([\w.·+-]+?)\.\{([^}]*)\}", text_of(p)):
            parts = m[1].split(".")
            if not (parts[0] == "Rattle" and len(parts) > 1 and parts[1] in crates):
                names |= {w.strip().split(" as ")[0] for w in m[2].split(",")}
        by_file[p] = names
    return by_file


def spelled(n):
    if n in BY_HAND:
        return BY_HAND[n]
    if n[0].isupper():
        return "".join(w[:1].upper() + w[1:] for w in n.split("-"))
    return n.replace("-", "_")


def turned(text, names, foreign, rust):
    def one(m):
        n = m[0]
        if n not in names or n in foreign:
            return n
        return n if text[: m.start()].endswith("goal.") else spelled(n)

    if not rust:
        return TOKEN.sub(one, text)
    # in src/ only what contracts and ghost items say
    out, i = [], 0
    for m in re.finditer(r"ghost use [^;]*;|(?:requires|ensures|ghost|invariant)\b[^{;]*\{", text):
        out.append(text[i : m.start()])
        j = m.end()
        if m[0].endswith("{"):
            deep = 1
            while deep:
                deep += {"{": 1, "}": -1}.get(text[j], 0)
                j += 1
        part = text[m.start() : j]
        out.append(TOKEN.sub(lambda w: spelled(w[0]) if w[0] in names and w[0] not in foreign else w[0], part))
        i = j
    out.append(text[i:])
    return "".join(out)


def main(argv):
    own, made = own_names()
    foreign = of_libraries()
    both = sorted(set(own) & made)
    for n in both:
        print("own and made by Rattle, left as it is:", n)
    names = set(own) - made
    taken = collections.defaultdict(set)
    for p in files((".antt", ".rt")):
        for w in set(TOKEN.findall(text_of(p))):
            taken[w].add(p)
    seen = collections.defaultdict(set)
    for n in names:
        seen[spelled(n)].add(n)
    for new, olds in sorted(seen.items()):
        if len(olds) > 1 or new in taken:
            print("falls together:", new, sorted(olds), sorted(taken.get(new, ()))[:6])
    print(len(names), "names")
    if "--list" in argv:
        print(" ".join(sorted(names)))
        return 0
    for p in list(files((".antt", ".rt"))):
        old = text_of(p)
        new = turned(old, names, foreign[p], p.endswith(".rt"))
        if new != old:
            with open(p, "w", encoding="utf-8") as f:
                f.write(new)
    return 0


if __name__ == "__main__":
    raise SystemExit(main(sys.argv[1:]))
