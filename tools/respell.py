#!/usr/bin/env python3
"""Brings this repository's own names of specs/ and proofs/ to the spelling of today's Rattle. Run once, right after the kit's port.py, at the top.

A definition, lemma, field or constructor is in snake case, a function into types in camel case. A dash stays where it joins the names of two definitions, and
is an underscore elsewhere. A lemma that would get the name of a definition ends in _lem. Names of src/, strings, inputs and outputs stay as they are.
Goals of a function's proof (proofs/F/Proof.antt) are named by Rattle: they are no names of ours.
"""
import glob
import re
import sys

WORD = r'[^\s(){}.;,@"«»]+'
TOKEN = re.compile(WORD)
MARKS = r"(?:(?:pattern|unfoldable|abbrev|pub|axiom|data|record) )*"
DECL = re.compile(rf"^(\s*)({MARKS})({WORD}(?: {WORD})*)\s*(?:\{{[^}}]*\}}\s*|\([^)]*\)\s*)*:\s(.*)$")
LET = re.compile(rf"\blet ({WORD})\s*[:=]")
# what port.py left of the old operators' names, and words of the library that stand in names of lemmas
LIBRARY = {"length", "map", "take", "drop", "append", "get_or", "eqb", "cond", "replicate"}
# the older library's names of what lemmas speak of
OLDER = {"getD": "get_or"}


def sources():
    for kind in ("specs", "proofs"):
        for f in sorted(glob.glob(f"crates/*/{kind}/**/*.antt", recursive=True)):
            yield kind, f


def snake(name):
    """withNode -> with_node; a word of capitals behind small letters is one word."""
    if name in OLDER:
        return OLDER[name]
    return re.sub(r"(?<=[a-z0-9])([A-Z]+)", lambda m: "_" + m[1].lower(), name)


def camel(name):
    return name[0].upper() + name[1:]


def declared():
    """The names that the repository declares: name -> set of (kind of folder, is a type)."""
    names = {}
    for kind, f in sources():
        if f.endswith("/Proof.antt"):
            continue
        for line in open(f, encoding="utf-8"):
            text = line.lstrip()
            if text.startswith("--") or text.startswith("use "):
                continue
            m = DECL.match(line.rstrip("\n"))
            if m:
                into_types = re.search(r"(^|→ )Type \d$", m[4]) is not None
                for n in m[3].split():
                    top = kind if not m[1] else "inner"
                    names.setdefault(n, set()).add((top, "data" in m[2] or "record" in m[2] or into_types))
            for n in LET.findall(line):
                if "-" in n:
                    names.setdefault(n, set()).add(("let", False))
    return names


def joined(name, known):
    """The name with each dash that does not join two known names turned into an underscore."""
    parts = name.split("-")
    out = parts[0]
    for i in range(1, len(parts)):
        before = any("_".join(parts[j:i]) in known for j in range(i))
        after = any("_".join(parts[i:k]) in known for k in range(i + 1, len(parts) + 1))
        out += ("-" if before and after else "_") + parts[i]
    return out


def table():
    names = declared()
    turned = {}
    plain = {n for n, uses in names.items() if not any(t for _, t in uses)}
    for n in plain:
        bare = n.strip("◌")
        if re.match(r"[a-z]", bare) and re.search(r"[A-Z]", bare) and "-" not in n:
            turned[n] = snake(n)
    for n, uses in names.items():
        if any(t for _, t in uses) and re.match(r"[a-z]", n) and any(k == "specs" for k, _ in uses):
            turned[n] = camel(n)
    known = set(LIBRARY)
    for n, uses in names.items():
        if any(k == "specs" for k, _ in uses) and "-" not in n and len(n) > 1:
            known.add(turned.get(n, n))
    for n in names:
        if "-" in n and not n.startswith("-") and not n.endswith("-") and not any(c in n for c in "◌+*"):
            parts = "-".join(turned.get(p, snake(p) if re.match(r"[a-z]", p) else p) for p in n.split("-"))
            turned[n] = joined(parts, known)
    taken = {}
    for n in sorted(names):
        taken.setdefault(turned.get(n, n), []).append(n)
    for new, olds in taken.items():
        if len(olds) > 1:
            stays = [n for n in olds if "-" not in n]
            for n in olds:
                if "-" in n and stays:
                    turned[n] = new + "_lem"
    for n in list(turned):
        if turned[n] == n:
            del turned[n]
    for n, new in list(turned.items()):
        if n.startswith("◌"):
            turned[n.strip("◌")] = new.strip("◌")
    return names, turned


def respell(text, turned):
    def one(m):
        bare = m[0].rstrip("'")
        return turned[m[0]] if m[0] in turned else turned[bare] + m[0][len(bare):] if bare in turned else m[0]
    return TOKEN.sub(one, text)


def main():
    names, turned = table()
    if "--table" in sys.argv:
        for n in sorted(turned):
            print(f"{n}\t{turned[n]}")
        return
    files = [f for _, f in sources()] + glob.glob("crates/*/src/**/*.rt", recursive=True) + glob.glob("crates/*/must-fail/*.edit")
    for f in sorted(files):
        with open(f, encoding="utf-8") as h:
            old = h.read()
        new = respell(old, turned)
        if new != old:
            with open(f, "w", encoding="utf-8") as h:
                h.write(new)


if __name__ == "__main__":
    main()
