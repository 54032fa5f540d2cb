#!/usr/bin/env python3
"""Counts, over crates/*/src, the places of points 1 to 8 of docs/DESIGN-PASS.md, and names each.

Usage: python3 tools/design_counts.py [FOLDER] [--names]     FOLDER is a checkout, this one by default.

A place is found by its form in the text, so a count says where to look and not that the form is wrong.
"""
import collections
import glob
import itertools
import os
import re
import sys

NAMES = "--names" in sys.argv
FOLDER = next((a for a in sys.argv[1:] if not a.startswith("--")), ".")


def sources():
    for path in sorted(glob.glob(os.path.join(FOLDER, "crates/*/src/*.rt"))):
        with open(path) as f:
            yield "/".join(path.split("/")[-3:]).replace("/src", ""), f.read()


def code(text):
    """The text without comments."""
    return re.sub(r"//[^\n]*", "", text)


def functions(text):
    """Each function: its name, its parameters with their types, its clauses and its body."""
    for m in re.finditer(r"\bfn (\w+)(?:<[^>]*>)?\(", text):
        depth, i = 1, m.end()
        while depth:
            depth += {"(": 1, ")": -1}.get(text[i], 0)
            i += 1
        params = text[m.end() : i - 1]
        head = re.compile(r"\n\s*\{\n|\s\{\n").search(text, i)
        start = re.compile(r"\n( *)\{\n").search(text, i)
        body_at = start.start() if start and "ensures" in text[i : start.start() + 1] else (head.start() if head else i)
        yield m.group(1), params, text[i:body_at], body_of(text, body_at)


def body_of(text, at):
    i = text.index("{", at)
    depth, j = 1, i + 1
    while depth and j < len(text):
        depth += {"{": 1, "}": -1}.get(text[j], 0)
        j += 1
    return text[i:j]


def split_top(text, by):
    """Parts of the text between signs that stand in no bracket."""
    parts, depth, last = [], 0, 0
    for i, c in enumerate(text):
        depth += (c in "([{") - (c in ")]}")
        if c == by and depth == 0:
            parts.append(text[last:i])
            last = i + 1
    return [p.strip() for p in parts + [text[last:]] if p.strip()]


def enums(text):
    for m in re.finditer(r"\benum (\w+)(?:<[^>]*>)? \{(.*?)\n\}", text, re.S):
        yield m.group(1), [v for v in split_top(m.group(2), ",")]


def point1(found):
    for path, text in sources():
        text = code(text)
        for name, variants in enums(text):
            if len(variants) == 2 and any("Refus" in v or v in ("None", "Nothing", "Sound") for v in variants):
                found["1a an own enum of the shape of Option or Result"].append(f"{path} {name}")
        for m in re.finditer(r"struct (\w+)[^{;]*\{(.*?)\n\}", text, re.S):
            for flag in re.findall(r"(\w+): bool", m.group(2)):
                found["1b a flag in a struct, beside other fields"].append(f"{path} {m.group(1)}.{flag}")
        for m in re.finditer(r"const (ANEW|UP|DOWN|LAST_CONSTANT|TAU|OR|AND|CHOP)\b", text):
            found["1c a constant that numbers a kind or a direction"].append(f"{path} {m.group(1)}")
        for name, _, _, body in functions(text):
            arms = re.findall(r"\n\s*(?:\d+|_) => |=> \d+,", body)
            if len(arms) >= 4:
                found["1d a match from or to numbers of kinds, laws or refusals"].append(f"{path} {name}")
        for m in re.finditer(r"\b(change|bad|count) == (0|m|count)\b", text):
            found["1e a number that stands for none or for no change"].append(f"{path} {m.group(0)}")


def shape(body):
    """The text of a body without its numbers, widths and line breaks."""
    return re.sub(r"\b(\d+|count)\b", "0", re.sub(r"\bu16\b", "u8", re.sub(r"\s+", " ", body)))


def point2(found):
    bodies, types = collections.defaultdict(list), collections.defaultdict(list)
    for path, text in sources():
        text = code(text)
        for name, _, _, body in functions(text):
            words = re.sub(r"\b(LargeCase|LargeChecked)\b", lambda m: m.group(0)[5:], shape(body))
            if len(words) > 30:
                bodies[words].append(f"{path} {name}")
        for m in re.finditer(r"struct (\w+)[^{;]*\{(.*?)\n\}", text, re.S):
            fields = tuple(f for f in re.findall(r"(\w+):", m.group(2)) if f not in ("whole",))
            types[fields].append(f"{path} {m.group(1)}")
    for group in list(bodies.values()) + list(types.values()):
        for place in group[1:]:
            found["2a a function or struct with the text of another"].append(f"{place} = {group[0]}")
    tests = collections.Counter()
    for path, text in sources():
        for _ in re.findall(r">> [\w()% ]+\) ?% 2", code(text)):
            tests[path] += 1
    for path, n in tests.items():
        found["2b a test of one bit, written out"] += [path] * n


def point3(found):
    for path, text in sources():
        for name, _, _, body in functions(code(text)):
            for m in re.finditer(r"\n\s*(while|loop|for)\b([^\n]*)", body):
                kind = m.group(1)
                rest = body[m.end() :]
                if kind == "while" and re.search(r"\b(\w+) (\+|-)= 1;", rest):
                    found["3a a while that counts by hand"].append(f"{path} {name}")
                elif kind == "while" or kind == "loop":
                    found["3b another while or loop"].append(f"{path} {name}")
                elif re.search(r"(\w+) = \1 [&|] ", rest):
                    found["3c a for that gathers by `x = x & ..` or `x = x | ..`"].append(f"{path} {name}")
                elif (v := re.match(r" (\w+) in [^\n]*\.\.", m.group(2))) and re.search(rf"\[[^\]\n]*\b{v.group(1)}\b[^\]\n]*\]", body_of(body, m.start())):
                    found["3d a for over an index, by which it reads or writes elements"].append(f"{path} {name}")
                else:
                    found["3e another for"].append(f"{path} {name}")


def point4(found):
    hand = "rises|same|number|kind_of|text|line|yes_or_no|state|numbered|direction|wide|before"
    for path, text in sources():
        for name, params, _, _ in functions(code(text)):
            if re.fullmatch(hand, name):
                found["4 equality, order, conversion or printing by hand"].append(f"{path} {name}")


def point5(found):
    facts, together = collections.defaultdict(set), collections.defaultdict(set)
    for path, text in sources():
        for name, params, clauses, _ in functions(code(text)):
            for clause in re.findall(r"requires(?: \w+)? \{ (.*) \}", clauses):
                for fact in split_top(clause, "×"):
                    facts[(path.split("/")[0], fact.strip("()"))].add(name)
            names = sorted(split_top(params, ","))
            if len(names) >= 5:
                found["5b a function of five or more parameters"].append(f"{path} {name}")
            for three in itertools.combinations(names, 3):
                together[(path.split("/")[0], *three)].add(name)
    for (crate, fact), where in sorted(facts.items()):
        if len(where) >= 3:
            found["5a a fact that three or more functions of a crate require"].append(f"{crate} {len(where)}: {fact}")
    for (crate, *three), where in sorted(together.items()):
        if len(where) >= 3:
            found["5c three parameters that three or more functions of a crate take"].append(f"{crate} {len(where)}: {', '.join(three)}")


def point6(found):
    for path, text in sources():
        text = code(text)
        for m in re.finditer(r"(type \w+ = \[\w+; \d+\])", text):
            found["6a a table of words with places of its own"].append(f"{path} {m.group(1)}")
        for m in re.finditer(r"struct (\w+)[^{;]*\{(.*?)\n\}", text, re.S):
            if re.search(r": \[\w+; \w+\]", m.group(2)) and re.search(r"\b(length|count|depth|at): usize", m.group(2)):
                found["6b a buffer with a length beside it"].append(f"{path} {m.group(1)}")
        for name, params, _, _ in functions(text):
            if re.search(r"out: &mut \[u8\]", params) and re.search(r"\b(at|base): usize", params):
                found["6c an output area with a position beside it"].append(f"{path} {name}")


def point7(found):
    for path, text in sources():
        for name, params, _, body in functions(code(text)):
            if re.search(r"match (search|step)\b", body):
                found["7a a switch on which step to run"].append(f"{path} {name}")


def point8(found):
    lines = collections.Counter()
    for path in glob.glob(os.path.join(FOLDER, "crates/*/proofs/**/*.antt"), recursive=True):
        crate = path.split("crates/")[1].split("/")[0]
        with open(path) as f:
            text = f.read()
        lines[crate] += text.count("\n")
        if path.endswith("Answers.antt"):
            found["8a an answer"] += [f"{crate}"] * len(re.findall(r"^pub \S+ : goal\.", text, re.M))
    for crate, n in sorted(lines.items()):
        found["8b a line of proofs"] += [crate] * n


def main():
    found = collections.defaultdict(list)
    for point in (point1, point2, point3, point4, point5, point6, point7, point8):
        point(found)
    for form in sorted(found):
        print(f"{len(found[form]):6} {form}")
        if NAMES and not form.startswith("8"):
            for place in found[form]:
                print(f"         {place}")


main()
