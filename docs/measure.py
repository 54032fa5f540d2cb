#!/usr/bin/env python3
"""Measures anew what docs/PERFORMANCE.md tells: builds the proved archive and the benchmark, runs it (some minutes), writes
docs/ratios.tsv, docs/groups.tsv, docs/performance.tsv, docs/regular_ratios.tsv, docs/regular.tsv and docs/kinds.tsv, fills
the page's tables from them and draws the plots.

    python3 docs/measure.py            everything
    python3 docs/measure.py regular    the judge of regular rules alone
    python3 docs/measure.py kinds      judging by a table of kinds alone
    python3 docs/measure.py tables     the page's tables and the plots alone, from the files that are there
"""
import csv
import os
import re
import subprocess
import sys
from pathlib import Path

sys.dont_write_bytecode = True
import plot

HERE = Path(__file__).resolve().parent
PAGE = HERE / "PERFORMANCE.md"
CARGO = ["--release", "--offline", "--locked", "--manifest-path", "rust/Cargo.toml", "-p", "bench"]


def read(name):
    with open(HERE / name, encoding="utf-8") as table:
        return list(csv.DictReader(table, delimiter="\t"))


def markdown(head, rows):
    yield "| " + " | ".join(head) + " |"
    yield "|---" * len(head) + "|"
    yield from ("| " + " | ".join(row) + " |" for row in rows)


def fill(block, lines):
    """Puts the lines between the page's marks of this block."""
    page = PAGE.read_text(encoding="utf-8")
    marks = rf"(<!-- {block} -->\n).*?(<!-- end -->)"
    page, count = re.subn(marks, lambda m: m[1] + "\n".join(lines) + "\n" + m[2], page, flags=re.S)
    assert count == 1, block
    PAGE.write_text(page, encoding="utf-8")


def shown(nanoseconds):
    """A time with a unit, to about three digits."""
    value = float(nanoseconds)
    for unit in ["ns", "µs", "ms"]:
        if value < 999.5:
            return f"{value:.{0 if value >= 99.95 else 1}f} {unit}"
        value /= 1000
    return f"{value:.1f} s"


def ratios():
    """The proved judge against Rust, rules with binders first, and against the plain checker."""
    table = read("ratios.tsv")

    def lines(rows):
        head = ["Case", "n", "Rounds", "Proved", "/ safe, indexing", "/ safe, slices", "/ unchecked"]
        others = ["indexed", "sliced", "unchecked"]
        told = ([f"{int(r['proved']) / int(r[o]):.2f}" for o in others] for r in rows)
        start = ([r["case"], r["n"], r["rounds"], shown(r["proved"])] for r in rows)
        return markdown(head, (a + b for a, b in zip(start, told)))

    rust = [r for r in table if not r["plain"]]
    fill("rules", lines([r for r in rust if r["rounds"] != "0"]))
    fill("operations", lines([r for r in rust if r["rounds"] == "0"]))
    plain = [r for r in table if r["plain"]]
    percent = ([r["case"], r["n"], shown(r["proved"]), shown(r["plain"]), f"{100 * int(r['proved']) / int(r['plain']):.2f}"] for r in plain)
    fill("plain", markdown(["Case", "n", "Proved", "Plain", "Percent"], percent))


def groups():
    """Rules of groups, each beside the same rule of single actions."""
    head = ["n", "Actions in a group", "Kind 6", "Kind 13", "13 / 6", "Kind 7", "Kind 14", "14 / 7"]
    rows = ([r["n"], r["group size"], shown(r["kind 6"]), shown(r["kind 13"]), r["13 / 6"], shown(r["kind 7"]), shown(r["kind 14"]), r["14 / 7"]] for r in read("groups.tsv"))
    fill("groups", markdown(head, rows))


def worst():
    table = read("performance.tsv")
    rows = [r for r in table if r["series"] == "64 nodes, no binder" and r["n"] == "16"]
    rows += [r for r in table if r["series"].startswith(("two wheels", "longest", "stairs"))]
    fill("worst", markdown(["Case", "n", "m", "Rounds", "Time"], ([r["series"], r["n"], r["m"], r["rounds"], shown(r["nanoseconds"])] for r in rows)))


def deepest():
    """For each n the deepest rule, of either sort, that ended within a minute."""
    table = [r for r in read("performance.tsv") if int(r["nanoseconds"]) <= 60 * 10**9]
    sorts = ["binders of one kind", "alternating binders"]
    rows = []
    for n in sorted({int(r["n"]) for r in table if r["series"] in sorts}):
        row = [str(n)]
        for sort in sorts:
            last = [r for r in table if r["series"] == sort and int(r["n"]) == n][-1]
            levels = last["nesting"] + (", all" if int(last["nesting"]) == min(n, 8) else "")
            row += [levels, shown(last["nanoseconds"])]
        rows.append(row[:1] + [last["rounds"]] + row[1:])
    fill("deepest", markdown(["n", "Rounds a level", "One kind: levels", "Time", "Alternating: levels", "Time"], rows))


def regular():
    """The judge of regular rules against unchecked Rust, and against the plain checker."""
    table = read("regular_ratios.tsv")
    head = ["Case", "Steps", "m", "Proved", "of it vetting", "Unchecked judging", "Whole", "Judging", "nine of ten"]
    fill("regular", markdown(head, (
        [r["case"], r["steps"], r["m"], shown(r["proved"]), shown(r["vetting"]), shown(r["unchecked"]), r["whole"], r["judging"], f"{r['low']} to {r['high']}"]
        for r in table
    )))
    percent = ([r["case"], r["steps"], shown(r["proved"]), shown(r["plain"]), f"{100 * int(r['proved']) / int(r['plain']):.0f}"] for r in table)
    fill("regular plain", markdown(["Case", "Steps", "Proved", "Plain", "Percent"], percent))


def kinds():
    """Judging by a table of kinds, beside judging without and against unchecked Rust."""
    head = ["Case", "n", "m", "Bytes", "Judging", "By the table", "Unchecked", "/ judging", "nine of ten", "/ unchecked", "nine of ten"]
    fill("kinds", markdown(head, (
        [r["case"], r["n"], r["m"], r["bytes"], shown(r["judge"]), shown(r["kinds"]), shown(r["unchecked"])]
        + [r["/ judge"], f"{r['judge low']} to {r['judge high']}", r["/ unchecked"], f"{r['unchecked low']} to {r['unchecked high']}"]
        for r in read("kinds.tsv")
    )))


def processor():
    """The processor's name, as the system has it."""
    with open("/proc/cpuinfo", encoding="utf-8") as lines:
        names = [line.partition(":")[2].strip() for line in lines if line.startswith("model name")]
    return names[0] if names else "unnamed processor"


FIRST_JUDGE = [("ratios", "ratios.tsv"), ("groups", "groups.tsv"), ("growth", "performance.tsv")]
REGULAR = [("regular-ratios", "regular_ratios.tsv"), ("regular-growth", "regular.tsv")]
KINDS = [("kinds", "kinds.tsv")]


def measure(blocks, tables):
    """Takes the times of these tables, and tells of the machine in these blocks."""
    root = HERE.parent
    before = os.getloadavg()[0]
    kit = subprocess.run(["rt", "version"], cwd=root, check=True, capture_output=True, text=True).stdout.split()[0]
    subprocess.run(["rt", "lib"], cwd=root / "crates/hoidrul", check=True)
    subprocess.run(["cargo", "build", *CARGO], cwd=root, check=True)
    for what, name in tables:
        subprocess.run(["cargo", "run", *CARGO, "--", what, f"docs/{name}"], cwd=root, check=True)
    after = os.getloadavg()[0]
    load = f"load average {before:.1f} before the run, and {after:.1f} after it with the run's own 1."
    for block in blocks:
        fill(block, [f"{processor()}, {os.cpu_count()} cores; the archive built by `{kit}`;", load])


if __name__ == "__main__":
    match sys.argv[1:]:
        case []:
            measure(["machine", "regular machine", "kinds machine"], FIRST_JUDGE + REGULAR + KINDS)
        case ["regular"]:
            measure(["regular machine"], REGULAR)
        case ["kinds"]:
            measure(["kinds machine"], KINDS)
        case ["tables"]:
            pass
        case _:
            sys.exit(__doc__)
    ratios()
    groups()
    worst()
    deepest()
    regular()
    kinds()
    plot.main()
