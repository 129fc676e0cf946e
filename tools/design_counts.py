#!/usr/bin/env python3
"""The places that docs/DESIGN-PASS.md counts, point by point: tools/design_counts.py [-v], at the top of a checkout."""
import glob
import re
import subprocess
import sys

SOURCES = sorted(glob.glob("crates/*/src/**/*.rt", recursive=True))
VERBOSE = "-v" in sys.argv


def lines(pattern, files=SOURCES):
    found = []
    for path in files:
        for i, line in enumerate(open(path), 1):
            if re.search(pattern, line) and not line.lstrip().startswith("//"):
                found.append("%s:%d: %s" % (path, i, line.strip()))
    return found


def functions(test):
    """functions whose name, parameters (name, type) and result pass the test"""
    found = []
    for path in SOURCES:
        text = re.sub(r"//[^\n]*", "", open(path).read())
        for m in re.finditer(r"\bfn (\w+)(?:<[^>]*>)?\s*\(([^)]*)\)(?:\s*->\s*([^\n{]+))?", text):
            flat = re.sub(r"\[[^\]]*\]", lambda a: a.group(0).replace(",", " "), m.group(2))
            parameters = [tuple(x.strip().split(":", 1)) for x in flat.split(",") if ":" in x]
            if test(m.group(1), parameters, (m.group(3) or "").strip()):
                found.append("%s: %s" % (path, m.group(1)))
    return found


LENGTHS = {"n", "slots", "processes", "conditions", "edges", "rows", "count", "used", "end", "groups"}


def beside(name, parameters, result):
    arrays = any("[" in t for _, t in parameters)
    return arrays and any(p.strip() in LENGTHS and "usize" in t for p, t in parameters)


def show(title, found):
    print("%-72s %5d" % (title, len(found)))
    if VERBOSE:
        for f in found:
            print("    " + f)


show("1  own enums", lines(r"^(pub |pub\(crate\) )?enum "))
show("1  refusals by number", lines(r"Refused\((\d+|n|number|found\.first)\)|refused\(n\)"))
show("1  kinds and flags by number", lines(r"\bfn .*\bkind: u32|\bfn kind|if (kind|when) [!=]= \d|\bkind: \[u32|any: \[u32|first: 14|return 1[5-9];|first: u32 = 20"))
twins = subprocess.run([sys.executable, "tools/twins.py"], capture_output=True, text=True).stdout.strip().split("\n")
print("2  twins: %s (tools/twins.py)" % twins[-1])
if VERBOSE:
    for t in twins[:-1]:
        print("    " + t)
show("3  `while` loops", lines(r"^\s*while "))
show("3  `loop`s", lines(r"^\s*loop \{"))
show("3  an index stepped by hand", lines(r"\b\w+ [+-]= \d+;$"))
show("4  uses of the greater, the lesser, a difference, a wider number", lines(r"(?<!fn )\b(greater|greater_u64|lesser|lesser_usize|difference|difference_usize|long)\("))
show("4  conversions with `as` that lose nothing", lines(r" as (u64|usize|u32)\b"))
show("4  types with derives beyond Clone, Copy", lines(r"derive\(Clone, Copy, \w"))
show("5  clauses that a plan index is bounded", lines(r"Bounded \(laid"))
show("5  functions of seven parameters or more", functions(lambda n, p, r: len(p) >= 7))
show("6  functions with an array and its length beside", functions(beside))
show("7  closures, `impl Fn`, bounds of `Fn`", lines(r"impl Fn|: Fn(Mut|Once)?\(|\|[a-z_, &]+\| "))
answers = lines(r"^pub [\w-]+ : goal\.", sorted(glob.glob("crates/*/proofs/**/*.antt", recursive=True)))
print("8  answers %d, in %d files; lines of proofs %d" % (
    len(answers), len({a.split(":")[0] for a in answers}),
    sum(len(open(f).readlines()) for f in glob.glob("crates/*/proofs/**/*.antt", recursive=True))))
