#!/usr/bin/env python3
"""Functions that are equal but for names, types and constants: tools/twins.py prints the groups, and how many there are.

A function's text is its signature and body without clauses and comments. Every name but Rust's words stands for the
same name everywhere in it, every number for any number; two functions of one shape are twins, if the shape has more
than one operation. `tools/twins.py N` prints the groups of functions of at least N tokens (20 if none is given)."""
import glob
import re
import sys

WORDS = set(
    "fn let mut if else while for in loop return match as ref self Self true false break continue move impl pub crate "
    "u8 u16 u32 u64 usize bool".split()
)
TYPES = {"u8", "u16", "u32", "u64", "usize", "bool"}


def functions(path):
    text = re.sub(r"//[^\n]*", "", open(path).read())
    for m in re.finditer(r"(?:pub(?:\([a-z]+\))? )?(?:unsafe )?(?:extern \"C\" )?fn (\w+)", text):
        depth, i, body = 0, m.end(), None
        head = ""
        while i < len(text):
            rest = text[i:]
            clause = re.match(r"\s*(requires|ensures)\s*\w*\s*\{", rest)
            if clause and depth == 0:
                i += clause.end()
                level = 1
                while level:
                    level += {"{": 1, "}": -1}.get(text[i], 0)
                    i += 1
                continue
            c = text[i]
            if c == "{" and depth == 0:
                level, j = 1, i + 1
                while level:
                    level += {"{": 1, "}": -1}.get(text[j], 0)
                    j += 1
                body = text[i:j]
                break
            depth += {"(": 1, "[": 1, ")": -1, "]": -1}.get(c, 0)
            head += c
            i += 1
        if body:
            yield m.group(1), head + body


def shape(text):
    names, out = {}, []
    for token in re.findall(r"'\w+|b?\"[^\"]*\"|b'[^']*'|\d\w*|\w+|[^\w\s]", text):
        if re.match(r"\d|b?\"|b'", token):
            out.append("#")
        elif token in TYPES:
            out.append("T")
        elif re.match(r"'?\w", token) and token not in WORDS:
            out.append("n%d" % names.setdefault(token, len(names)))
        else:
            out.append(token)
    return " ".join(out)


def main():
    least = int(sys.argv[1]) if len(sys.argv) > 1 else 20
    groups = {}
    for path in sorted(glob.glob("crates/*/src/**/*.rt", recursive=True)):
        for name, text in functions(path):
            s = shape(text)
            if len(s.split()) >= least:
                groups.setdefault(s, []).append("%s %s" % (path[len("crates/"):], name))
    twins = [g for g in groups.values() if len(g) > 1]
    for g in sorted(twins, key=lambda g: (-len(g), g)):
        print("; ".join(g))
    print("%d groups, %d functions" % (len(twins), sum(len(g) for g in twins)))


main()
