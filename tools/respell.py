#!/usr/bin/env python3
"""Brings the repository's own definitions, fields, constructors and lemmas to today's spelling, in crates/, README.md and docs/.

usage: tools/respell.py            at the top of the repository, once, after port.py
       tools/respell.py --table    writes the table (old, a tab, new) and changes nothing

A name that is declared in crates/*/specs or in a file of lemmas turns if it has a dash:
  a type or a fact (record, data, or a declaration that ends in Type 0)   Planned-all -> PlannedAll
  a lemma about a fact                                                     Planned-all-head -> PlannedAll-head
  any other                                                                plan-index -> plan_index
In .rt files only clauses and `ghost` items hold such names; code, strings and comments keep theirs, but for `code spans` of comments.
A name that a file imports from the toolchain's own library stays, as do the names that a walk (Proof.antt) declares for itself.
"""

import collections
import os
import re
import sys

TOKEN = re.compile(r"[^\s(){}.;,@\"«»\[\]`]+")
DECLARED = re.compile(
    r"(?m)^( *)((?:(?:abbrev|pub|unfoldable|data|record|ruleset|infix[lr]? \d+) )*)((?:[^\s(){}.;,@\"=]+ )*?[^\s(){}.;,@\"=]+)"
    r"((?: \{[^}]*\}| \([^)]*\))*) : ([^\n]*)"
)
KIND = re.compile(r"→ Type \S+( where)?$|^Type \S+( where)?$")
USE = re.compile(r"(?ms)^\s*(?:pub |ghost )*use ([^\s{;]+?)\.?\{([^}]*)\}")


def below(root, ends):
    for folder, dirs, files in os.walk(root):
        dirs[:] = sorted(d for d in dirs if d not in ("out", "target", ".git"))
        for f in sorted(files):
            if f.endswith(ends):
                yield os.path.join(folder, f)


def read(path):
    with open(path, encoding="utf-8") as f:
        return f.read()


def table(texts, crates):
    own = collections.defaultdict(list)
    foreign = set()
    for path, text in texts.items():
        text = re.sub(r"//[^\n]*" if path.endswith(".rt") else r"--[^\n]*", "", text)
        for m in USE.finditer(text):
            parts = m[1].split(".")
            if not (parts[0] == "Rattle" and len(parts) > 1 and parts[1] in crates):
                foreign.update(it.strip().split(" as ")[0] for it in m[2].split(","))
        if not path.endswith(".antt"):
            continue
        for m in DECLARED.finditer(text):
            for name in m[3].split():
                if name in ("let", "in", "use", "elim", "where", "λ"):
                    break
                own[name].append((path, m[2].split(), m[5].strip()))

    def is_type(name):
        return any(
            not path.endswith("Proof.antt") and (KIND.search(kind) or "data" in words or "record" in words)
            for path, words, kind in own.get(name, ())
        )

    camel = lambda parts: "".join(it[:1].upper() + it[1:] for it in parts)
    new = {}
    for name in own:
        if not re.search(r"[\w'₀-₉]-[\w'₀-₉]", name) or name in foreign:
            continue
        if all(path.endswith("Proof.antt") for path, _, _ in own[name]):
            continue
        parts = name.split("-")
        if not name[0].isupper():
            new[name] = "_".join(parts)
        elif is_type(name):
            new[name] = camel(parts)
        else:
            n = next((i for i in range(len(parts) - 1, 0, -1) if is_type("-".join(parts[:i]))), 1)
            new[name] = camel(parts[:n]) + "-" + "_".join(parts[n:])
    made = collections.Counter(new.values())
    bad = [it for it, n in made.items() if n > 1] + [it for name, it in new.items() if it != name and it in own]
    if bad:
        raise SystemExit("respell: names fall together: " + ", ".join(sorted(bad)))
    return {name: it for name, it in new.items() if it != name}


def main(argv):
    crates = {d for d in os.listdir("crates") if os.path.isdir(os.path.join("crates", d))}
    texts = {path: read(path) for path in below("crates", (".rt", ".antt"))}
    new = table(texts, crates)
    if argv == ["--table"]:
        print("\n".join(f"{name}\t{it}" for name, it in sorted(new.items())))
        return 0
    turn = lambda part: TOKEN.sub(lambda m: new.get(m[0], m[0]), part)
    span = lambda part: re.sub(r"`[^`\n]*`", lambda m: turn(m[0]), part)
    for path, text in texts.items():
        mark = "//" if path.endswith(".rt") else "--"
        out = []
        for piece in re.split(rf'("(?:\\.|[^"\\\n])*"|{mark}[^\n]*)', text):
            if piece.startswith(mark):
                out.append(span(piece))
            elif piece.startswith('"'):
                out.append(piece)
            else:
                out.append(turn(piece))
        texts[path] = "".join(out)
    for path in ["README.md", *below("docs", (".md",)), *below("draw", (".md",)), *below("firmware", (".md",))]:
        if os.path.exists(path):
            texts[path] = span(read(path))
    changed = 0
    for path, text in texts.items():
        if read(path) != text:
            with open(path, "w", encoding="utf-8") as f:
                f.write(text)
            changed += 1
    print(f"respell: {len(new)} names, {changed} files")
    return 0


if __name__ == "__main__":
    raise SystemExit(main(sys.argv[1:]))
