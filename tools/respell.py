#!/usr/bin/env python3
"""Respells the repository's own definitions and lemmas in snake case: words of antt in crates/*/specs and crates/*/proofs, and what cites them.

usage: tools/respell.py --plan          prints the names, old and new, and the names that would fall together
       tools/respell.py                 rewrites specs, proofs, clauses of src, and the names in backquotes in README.md and docs/

A name in camel case gets underscores (beginCleanup, begin_cleanup). A dash stays where it joins a definition's name to another name, as in
present-lt; between plain words it becomes an underscore, as in refused_as. Types, modules, functions of src/ and names that the check makes keep theirs.
The names are those that the tree declares when it is run; tools/respell.txt, once written, fixes them.
RESPELL_ROOT names another checkout to work on, in place of this one.
"""
import os
import re
import sys

TOP = os.path.dirname(os.path.dirname(os.path.abspath(__file__)))
ROOT = os.environ.get("RESPELL_ROOT", TOP)
LIST = os.path.join(TOP, "tools", "respell.txt")
# a word of antt: letters, digits, underscore, dash, apostrophe, subscripts and the like
WORD = re.compile(r"[^\W\d][\w'\u1d30\u00b7₀-₉\u2032]*(?:-[\w'*+\u2115₀-₉]+)*")
DECLARED = re.compile(r"^\s*(?:(?:abbrev|unfoldable|pub|opaque|record|data|ruleset)\s+)*([^\s:(){}\[\],;.=λ→]+)(?:\s*,\s*[^\s:(){}]+)*\s*(?:\([^:]*\)\s*|\{[^:]*\}\s*)*:\s")
# lemmas whose name a definition gets
TAKEN = {w: w + "_lem" for w in "node_at node_ok of_node digits_of".split()}
# words of std that a dash may follow
STD = set("length map take drop set get_or get sum all any keep find append omega reverse cond not".split())


def files(*endings):
    for folder, dirs, names in os.walk(os.path.join(ROOT, "crates")):
        dirs[:] = sorted(d for d in dirs if d not in ("out", "data"))
        for n in sorted(names):
            if n.endswith(endings):
                yield os.path.join(folder, n)


def read(p):
    with open(p, encoding="utf-8") as f:
        return f.read()


def snake(part):
    if not part or not part[0].islower():
        return part
    return re.sub(r"(?<=[a-z0-9])([A-Z])", lambda m: "_" + m.group(1).lower(), part)


def declared():
    """Declared words, with whether a definition (specs, or abbrev/unfoldable) declares them."""
    words, definitions = set(), set()
    for p in files(".antt"):
        if p.endswith("/Proof.antt"):
            continue  # its names are goals, which the check names
        for line in read(p).splitlines():
            if line.lstrip().startswith(("--", "use ", "pub use ", "let ", "module", "open")):
                continue
            m = DECLARED.match(line)
            if not m:
                continue
            w = m.group(1)
            if not WORD.fullmatch(w):
                continue
            words.add(w)
            if "/specs/" in p or re.match(r"\s*(abbrev|unfoldable)", line):
                if "-" not in w:
                    definitions.add(snake(w))
    return words, definitions


def renamed(w, definitions):
    parts = [snake(p) for p in w.split("-")]
    out = parts[0]
    names = definitions | STD
    head = parts[0] in names or (parts[0][:1].isupper())
    for i, p in enumerate(parts[1:]):
        symbol = not re.fullmatch(r"[A-Za-z_]\w*'?", p)
        keep = symbol or (head and (i == 0 or p in names)) or p[:1].isupper()
        out += ("-" if keep else "_") + p
    return out


def plan():
    if os.path.exists(LIST):
        return dict(l.split() for l in read(LIST).splitlines() if l.strip() and not l.startswith("#"))
    words, definitions = declared()
    names = {w: renamed(w, definitions) for w in sorted(words)}
    definition = {n for w, n in names.items() if "-" not in w}
    # a lemma that would have its definition's name
    for w, n in names.items():
        if "-" in w and "-" not in n and n in definition:
            names[w] = n + "_lem"
    return {**TAKEN, **{w: n for w, n in names.items() if n != w}}


def every_word():
    seen = {}
    for p in files(".antt", ".rt"):
        for w in set(WORD.findall(read(p))):
            seen.setdefault(w, []).append(os.path.relpath(p, ROOT))
    return seen


def clashes(names):
    seen = every_word()
    back = {}
    for o, n in names.items():
        back.setdefault(n, []).append(o)
    out = []
    for n, olds in sorted(back.items()):
        if len(olds) > 1:
            out.append((n, olds, []))
        elif n in seen:
            out.append((n, olds, seen[n]))
    return out


def main(argv):
    names = plan()
    if argv == ["--plan"]:
        for o, n in sorted(names.items()):
            print(o, n)
        for n, olds, where in clashes(names):
            print("#", n, "is", " ".join(olds), "and stands in", " ".join(where[:6]) or "both", file=sys.stderr)
        return 0
    if argv:
        print(__doc__)
        return 2
    turn = lambda m: names.get(m.group(0), m.group(0))
    plain = {o: n for o, n in names.items() if "-" not in o}
    for p in files(".antt"):
        t = read(p)
        new = "\n".join(WORD.sub(turn, l) for l in t.split("\n"))
        if new != t:
            open(p, "w", encoding="utf-8").write(new)
    for p in files(".rt"):
        t = read(p)
        out = []
        for l in t.split("\n"):
            parts = re.split(r'("(?:[^"\\]|\\.)*")', l)
            out.append("".join(x if x.startswith('"') else WORD.sub(lambda m: plain.get(m.group(0), m.group(0)), x) for x in parts))
        new = "\n".join(out)
        if new != t:
            open(p, "w", encoding="utf-8").write(new)
    pages = [os.path.join(ROOT, "README.md")] + [os.path.join(f, n) for f, d, ns in os.walk(os.path.join(ROOT, "docs")) for n in sorted(ns) if n.endswith(".md")]
    for p in pages:
        if not os.path.exists(p):
            continue
        t = read(p)
        new = re.sub(r"`[^`\n]*`", lambda m: WORD.sub(turn, m.group(0)), t)
        if new != t:
            open(p, "w", encoding="utf-8").write(new)
    return 0


if __name__ == "__main__":
    raise SystemExit(main(sys.argv[1:]))
