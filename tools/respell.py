#!/usr/bin/env python3
"""Respells this repository's own names in antt: words in snake case, a dash only between two names.

usage: python3 tools/respell.py [--show]      at the top of the repository, once, after the kit's port.py

The names are those that specs/ and proofs/ declare, record fields among them. Functions of src/, types, modules, strings and
the names that the checker makes keep their spelling. --show prints old and new and writes nothing.
"""
import collections
import glob
import re
import sys

IDENT = r"[A-Za-z][\w'₀-₉-]*"
DECLARED = re.compile(r"^\s*(?:(?:pub|abbrev|unfoldable|record|data)\s+)*(" + IDENT + r")\s*(?:\{[^}]*\}\s*|\([^)]*\)\s*)*:(?!=)")
CAMEL = re.compile(r"[a-z][a-z0-9_]*[A-Z][A-Za-z0-9_']*")
MADE = re.compile(r"(returns|invariant-loop|decreases-loop|invariant|decreases)(-\d+)?\d*$")
# a dash stands between two names alone: before one of these, after a name that is declared or std's
AFTER = {"append", "take", "drop", "upTo"}
STD = {"length", "take", "drop", "sets"}
# where two names would fall together: a lemma beside the definition that it is about, a constructor beside a field
CHOSEN = {"at_Edge": "at_edge", "ruled-in": "literal_in", "ruled_out": "literal_out", "last-variable": "last_variable_is", "refusal-lines": "refusal_as_lines"}
LEMMAS = """
all_digits build-of check-said edge-number helper-number option-clauses reference-number value-number counted-rules
edge-from has-minus header-line header-said header-start is-header judged-as mark-at marks-of node-clauses node-from
pair-count pair-sum starts-with text-tokens text-words word-size
""".split()


def snake(name):
    return "-".join(re.sub(r"(?<=[a-z0-9])([A-Z])", lambda m: "_" + m.group(1).lower(), p) if p[:1].islower() else p for p in name.split("-"))


def antt():
    return sorted(glob.glob("crates/*/specs/*.antt") + glob.glob("crates/*/proofs/**/*.antt", recursive=True))


def declared():
    names, definitions = collections.defaultdict(set), set(STD)
    for f in antt():
        own = "/proofs/" in f and f.split("/proofs/")[1].count("/") > 0
        for line in open(f, encoding="utf-8"):
            m = DECLARED.match(line)
            if m and not line.lstrip().startswith("--") and not MADE.match(m.group(1)):
                names[m.group(1)].add(f)
                if "/specs/" in f and not own:
                    definitions.add(m.group(1))
    return names, definitions


def turned(names, definitions):
    out = dict(CHOSEN)
    for n in names:
        left, dash, right = n.rpartition("-")
        joins = right in AFTER and left in definitions
        new = snake(left) + "-" + snake(right) if joins else snake(n).replace("-", "_")
        if n in LEMMAS:
            new += "_lem"
        if new != n:
            out.setdefault(n, new)
    return out


def respell(text, table, rust):
    word = re.compile((r'b?"(?:[^"\\]|\\.)*"|' if rust else "") + r"(?<![\w'₀-₉-])" + IDENT)

    def new(m):
        w = m.group(0)
        return table.get(w) or (snake(w) if CAMEL.fullmatch(w) else w)

    return word.sub(new, text)


def tight(line):
    """A line of a must-fail edit in specs/, as the kit's script spells specs/: projections, operators and get_or."""
    line = re.sub(r"\(([A-Za-z][\w']*) \.([a-z][\w']*)\)", r"\1.\2", line)
    line = re.sub(r"(?<=[\w')]) \.(?=[a-z])", ".", line)
    line = re.sub(r"(?<=\.)_(\+\+|\+|-)_", r"◌\1◌", line)
    return line.replace("lib.ListN.get_d ", "lib.ListN.get_or ")


def edited(text):
    if "file: specs/" not in text:
        return text
    return "".join(tight(l) if l.startswith(("old:", "new:")) else l for l in text.splitlines(keepends=True))


def main():
    names, definitions = declared()
    table = turned(names, definitions)
    back = collections.defaultdict(set)
    for n in names:
        back[table.get(n, n)].add(n)
    for new, olds in sorted(back.items()):
        if len(olds) > 1:
            print("fall together:", new, {o: sorted(names[o])[:3] for o in olds})
    if "--show" in sys.argv:
        for o in sorted(table):
            print(o, table[o])
        return
    files = antt() + sorted(glob.glob("crates/*/src/**/*.rt", recursive=True)) + sorted(glob.glob("crates/*/must-fail/*.edit"))
    for f in files:
        text = open(f, encoding="utf-8").read()
        new = respell(text, table, not f.endswith(".antt"))
        if f.endswith(".edit"):
            new = edited(new)
        if new != text:
            open(f, "w", encoding="utf-8").write(new)


main()
