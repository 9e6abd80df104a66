#!/usr/bin/env python3
"""Turns what clauses say of lent bytes: `was x`, `x.exit` and the words of Lent over references, into lists.

usage: python3 tools/lent_as_lists.py FILE.rt..

In a clause, at a parameter that is a `&`: `was x` becomes `x.now`. At a `&mut`: `was x` becomes `x.old` and `x.exit` becomes
`x.new`. An argument of a word of Lent (lent, outputs ..) that is such a parameter is written in the same way. It was run once,
after tools/respell.py; docs/PORT.md says what it left the same.
"""

import os
import re
import sys

sys.path.insert(0, os.path.dirname(os.path.realpath(__file__)))
import respell

WORDS = {
    "lent", "offered", "lent_maps", "offered_maps", "lent_code", "offered_code", "lent_parts", "offered_parts", "outputs",
    "lent_outputs", "lent_shown", "offered_shown", "lent_with", "held_offer", "held_maps",
}
FUNCTION = re.compile(r"\bfn (\w+)\s*(?:<[^>]*>)?\(([^)]*)\)")
PARAMETER = re.compile(r"\s*(?:mut )?(\w+)\s*:\s*(&\s*(?:'\w+ )?(mut )?)?")


def lent_by(function):
    """Which parameters are references, and whether each is a `&mut`."""
    found = (PARAMETER.match(p) for p in function[2].split(","))
    return {m[1]: bool(m[3]) for m in found if m and m[2]}


def clause(text, lent):
    """A clause's text over lists."""

    def before(name):
        return name + (".old" if lent[name] else ".now")

    def exit_of(m):
        return m[1] + (".new" if lent[m[1]] else ".now") if m[1] in lent else m[0]

    was = lambda m: before(m[1]) if m[1] in lent else m[0]
    text = re.sub(r"\bwas (\w+)", was, re.sub(r"\(was (\w+)\)", was, text))
    text = re.sub(r"\b(\w+)\.exit\b(?!\.)", exit_of, text)
    out, word, above = [], None, []
    for t in re.split(r"(\s+|[(){}])", text):
        if t in ("(", "{"):
            above.append(word)
            word = None
        elif t in (")", "}"):
            word = above.pop() if above else None
        elif t in WORDS:
            word = t
        elif word and t in lent:
            t = before(t)
        out.append(t)
    return "".join(out)


def without_was(text):
    """The imports without `was`, where no clause has it any more."""
    body = re.sub(r"//.*", "", re.sub(r"ghost use[^;]*;", "", text))
    if re.search(r"\bwas\b", body):
        return text
    line = re.compile(r"(ghost use Rattle\.rules\.specs\.Lent\.\{)([^}]*)\}")
    text = line.sub(lambda m: m[1] + ", ".join(x for x in m[2].split(", ") if x != "was") + "}", text)
    return re.sub(r"ghost use Rattle\.rules\.specs\.Lent\.\{\};\n", "", text)


def turn(path):
    with open(path, encoding="utf-8") as f:
        text = f.read()
    functions = list(FUNCTION.finditer(text))
    out, last = [], 0
    for a, b in respell.blocks(text):
        above = [m for m in functions if m.start() < a]
        if text[a:b].startswith("ghost use") or not above:
            continue
        new = clause(text[a:b], lent_by(above[-1]))
        if new != text[a:b]:
            out += [text[last:a], new]
            last = b
    if out:
        with open(path, "w", encoding="utf-8") as f:
            f.write(without_was("".join(out) + text[last:]))


for path in sys.argv[1:]:
    turn(path)
