#!/usr/bin/env python3
"""Brings the names that specs/ and proofs/ declare to Rattle's spelling: words in snake case, facts and types in camel case.

usage: python3 tools/respell.py [--check] [ROOT]

A name is turned that a file of crates/*/specs or a file of lemmas in crates/*/proofs declares, wherever it stands in an
.antt file, in a clause of an .rt file or in a `ghost use` line, and in code spans of the pages. imageFunctions becomes image_functions, step-finishes
becomes step_finishes. Names of Rust code, of libraries and of what Rattle makes stay. Strings stay. In comments a name
with a hump is turned, and a name with a dash where it stands between backticks.
It prints the names that would fall together with another and stops before it writes, unless KEEP or TO below settles them.
It was run once, after the spelling of the older Rattle had been turned; docs/PORT.md says at which commit.
"""

import glob
import os
import re
import sys

NAME = r"[^\s(){}.;,@\"«»\[\]\\]+"
WORD = re.compile(NAME)
DECLARED = re.compile(
    r"(?m)^ *(?:(?:pub|abbrev|unfoldable) )*(?:data |record )?(" + NAME + r"(?: " + NAME + r")*)(?: (?:\([^()]*\)|\{[^{}]*\}))* :(?= |$)"
)
IMPORT = re.compile(r"(?m)^(?:pub )?(?:ghost )?use ([^\s{;]+?)(?:\.\{([^}]*)\}|( as \S+)?);?$")
STRING = r"\"(?:[^\"\\\n]|\\.)*\""

# Names whose own spelling differs from what the rule gives, each with why.
TO = {
    "shownWords": "ShownWords",  # a fact, and so spelled as a type
    "INS-SIZE": "INS_SIZE",  # the crate's constant
    # fields of the crate's records beside ours of the same name: fields do not meet
    "func-info": "func_info",
    "line-info": "line_info",
    # the crate's beside ours
    "with-instructions": "with_insns",
    "func-info-bytes": "crate_func_info_bytes",
    "line-info-bytes": "crate_line_info_bytes",
    # definitions and labels that would meet another's name
    "on-grid": "on_the_grid",
    "map-symbol": "the_map_symbol",
    "by-symbol": "symbol_hash",
    "func-of": "func_record_of",
    "line-of": "line_record_of",
    "seen-link": "seen_of_link",
    "no-root": "root_missing",
    "no-row": "row_missing",
}
FIELDS = {"func_info", "line_info"}
# Lemmas that the earlier turn gave the name of their definition, by file.
LOCAL = {
    "crates/rules/proofs/ExamineLaws.antt": {"same_number": "same_number_lem"},
    "crates/rules/proofs/ExamineSlots.antt": {"same_number": "same_number_lem", "same_head": "same_head_lem"},
    "crates/examine/proofs/Words.antt": {"same_head": "same_head_lem"},
    "crates/pieces/proofs/Starting.antt": {"in_order": "in_order_lem"},
    "crates/linker/proofs/Listing.antt": {"in_order": "in_order_lem"},
}
# Pages whose code spans are turned too.
PAGES = ["README.md", "CONTRIBUTING.md", "docs/CLAIMS.md", "docs/DECISIONS.md", "docs/DIFFERENCES.md", "compare/README.md"]
# Names that stay.
KEEP = set()


def snake(name):
    words = re.sub(r"(?<=[a-z0-9])[A-Z]", lambda m: "_" + m[0].lower(), name)
    return re.sub(r"(?<=[^\W_])-(?=[^\W_])", "_", words)


def of_function(path):
    """Whether a file is the proof of one function, and no file of lemmas."""
    return re.search(r"/proofs/.+/(Proof|Answers|Invariants)\.antt$", path) is not None


def names(root):
    """The table of names: of each declared name its new spelling."""
    found = {}
    for path in sorted(glob.glob(os.path.join(root, "crates/*/specs/**/*.antt"), recursive=True)
                       + glob.glob(os.path.join(root, "crates/*/proofs/**/*.antt"), recursive=True)):
        if of_function(path):
            continue
        with open(path, encoding="utf-8") as f:
            for m in DECLARED.finditer(f.read()):
                for old in m[1].split():
                    new = TO.get(old) or (old if old[0].isupper() else snake(old))
                    if new != old and old not in KEEP:
                        found.setdefault(old, (new, path))
    return found


def settled(table, texts):
    """The table with `_lem` behind a lemma that would have the name of a definition, of a lemma or of a variable."""
    by_new = {}
    for old, (new, path) in table.items():
        by_new.setdefault(new, []).append(old)
    for path, text in texts.items():
        if of_function(path):
            continue
        stay = of_libraries(text)
        words = set(WORD.findall(re.sub(STRING + r"|--[^\n]*|//[^\n]*", " ", text if path.endswith(".antt") else " ".join(text[a:b] for a, b in blocks(text)))))
        for w in words:
            if w in by_new and w not in by_new[w] and (w not in table or w in stay):
                by_new[w].append(w)
    for new, olds in by_new.items():
        if len(olds) > 1:
            for old in olds:
                if "-" in old and old in table and old not in TO:
                    table[old] = (new + "_lem", table[old][1])
    return table


def of_libraries(text):
    """The names that a file takes from a library, not from this repository."""
    taken = set()
    for m in IMPORT.finditer(text):
        module, items = m[1], m[2] or ""
        own = re.match(r"Rattle\.(?!std\b|core\b|io\b|libc\b|os\b)", module)
        if not own:
            for item in items.split(","):
                taken.add(item.strip().split(" as ")[0].strip())
    return taken


def turn_code(text, table, stay, steps=False):
    """The code with its names turned. steps: a name with a dash behind a dot is a step that Rattle made, and stays."""

    def one(m):
        if m[0] not in table or m[0] in stay or (steps and "-" in m[0] and text[m.start() - 1 : m.start()] == "."):
            return m[0]
        return table[m[0]][0]

    return WORD.sub(one, text)


def turn_comment(text, table, stay):
    def span(m):
        return "`" + turn_code(m[1], table, stay) + "`"

    text = re.sub(r"`([^`\n]*)`", span, text)
    humps = {o: v for o, v in table.items() if re.search(r"[a-z0-9][A-Z]", o)}
    return re.sub(r"[A-Za-z][\w'₀-₉-]*", lambda m: humps[m[0]][0] if m[0] in humps and m[0] not in stay else m[0], text)


def turn_antt(text, table, stay, steps=False):
    parts = re.split(r"(" + STRING + r"|--[^\n]*)", text)
    for i, part in enumerate(parts):
        if i % 2 == 0:
            parts[i] = turn_code(part, table, stay, steps)
        elif part.startswith("--"):
            parts[i] = turn_comment(part, table, stay)
    return "".join(parts)


def blocks(text):
    """The spans of a source file that are antt: `ghost use` lines and clauses."""
    for m in re.finditer(r"ghost use [^;]*;|\b(?:requires|ensures|ghost)\b\*?(?: *\w+ *:?)? *\{", text):
        if m[0].startswith("ghost use"):
            yield m.start(), m.end()
            continue
        depth, at = 1, m.end()
        while depth:
            depth += {"{": 1, "}": -1}.get(text[at], 0)
            at += 1
        yield m.end(), at - 1


def turn_rt(text, table, stay):
    out, last = [], 0

    def outside(part):
        bits = re.split(r"(//[^\n]*)", part)
        return "".join(turn_comment(b, table, stay) if i % 2 else b for i, b in enumerate(bits))

    for a, b in blocks(text):
        if a < last:
            continue
        out += [outside(text[last:a]), turn_code(text[a:b], table, stay)]
        last = b
    return "".join(out) + outside(text[last:])


def main(argv):
    check = "--check" in argv
    rest = [a for a in argv if a != "--check"]
    root = rest[0] if rest else os.path.join(os.path.dirname(os.path.realpath(__file__)), "..")
    table = names(root)
    files = sorted(glob.glob(os.path.join(root, "crates/**/*.antt"), recursive=True) + glob.glob(os.path.join(root, "crates/*/src/**/*.rt"), recursive=True))
    files = [f for f in files if "/out/" not in f]
    bad = []
    texts = {}
    for path in files:
        with open(path, encoding="utf-8") as f:
            text = f.read()
        local = LOCAL.get(os.path.relpath(path, root), {})
        texts[path] = WORD.sub(lambda m: local.get(m[0], m[0]), text) if local else text
    table = settled(table, texts)
    for path, text in texts.items():
        if of_function(path):
            continue
        text = text if path.endswith(".antt") else " ".join(text[a:b] for a, b in blocks(text))
        words = set(WORD.findall(re.sub(STRING + r"|--[^\n]*|//[^\n]*", " ", text)))
        stay = of_libraries(text)
        here = {}
        for w in words:
            here.setdefault(table[w][0] if w in table and w not in stay else w, set()).add(w)
        for new, olds in sorted(here.items()):
            if len(olds) > 1 and new not in FIELDS:
                bad.append(f"{path}: {', '.join(sorted(olds))} fall together as {new}")
    for line in bad:
        print(line)
    if check or (bad and "--force" not in argv):
        print(f"{len(table)} names, {len(bad)} that fall together")
        return 1 if bad else 0
    for path, text in texts.items():
        stay = of_libraries(text)
        new = turn_antt(text, table, stay, of_function(path)) if path.endswith(".antt") else turn_rt(text, table, stay)
        with open(path, encoding="utf-8") as f:
            was = f.read()
        if new != was:
            with open(path, "w", encoding="utf-8") as f:
                f.write(new)
    for page in PAGES:
        path = os.path.join(root, page)
        with open(path, encoding="utf-8") as f:
            was = f.read()
        new = re.sub(r"`([^`\n]+)`", lambda m: "`" + turn_code(m[1], table, set()) + "`", was)
        if new != was:
            with open(path, "w", encoding="utf-8") as f:
                f.write(new)
    print(f"{len(table)} names turned")
    return 0


if __name__ == "__main__":
    raise SystemExit(main(sys.argv[1:]))
