#!/usr/bin/env python3
"""Brings the names of the repository's own definitions and lemmas to one spelling: types in camel case, all else in snake case; a lemma whose name
begins with a type keeps its dash.

usage: tools/respell.py [--check]        (at the top of the repository, after the kit's own script, once)

Names are taken from the signatures in crates/*/specs and crates/*/proofs (the files that answer goals aside). A name that a file brings in from
outside the repository stays in that file. Turned are the code of .antt and .rt files, must-fail edits, and code spans in README.md and docs/.
Two names of one file that would fall together are told, and nothing is written.
"""
import collections
import glob
import re
import sys

WORD = re.compile(r'[^\s(){}.;,@"«»`]+')
SIGNATURE = re.compile(
    r"^\s*(?:(?:pattern|unfoldable|abbrev|pub|axiom)\s+)*(record\s+|data\s+)?([^\s(){}.;,@\"«»:|=]+)((?:\s*(?:\([^)]*\)|\{[^}]*\}))*)\s*:\s(.*)$"
)
KEYWORDS = {"where", "let", "open", "use", "in", "module", "λ", "elim", "|", "do", "--"}
GENERATED = re.compile(r"/(Answers|Invariants|Choices|Proof)\.antt$")
# Names that would fall together with another of the same file, or with a function of src/.
OTHERWISE = {
    "bitFactors": "bit_factors_of",
    "wordFactors": "word_factors_of",
    "rowFactors": "row_factors_of",
    "code_sum": "code_sum_lem",
    "card-of": "card_of_lem",
    "form-of": "form_of_lem",
    "inputs-placed": "inputs_placed_lem",
    "tails-agree": "tails_agree_lem",
    "one-net": "single_net",
    "tops-of": "tops_for",
    "value-at": "value_under",
}


def files(*patterns):
    return sorted(f for p in patterns for f in glob.glob(p, recursive=True))


def is_type(result):
    return re.search(r"(^|→ )Type \d+( where)?$", result.strip()) is not None


def respelled(name, typed):
    if name in OTHERWISE:
        return OTHERWISE[name]
    if typed:
        return "".join(p[:1].upper() + p[1:] for p in name.split("-"))
    if name[0].isupper():
        return name
    name = name.replace("-", "_")
    return re.sub(r"(?<=[a-z0-9])([A-Z])", lambda m: "_" + m.group(1).lower(), name)


def declared():
    kinds = collections.defaultdict(list)
    for path in files("crates/*/specs/**/*.antt", "crates/*/proofs/**/*.antt"):
        if GENERATED.search(path):
            continue
        for line in open(path, encoding="utf-8"):
            m = SIGNATURE.match(line)
            if m and m.group(2) not in KEYWORDS:
                kinds[m.group(2)].append(bool(m.group(1)) or is_type(m.group(4)))
    table = {}
    for name, types in kinds.items():
        new = respelled(name, all(types))
        if new != name:
            table[name] = new
    return table


def imported(text, own):
    """Names brought in from outside the repository."""
    names = set()
    for m in re.finditer(r"\buse\s+([^\s{;]+)\{([^}]*)\}", text):
        if m.group(1).split(".")[1:2] and m.group(1).split(".")[0] == "Rattle" and m.group(1).split(".")[1] in own:
            continue
        for item in m.group(2).split(","):
            names.add(item.strip().split(" as ")[-1].strip())
            names.add(item.strip().split(" as ")[0].strip())
    return names


def turned(code, table, leave):
    return WORD.sub(lambda m: m.group(0) if m.group(0) in leave else table.get(m.group(0), m.group(0)), code)


def parts(text, comment):
    """(is code, text) pairs: comments and quoted text are no code."""
    at = 0
    for m in re.finditer(r'"(?:[^"\\\n]|\\.)*"|' + comment + r"[^\n]*", text):
        yield True, text[at : m.start()]
        yield False, m.group(0)
        at = m.end()
    yield True, text[at:]


def main():
    check = "--check" in sys.argv
    own = {l.split(":")[0].split()[0] for l in open("crates.txt") if l.strip() and not l.startswith("#")}
    table = declared()
    writes, bad = {}, []
    for path in files("crates/*/specs/**/*.antt", "crates/*/proofs/**/*.antt", "crates/*/src/**/*.rt", "crates/*/must-fail/*.edit"):
        text = open(path, encoding="utf-8").read()
        leave = imported(text, own)
        comment = r"(?<![^\s(){}.;,])--" if path.endswith(".antt") else "//"
        out, seen = [], collections.defaultdict(set)
        for code, part in parts(text, comment):
            if code:
                for m in WORD.finditer(part):
                    w = m.group(0)
                    seen[w if w in leave else table.get(w, w)].add(w)
                part = turned(part, table, leave)
            else:
                part = re.sub(r"`[^`\n]*`", lambda m: turned(m.group(0), table, leave), part)
            out.append(part)
        for new, old in seen.items():
            if len(old) > 1:
                bad.append(f"{path}: {', '.join(sorted(old))} would all be {new}")
        new = "".join(out)
        if new != text:
            writes[path] = new
    for path in files("README.md", "docs/*.md"):
        text = open(path, encoding="utf-8").read()
        new = re.sub(r"`[^`\n]+`", lambda m: turned(m.group(0), table, set()), text)
        if new != text:
            writes[path] = new
    for line in bad:
        print(line)
    print(f"{len(table)} names, {len(writes)} files, {len(bad)} that would fall together")
    if bad:
        sys.exit(1)
    if not check:
        for path, text in writes.items():
            open(path, "w", encoding="utf-8").write(text)


main()
