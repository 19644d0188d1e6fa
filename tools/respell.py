#!/usr/bin/env python3
"""Brings the repository's own definitions and lemmas to snake case.

usage: python3 tools/respell.py     at the top of the repository, once, after the kit's port.py

Definitions were in camel case and lemmas, fields and constructors had dashes; both are now in snake case, as the library's are. Types
and facts keep their capitals, and names from src/ their spelling. It stops where two names would fall together, unless FALL says which
of them gets another name. Files are rewritten in place: clauses, specs/, proofs/, must-fail/, and names between backticks in pages.
"""

import glob
import os
import re
import subprocess
import sys

# A name that would fall together with a definition, and the one that it gets: a lemma ends in _lem, a field says what it holds.
FALL = {
    "by-gate": "by_gate_lem",
    "covered-ahead": "covered_ahead_lem",
    "covered-in": "covered_in_lem",
    "first-line": "first_line_lem",
    "gate-ok": "gate_ok_lem",
    "graph-of-sections": "graph_of_sections_lem",
    "kept-gate": "kept_gate_lem",
    "larger-first": "larger_first_lem",
    "leaf-pattern": "leaf_pattern_lem",
    "smallest-from": "smallest_from_lem",
    "steps-from": "steps_from_lem",
    "table-ahead": "table_ahead_lem",
    "well-formed": "well_formed_lem",
    "well-set": "well_set_lem",
    "with-line": "with_line_lem",
    "line-of": "line_of_lem",
    "header_of": "header_of_lem",
    "is_digit": "is_digit_lem",
    "read_back": "read_back_lem",
    "field-at": "field_at_lem",
    "gate-words": "gate_words_lem",
    "rewired-net": "net_rewired",
    "keeps-rule": "rule_kept",
    "thenMore": "and_more",
    "atLeastOne": "is_at_least_one",
}
# Names that a field shares with a lemma: the field's new name.
FIELD = {"well-formed": "is_well_formed", "gate-words": "gate_words"}

TOKEN = re.compile(r"[^\s(){}\[\];:,.\"`@|]+")
DECLARED = re.compile(
    r"^\s*(?:(?:unfoldable|abbrev|pub|record|data) )*([^\s:(){}]+)((?:\s+[^\s:(){}]+)*)\s*(?:\{.*?\}\s*|\(.*?\)\s*)*:\s+(\S+)?"
)


def wanting(name):
    """Whether a name has a dash between letters, or is in camel case. A fact with its law, as Nearer-wf, stays."""
    if name[0].isupper() and not name.startswith("R-"):
        return False
    return ("-" in name and re.search(r"[A-Za-z]", name)) or re.match(r"^[a-z][A-Za-z0-9']*[A-Z]", name)


def respelled(name):
    name = name.replace("-", "_")
    return re.sub(r"([a-z0-9'])([A-Z])", lambda m: m.group(1) + "_" + m.group(2).lower(), name)


def antt():
    for part in ("specs", "proofs"):
        yield from sorted(glob.glob(f"crates/*/{part}/**/*.antt", recursive=True))


def declared():
    """Each declared name, but for the goals of a function's proof and the proof itself: those are named by the check."""
    names = set()
    for path in antt():
        of_function = path.split("/")[2] == "proofs" and path.count("/") > 3
        for line in open(path, encoding="utf-8"):
            m = DECLARED.match(line)
            if not m or line.lstrip().startswith("--"):
                continue
            if of_function and ((m.group(3) or "").startswith(("tie.", "statement")) or m.group(1).endswith("-spec")):
                continue
            names.update([m.group(1)] + m.group(2).split())
    return names


def goals():
    """What the check names, so that it keeps its spelling here."""
    names = set()
    for path in antt():
        for line in open(path, encoding="utf-8"):
            m = re.match(r"^(\S+) : tie\.", line)
            if m:
                names.add(m.group(1))
    return names


def table():
    own = declared()
    named = {n: respelled(n) for n in own if wanting(n) and n not in FALL and n not in goals()}
    named.update({n: FALL[n] for n in FALL if n in own})
    news = {}
    for old, new in sorted(named.items()):
        if new in news:
            sys.exit(f"respell: {old} and {news[new]} fall together as {new}")
        if new in own and new not in named:
            sys.exit(f"respell: {old} would fall together with {new}")
        news[new] = old
    return named


def turn(text, named):
    def new(m):
        word = m.group(0)
        if word not in named:
            return word
        if word in FIELD:
            before, after = text[: m.start()], text[m.end() :]
            if before.endswith(".") or re.match(r" = ", after) or re.search(r"\n +pub $", before):
                return FIELD[word]
        return named[word]

    return TOKEN.sub(new, text)


def main():
    named = table()
    changed = 0
    code = sorted(glob.glob("crates/*/src/**/*.rt", recursive=True))
    edits = sorted(glob.glob("crates/*/must-fail/*.edit"))
    for path in list(antt()) + code + edits:
        old = open(path, encoding="utf-8").read()
        new = turn(old, named)
        if new != old:
            open(path, "w", encoding="utf-8").write(new)
            changed += 1
    # In pages a name stands between backticks, and may be one that port.py turned already.
    known = declared()
    for path in sorted(["README.md"] + glob.glob("docs/*.md")):
        old = open(path, encoding="utf-8").read()

        def quoted(m):
            word = m.group(1)
            if word in named:
                return "`" + named[word] + "`"
            if wanting(word) and respelled(word) in known:
                return "`" + respelled(word) + "`"
            return m.group(0)

        new = re.sub(r"`([^`\s]+)`", quoted, old)
        if new != old:
            open(path, "w", encoding="utf-8").write(new)
            changed += 1
    for crate in sorted(glob.glob("crates/*/src")):
        subprocess.run(["rt", "fmt"], cwd=os.path.dirname(crate), stdout=subprocess.DEVNULL)
    print(f"respell: {len(named)} names, {changed} files")


if __name__ == "__main__":
    main()
