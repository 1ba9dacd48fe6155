#!/usr/bin/env python3
"""Brings the repository's own names to today's spelling, once, after the kit's port script: python3 tools/respell.py, at the top.

Definitions and lemmas of specs/ and proofs/: words in snake case, a dash only between two names of the lemma's own statement,
`f_spec` for the proof of a function f. Types keep their capitals. Files of Rattle, must-fail edits and pages follow.
With --names it prints the names, old and new, and writes nothing.
"""
import collections
import glob
import re
import sys

WORD = r"[^\s(){}\[\].,;:\"`«»|@]+"
HEAD = re.compile(r"(?:(?:abbrev|unfoldable|pub) )*(data |record |ruleset )?(" + WORD + r")(?=[ \(:])(.*)$")
# A word in the older spelling: a field, a constructor, a name inside a definition.
CAMEL = re.compile(r"[a-z][a-z0-9]*([A-Z][a-z0-9]*)+")
# Names that Rattle makes: they follow the code, not the rule for lemmas.
MADE = re.compile(r"^(or-false$|invariant-|decreases-|returns(-|$)|loop-|arr$|.*-requires(-\d+)?$|sat-)")
# Lemmas with the name that a definition now gets: the lemma gives way.
OWN = {"all_named": "all_named_lem", "go_on": "go_on_lem", "after_write": "after_write_lem"}
# A variable that has a definition's new name, in the one file that has both.
ALONE = {"crates/embed_class/proofs/Started.antt": {"is_row": "row_is"}}


def snake(word):
    word = re.sub(r"(?<=[a-z0-9])([A-Z])", lambda m: "_" + m.group(1).lower(), word)
    return word


def files(*kinds):
    found = []
    for kind in kinds:
        found += glob.glob(kind, recursive=True)
    return sorted(f for f in found if "/out/" not in f)


def statements(text):
    """Each top-level name of a file with its statement."""
    lines = text.split("\n")
    inside = False
    for i, line in enumerate(lines):
        if line.startswith("module "):
            inside = True
        elif line and not line.startswith(" "):
            inside = False
        if inside and re.match(r"  [^\s-]", line):
            line = line[2:]
        if line.startswith(("--", " ", "use ", "mod ", "pub mod", "pub use", "unfolding", "infix", "module ")):
            continue
        head = HEAD.match(line)
        if not head:
            continue
        rest = head.group(3)
        if not head.group(1) and not re.match(r"\s*(\([^=]*\)\s*|\{[^=]*\}\s*)*:", rest):
            continue
        whole = [line]
        for more in lines[i + 1:]:
            if not more.startswith("  "):
                break
            whole.append(more.strip())
        yield head.group(2), (head.group(1) or "").strip(), " ".join(whole)


def renamed(name, statement):
    if name in OWN:
        return OWN[name]
    if MADE.match(name) or not re.match(r"[a-z]", name):
        return name
    if name.endswith(("-spec", "_spec")):
        return snake(name[:-5]).replace("-", "_") + "_spec"
    said = {snake(w) for w in re.findall(WORD, statement)} - {snake(name)}
    parts = name.split("-")
    out = snake(parts[0])
    for before, after in zip(parts, parts[1:]):
        joined = "-" if snake(before) in said and snake(after) in said else "_"
        out += joined + snake(after)
    return out


def names():
    table = collections.OrderedDict()
    kept = set()
    for f in files("crates/*/specs/**/*.antt", "crates/*/proofs/**/*.antt"):
        with open(f) as it:
            for name, _, statement in statements(it.read()):
                new = renamed(name, statement)
                if new == name:
                    kept.add(name)
                elif name not in table:
                    table[name] = new
    definitions = kept | {new for old, new in table.items() if "-" not in old}
    for old, new in table.items():
        if "-" in old and new in definitions:
            table[old] = new + "_lem"
    return table


def main():
    table = names()
    if "--names" in sys.argv:
        for old, new in table.items():
            print(old, new)
        return
    token = re.compile(WORD)
    for f in files("crates/*/specs/**/*.antt", "crates/*/proofs/**/*.antt", "crates/*/src/**/*.rt", "crates/*/must-fail/*.edit"):
        with open(f) as it:
            text = it.read()
        alone = ALONE.get(f, {})

        def turned(found):
            word = found.group(0)
            if word in alone:
                return alone[word]
            if word in table and (f.endswith(".antt") or not re.fullmatch("[a-z_0-9]+", word)):
                return table[word]
            return snake(word) if CAMEL.fullmatch(word) else word

        new = token.sub(turned, text)
        if new != text:
            with open(f, "w") as it:
                it.write(new)


main()
