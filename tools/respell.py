#!/usr/bin/env python3
"""Respells the repository's own definitions and lemmas as the kit's style asks: facts and types in camel case, all else in snake case.

usage: python3 tools/respell.py [--table]      at the top of a repository; --table prints old and new names and writes nothing

It turns names that a file of specs/ or proofs/ declares, wherever they stand as whole words: in .antt files, and in the clauses and ghost items of .rt files.
Goals' names (declared at a type 'goal.x'), names that a file imports from the kit, comments, strings and all code stay. Two old names that would become one in a crate are reported, and end it with status 1.
A second run changes nothing.
"""

import os
import re
import sys

WORD = r"[^\s(){}.;,@\"«»:=→×≡λ]+"
MODS = r"(?:(?:abbrev|unfoldable|pub|data|record|opaque)\s+)*"
HEAD = re.compile(rf"^(?P<indent>\s*)(?P<mods>{MODS})(?P<name>{WORD})(?P<params>(?:\s+[({{][^=]*?[)}}])*)\s+:(?:\s|$)(?P<type>.*)$")
QUIET = re.compile(r'"(?:[^"\\\n]|\\.)*"|(?<!\S)--[^\n]*', re.S)
RUST_QUIET = re.compile(r"""//[^\n]*|b?"(?:[^"\\]|\\.)*"|b?'(?:\\.|[^'\\\n])'""", re.S)
TOKEN = re.compile(WORD)
PATH = re.compile(r"\buse [^\s{]+(?:\.(?=\{)|(?= as )|(?=\n))")
IMPORT = re.compile(r"\buse (?:Rattle\.std|borrow|Prim)\.[^{;\n]*\{([^}]*)\}")
KEYWORDS = {"let", "elim", "where", "in", "module", "use", "pub", "open", "_"}


def files(root, ending):
    for folder, dirs, names in os.walk(os.path.join(root, "crates")):
        dirs[:] = sorted(d for d in dirs if d not in ("out", "must-fail"))
        for name in sorted(names):
            if name.endswith(ending):
                yield os.path.join(folder, name)


def read(path):
    with open(path, encoding="utf-8") as f:
        return f.read()


def declared(text):
    """(name, is a type, type's text) of each declaration of a file."""
    lines = QUIET.sub(lambda m: " " * len(m.group(0)), text).split("\n")
    for i, line in enumerate(lines):
        m = HEAD.match(line)
        if not m or m["name"] in KEYWORDS:
            continue
        whole, indent = m["type"], len(m["indent"])
        for more in lines[i + 1 :]:
            if more.strip() == "" or len(more) - len(more.lstrip()) <= indent:
                break
            if re.match(rf"\s*{MODS}{WORD}\s.*=", more):
                break
            whole += " " + more.strip()
        kind = "data" in m["mods"].split() or "record" in m["mods"].split()
        yield m["name"], kind or re.search(r"Type [0-9ℓ{}]+(\s+where)?\s*$", whole) is not None, whole


def snake(name):
    # a dash joins words, and a capital inside a word begins one; a capital word keeps its case
    name = name.replace("-", "_")
    if name[:1].islower():
        name = re.sub(r"(?<=[a-z0-9])([A-Z])(?=[a-z]|$)", lambda m: "_" + m.group(1).lower(), name)
    return name


def camel(name):
    return "".join(p[:1].upper() + p[1:] for p in re.split(r"[-_]", name) if p)


def table(root):
    types, others = set(), set()
    for path in files(root, ".antt"):
        for name, is_type, whole in declared(read(path)):
            if whole.startswith("goal."):
                continue
            if not re.search(r"[A-Za-z]", name) or name.startswith("◌"):
                continue
            (types if is_type else others).add(name)
    turned = {}
    for name in types:
        if name[:1].isupper():
            new = camel(name)
            if new != name:
                turned[name] = new
    for name in others - types:
        new = snake(name)
        if new != name:
            turned[name] = new
    return turned


def words(path):
    """The words of a file, but for those of the module paths that it imports from: a module may have the name of a lemma."""
    return set(TOKEN.findall(PATH.sub(" ", QUIET.sub(" ", read(path)))))


def falls_together(root, turned):
    """New names that stand beside another name of the same spelling in some file: one that was there, or one that a second old name becomes."""
    found = []
    for path in files(root, ".antt"):
        here = words(path)
        back = {}
        for old in here & set(turned):
            back.setdefault(turned[old], []).append(old)
        for new, olds in back.items():
            if new in here or len(olds) > 1:
                found.append((new, sorted(olds), path))
    return found


def turn(text, turned, quiet):
    """The text with each of the names turned, but for those that it imports from the kit."""
    kits = {name for it in IMPORT.findall(text) for name in TOKEN.findall(it)}
    turned = {old: new for old, new in turned.items() if old not in kits}
    turned |= {old: new for old, new in KITS_WORDS.items() if re.search(rf"\buse Rattle\.(?!std\b)[^{{;\n]*\{{[^}}]*\b{old}\b[ ,}}]", text) or f" as {old}}}" in text}
    out, at = [], 0
    for m in quiet.finditer(text):
        out.append(TOKEN.sub(lambda t: turned.get(t.group(0), t.group(0)), text[at : m.start()]))
        out.append(m.group(0))
        at = m.end()
    out.append(TOKEN.sub(lambda t: turned.get(t.group(0), t.group(0)), text[at:]))
    return "".join(out)


def main():
    root = "."
    turned = table(root)
    for name in LEAVE:
        turned.pop(name, None)
    turned.update(GIVEN)
    together = falls_together(root, turned)
    if "--table" in sys.argv:
        for old in sorted(turned):
            print(old, turned[old])
        for it in together:
            print("together:", *it)
        return 0
    for path in [*files(root, ".antt"), *files(root, ".rt")]:
        text = read(path)
        new = turn(text, turned, QUIET if path.endswith(".antt") else RUST_QUIET)
        if new != text:
            with open(path, "w", encoding="utf-8") as f:
                f.write(new)
    for it in together:
        print("together:", *it)
    return 1 if together else 0


# names that stay, and names whose new spelling another already has
LEAVE = set()
GIVEN = {
    "Fit-rule": "IsFitRule",
    "First-fit": "IsFirstFit",
    "Best-fit": "IsBestFit",
    "Last-fit": "IsLastFit",
    "Equal-ends": "HasEqualEnds",
    "Too-many": "HasTooMany",
    "machine-of": "machine_entry",
    "with-field": "field_within",
    "with-kind": "kind_within",
    "coresOf": "stage_cores",
    "size-at": "size_at_object",
    "bit-or": "bit_of_or",
    "bit-and": "bit_of_and",
    "getD-numbers": "get_or_numbers",
}
# the kit's words that the repository gave to something else
KITS_WORDS = {"All": "Every"}

if __name__ == "__main__":
    sys.exit(main())
