#!/usr/bin/env python3
"""Lists places in crates/*/src that today's Rattle may write otherwise, point by point.

    tools/places.py [FOLDER] [--list]

A place is a place to look at, no verdict: docs/DESIGN-PASS.md says of each what came of it. With --list every place is
printed with its file and line, and else the count of each kind alone. A line that ends in a comment `// kept: ..`, or
follows one, is counted as kept.
"""
import re
import sys
from collections import defaultdict
from pathlib import Path

TOP = Path(next((a for a in sys.argv[1:] if not a.startswith("--")), Path(__file__).resolve().parent.parent))
LIST = "--list" in sys.argv

# point, kind, what the text of a file is searched for
PATTERNS = [
    ("1", "a number that says nothing, as the answer of a law", r"-> u8\n(?:    ensures .*\n)+\{\n    0\n\}"),
    ("1", "a bool that says whether a change was made", r"fn \w+(?:<[^(]*>)?\((?:[^()]|\([^()]*\))*&mut (?:[^()]|\([^()]*\))*\) -> bool\b"),
    ("1", "an error that is a bare number or a pair of them", r"Result<[^\n;{]*?, (?:u32|\(u32, u32\))>"),
    ("1", "a kind or a fault without derived equality and Debug", r"#\[derive\((?:Clone, Copy|Drop)\)\]\n(?:pub |pub\(crate\) )?enum \w+"),
    ("1", "let .. else that hands None or an error on", r"let [^=\n]+ = [^;]*? else \{\n\s+return (?:None|Err\([^\n]*\));\n\s+\};"),
    ("1", "a match that takes an Option or Result apart and makes one again", r"(?:None => (?:None|0|false|Err\()|Err\(\w*\) => None|Ok\(\(\)\) => Ok|if let Err\(\w+\) = )"),
    ("1", "a flag among the fields of a struct", r"\n    (?:pub )?\w+: bool,"),
    ("3", "for over a range of indices", r"for \w+ in [\w.]+\.\."),
    ("3", "while over an index or a rest", r"\bwhile\b[^\n]*\{"),
    ("3", "a count kept by hand", r"\b\w+ [+-]= 1;"),
    ("3", "for that searches, filters or folds by hand", r"for [^\n]* in [^\n]*\{\n(?:[^\n]*\n){0,3}?\s+(?:return [^;\n]+;|\w+ = [^;\n]+;)"),
    ("4", "order, equality, conversion or digits by hand", r"fn (?:precedes|are_of_one_sort|kind_of|fit_of|refusal_number|report_text|report_graph|report|number_of|spell|bytes_of|number\(&self)\b"),
    ("6", "written into lent memory, with a count or an end as the answer", r"fn \w+(?:<[^(]*>)?\((?:[^()]|\([^()]*\))*&mut \[(?:[^()]|\([^()]*\))*\) -> (?:usize|Option<usize>|Result<usize, \w+>)"),
    ("6", "a buffer of fixed length with a count beside", r"= \[[^\n\]]*; (?:MOST_\w+|\d+)\];"),
    ("6", "a table of its own beside another by the same index", r"\n    (?:pub(?:\(crate\))? )?\w+: Vec<(?:u64|u32)>,"),
    ("7", "a match that hands a call on to what a variant holds", r"\w+::\w+\(\w+\) => \w+\.(?:fit|cores|banks|capacity|reaches|homes)\("),
    ("7", "a function pointer or a dyn", r"\bfn\(|\bdyn\b"),
]


def sources():
    return sorted(p for p in TOP.glob("crates/*/src/*.rt"))


def kept(text, start, end):
    """Whether the place, or the line above it, says why it stays."""
    first = text.rfind("\n", 0, start) + 1
    above = text.rfind("\n", 0, max(first - 1, 0)) + 1
    last = text.find("\n", end)
    return "// kept:" in text[above:last if last >= 0 else len(text)]


def clauses():
    """Clauses that stand word for word in three functions or more of one crate, and parameters that travel in threes."""
    facts, travel = defaultdict(list), defaultdict(list)
    for path in sources():
        text = path.read_text()
        crate = path.relative_to(TOP).parts[1]
        for m in re.finditer(r"fn (\w+)(?:<[^(]*>)?\(((?:[^()]|\([^()]*\))*)\)([^{;]*(?:\{[^\n]*\}\n[^{;]*)*)[{;]", text):
            name, params, head = m.groups()
            line = text.count("\n", 0, m.start()) + 1
            where = f"{path.relative_to(TOP)}:{line}"
            seen = set()
            for c in re.finditer(r"(?:requires|ensures)(?: \w+)? \{ (.*) \}", head):
                fact = re.sub(r"\b(self\.old|self\.new|self\.now|\w+\.old|\w+\.new|\w+\.now)\b", lambda x: x.group(1).rsplit(".", 1)[0], c.group(1))
                if fact not in seen and "result" not in fact:
                    facts[crate, fact].append((where, name))
                seen.add(fact)
            names = [re.sub(r"^mut ", "", p.strip()).replace("\n", " ") for p in re.split(r",\s*(?![^<\[(]*[>\])])", params) if p.strip()]
            names = [n for n in names if not n.startswith("&self") and not n.startswith("&mut self")]
            for i, a in enumerate(names):
                for b in names[i + 1:]:
                    travel[crate, a, b].append((where, name))
    return facts, travel


def main():
    total = 0
    for point, kind, pattern in PATTERNS:
        found, stays = [], 0
        for path in sources():
            text = path.read_text()
            for m in re.finditer(pattern, text):
                line = text.count("\n", 0, m.start() + (m.group(0)[0] == "\n")) + 1
                found.append(f"{path.relative_to(TOP)}:{line}: {m.group(0).strip().splitlines()[0]}")
                stays += kept(text, m.start(), m.end())
        print(f"point {point}: {len(found):3} ({stays} marked as kept)  {kind}")
        total += len(found)
        if LIST:
            for f in found:
                print("    " + f)
    facts, travel = clauses()
    for what, table in (("a fact about a value in the clauses of three functions or more", facts), ("two parameters that travel together in three functions or more", travel)):
        rows = {k: v for k, v in table.items() if len({n for _, n in v}) >= 3}
        print(f"point 5: {len(rows):3}  {what}")
        if LIST:
            for key, places in sorted(rows.items()):
                print("    " + " | ".join(key) + ": " + ", ".join(f"{w} {n}" for w, n in places))


if __name__ == "__main__":
    main()
