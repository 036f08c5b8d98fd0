#!/usr/bin/env python3
"""What changed in promises, old and new side by side, from the kit's `contracts.py OLD NEW --json` on standard input; for docs/DESIGN-PASS.md.

A change that is no more than today's words for the same thing (the table of docs/DESIGN-PASS.md) is listed by name alone."""
import json
import re
import sys
from pathlib import Path

ROOT = Path(__file__).resolve().parent.parent
# The words that changed alone.
WORDS = [
    (r"\bwritten_if\b", "answer_if"), (r"\bAccepted\b(?! n m k s)", "passed"), (r"\bRefused\b", "Err"), (r"\bWritten\.Count\b", "Ok"),
    (r"\bWritten\.Err\b", "Err"), (r"-> Checked\b", "-> Result<(), Refusal>"), (r"-> Written\b", "-> Result<u64, Refusal>"),
    (r"-> LayoutAnswer\b", "-> Result<SocWrLayout, Refusal>"), (r"-> Scalar\b", "-> Result<f64, Refusal>"), (r"-> Selected\b", "-> Result<Items, Refusal>"),
    (r"-> IdAnswer\b", "-> Result<ElementId, Refusal>"), (r"-> ColumnAnswer\b", "-> Result<ColumnName, Refusal>"), (r"-> RowAnswer\b", "-> Result<RowName, Refusal>"),
]


def plain(text):
    text = re.sub(r"\s+", " ", text)
    text = text.replace("( ", "(").replace(", )", ")")
    for old, new in WORDS:
        text = re.sub(old, new, text)
    return re.sub(r"\bpassed n m k s\b", "Accepted n m k s", text)


def is_public(place):
    crate, path, name = place.split()[0], place.split()[1], place.split()[-1]
    text = (ROOT / "crates" / crate / path).read_text() if (ROOT / "crates" / crate / path).exists() else ""
    return bool(re.search(r"pub (?:extern \"C\" )?fn " + re.escape(name) + r"\b", text))


def block(title, old, new):
    print(f"- {title}")
    for mark, lines in (("before", old), ("now", new)):
        for line in lines:
            print(f"  - {mark}: `{line}`")


def clauses(requires, ensures):
    return [f"requires {n} {{ {c} }}".replace("  ", " ") for n, c in requires] + [f"ensures {n} {{ {c} }}".replace("  ", " ") for n, c in ensures]


def main():
    d = json.load(sys.stdin)
    renamed = []
    print("### Signatures of public functions\n")
    for place, old, new in d["signatures changed"]:
        if not is_public(place):
            continue
        if plain(new) in (plain(old), plain(old).replace("-> Lookup", "-> Result<u32, Refusal>"), plain(old).replace("-> Lookup", "-> Result<Option<u32>, Refusal>")):
            renamed.append(place)
        else:
            block(place, [plain_spaces(old)], [plain_spaces(new)])
    print("\nBy the words of the table alone: " + ", ".join(f"{p.split()[0]} `{p.split()[-1]}`" for p in renamed) + ".\n")
    renamed = []
    print("### Clauses of public functions\n")
    for place, r0, e0, r1, e1 in d["contracts changed"]:
        if not is_public(place):
            continue
        old, new = clauses(r0, e0), clauses(r1, e1)
        if [plain(x) for x in old] == [plain(x) for x in new]:
            renamed.append(place)
        else:
            block(place, [x for x in old if x not in new], [x for x in new if x not in old])
    print("\nBy the words of the table alone: " + ", ".join(f"{p.split()[0]} `{p.split()[-1]}`" for p in renamed) + ".\n")
    renamed = []
    print("### Definitions\n")
    for crate, name, old, new in d["definitions"]["changed"]:
        if [plain(x) for x in old] == [plain(x) for x in new]:
            renamed.append(f"{crate} `{name}`")
        else:
            block(f"{crate} {name}", old, new)
    print("\nBy the words of the table alone: " + ", ".join(renamed) + ".\n")
    print("Gone, as the tables say: " + ", ".join(f"{c} `{n}`" for c, n in d["definitions"]["gone"]) + ".\n")
    print("### Functions that are gone\n")
    gone = [f for f in d["functions not found again"]]
    print("Public or not, as the tables say: " + ", ".join(f"{f.split()[0]} `{f.split(' (')[0].split()[-1]}`" for f in gone) + ".")


def plain_spaces(text):
    return re.sub(r"\s+", " ", text).replace("( ", "(").replace(", )", ")")


main()
