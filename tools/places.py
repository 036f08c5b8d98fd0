#!/usr/bin/env python3
"""Counts the places of docs/DESIGN-PASS.md, point by point, in crates/*/src. `--list POINT` names each by file and line."""
import re
import sys
from collections import Counter
from pathlib import Path

ROOT = Path(__file__).resolve().parent.parent
SOURCES = sorted(p for p in ROOT.glob("crates/*/src/**/*.rt"))

# What one line shows: point, what is counted, pattern.
LINES = [
    ("1", "use of an own enum of the shape of Option or Result", r"\b(Checked|Written|Selected|ParameterCode|OperandCode|AxisCode|ModeCode|Lookup|LayoutAnswer|ColumnAnswer|RowAnswer|IdAnswer|Scalar)::[A-Z]"),
    ("1", "test or join of such an answer by hand", r"(?<!fn )(?<!\.)\b(is_refused|or_else|written_if|selected_if|scalar_if|id_if|no_layout|no_column|no_row|refused)\("),
    ("1", "flag with a value beside it, as a struct's field", r"^\s+(pub )?(on|open): bool,$|^\s+(pub )?check: Checked,$"),
    ("1", "number for a kind, as a constant or an arm", r"^\s*pub const [A-Z_]+: usize = \d+;|^\s+\d+ => |\b(block|entry|kind) (==|<|<=|!=) (\d|blocks::)|kind\(b, \w+\) [!=]="),
    ("3", "while or loop", r"^\s*(while .*|loop) \{$"),
    ("3", "for over a range by whose index a list is read or written", None),
    ("4", "conversion, comparison or copying of a value by hand", r"\bfn (wide|bit|copy_\w+|fill_\w+|same\w*|number_of|value_of|least|\w+_at\(code|\w+_number\(|\w+_value\(|plain|scalar|same_float)\b"),
    ("7", "function that picks a function by a kind", None),
]
# Parameters that travel together: point, name, all of these.
GROUPS = [
    ("5", "layout and records", [r"\bl: SocWrLayout\b", r"\bbytes: &\[u8\]"]),
    ("5", "layout, records, x and z", [r"\bl: SocWrLayout\b", r"\bbytes: &\[u8\]", r"\bx: &\[f64\]", r"\bz: &\[f64\]"]),
    ("5", "counts and records", [r"\bn: (usize|u64)\b", r"\bm: (usize|u64)\b", r"\bk: (usize|u64)\b", r"\bs: (usize|u64)\b", r"\b(bytes|records): &\[u8\]"]),
    ("6", "rows, columns and values written side by side", [r"\brows: &mut \[u32\]", r"\b(cols|starts): &mut \[u32\]", r"\b(vals|values|weights): &mut \[f64\]"]),
    ("6", "rows, columns or starts, and values read side by side", [r"\brows: &\[u32\]", r"\b(vals|values|weights): &\[f64\]"]),
]
FN = re.compile(r"^\s*(?:pub(?:\(crate\))? )?(?:extern \"C\" )?fn (\w+)(?:<[^>]*>)?\(", re.M)


def functions(text):
    """Each function: its name, its line, its head up to the body, its body."""
    starts = [m for m in FN.finditer(text)]
    for i, m in enumerate(starts):
        end = starts[i + 1].start() if i + 1 < len(starts) else len(text)
        whole = text[m.start():end]
        cut = re.search(r"^\s*\{$|\) (?:-> [^{\n]+ )?\{$", whole, re.M)
        at = cut.end() if cut else len(whole)
        yield m.group(1), text.count("\n", 0, m.start()) + 1, whole[:at], whole[at:]


KEYWORDS = {"if", "else", "while", "for", "in", "match", "let", "mut", "return", "loop", "as", "self", "true", "false"}


def shape(body):
    """A body with each name as one letter and each number as another: twins have the same."""
    body = re.sub(r"//.*", "", body)
    tokens = re.findall(r"[A-Za-z_]\w*|\d[\w.]*|[^\s\w]", body)
    return " ".join(t if t in KEYWORDS or not re.match(r"\w", t) else "9" if t[0].isdigit() else "x" for t in tokens)


def twins():
    """Functions of one shape, where it has at least 25 words."""
    seen = {}
    for path in SOURCES:
        for name, number, _, body in functions(path.read_text()):
            body = body.split("\n}")[0].split("\n    }\n")[0]
            s = shape(body)
            if len(s.split()) >= 25:
                seen.setdefault(s, []).append(f"{path.relative_to(ROOT)}:{number}: {name}")
    return [group for group in seen.values() if len(group) > 1]


def places():
    for group in twins():
        for where in group:
            yield "2", "function of the same shape as another", where, f"with {len(group) - 1} more"
    for path in SOURCES:
        where = path.relative_to(ROOT)
        text = path.read_text()
        for number, line in enumerate(text.split("\n"), 1):
            if line.lstrip().startswith("//") or line.lstrip().startswith(("use ", "ghost use", "ensures", "requires")):
                continue
            for point, what, pattern in LINES:
                if pattern and re.search(pattern, line):
                    yield point, what, f"{where}:{number}", line.strip()
            m = re.match(r"^\s*for (\w+) in .*\.\.", line)
            if m:
                body = text.split("\n")[number:number + 12]
                if any(re.search(r"\[" + m.group(1) + r"( \+ 1)?\]", b) for b in body):
                    yield "3", LINES[5][1], f"{where}:{number}", line.strip()
        for name, number, head, body in functions(text):
            for point, what, patterns in GROUPS:
                if all(re.search(p, head) for p in patterns):
                    yield point, what, f"{where}:{number}", name
            if re.search(r"match \w+ \{", body) and len(re.findall(r"=> \w+(?:::\w+)*\([a-z]\w*, .*\),", body)) > 2:
                yield "7", LINES[7][1], f"{where}:{number}", name
        for m in re.finditer(r"requires(?: \w+)? \{ (.*) \}$", text, re.M):
            yield "clause", m.group(1), f"{where}:{text.count(chr(10), 0, m.start()) + 1}", m.group(1)


def main():
    found = list(places())
    if sys.argv[1:2] == ["--list"]:
        for point, what, where, line in found:
            if point == sys.argv[2]:
                print(f"{where}: {line}  [{what}]" if point != "clause" else f"{where}: {line}")
        return
    seen = Counter((point, what) for point, what, _, _ in found if point != "clause")
    for (point, what), count in sorted(seen.items()):
        print(f"{point}  {count:4}  {what}")
    clauses = Counter(what for point, what, _, _ in found if point == "clause")
    for clause, count in clauses.most_common():
        if count >= 3:
            print(f"5  {count:4}  requires {clause}")


try:
    main()
except BrokenPipeError:
    pass
