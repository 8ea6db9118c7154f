#!/usr/bin/env python3
"""places.py [TREE] [--list POINT]: the places in crates/*/src that docs/DESIGN-PASS.md counts, point by point.

The patterns only find places to look at: what was done at each, and why one stays, the page says.
"""
import collections
import glob
import re
import sys

args = [a for a in sys.argv[1:] if not a.startswith("--")]
show = sys.argv[sys.argv.index("--list") + 1] if "--list" in sys.argv else None
tree = args[0] if args and args[0] != show else "."
found = collections.defaultdict(list)


def note(point, place, text):
    found[point].append((place, " ".join(text.split())[:150]))


def blocks(text, head):
    """Each item that starts by a match of `head` at the line's start: its line number, name and text up to the closing brace."""
    for m in re.finditer(head, text, re.M):
        end = text.find("\n}", m.start())
        yield text.count("\n", 0, m.start()) + 1, m.group(1), text[m.start() : end + 2]


files = sorted(glob.glob(f"{tree}/crates/*/src/*.rt"))
atoms = collections.defaultdict(set)
bodies = collections.defaultdict(list)
for path in files:
    text = open(path).read()
    code = re.sub(r"//.*", "", text)
    name = path[len(tree) + 1 :]
    at = lambda line: f"{name}:{line}"
    for line, enum, body in blocks(code, r"^(?:pub )?enum (\w+)"):
        if re.search(r"^    (Nowhere|Absent|Unknown|Wrong|Nothing|Missing)\b", body, re.M):
            note("1 an enum of the shape of Option or Result", at(line), enum)
    for line, struct, body in blocks(code, r"^(?:pub )?struct (\w+)"):
        fields = re.findall(r"^    (?:pub )?(\w+): (.*),$", body, re.M)
        flags = [f for f, t in fields if f in ("fine", "whole", "known", "there", "present", "both", "wrong", "answer", "number")]
        if flags and len(fields) > 1:
            note("1 a flag or a refusal with a value beside it", at(line), f"{struct}: {', '.join(flags)}")
        arrays = [f for f, t in fields if re.match(r"\[.*; ", t)]
        lengths = [f for f, t in fields if f in ("len", "count", "taken", "ends")]
        if arrays and (lengths or len(arrays) > 1):
            note("6 an array with its length, or with another array, beside it", at(line), f"{struct}: {', '.join(arrays)}")
    for i, row in enumerate(code.split("\n"), 1):
        for m in re.finditer(r"\b(kind|list|section|turn|first_kind|last|form|view|wrong|number|side|own|objects|fault): u(8|16|64)\b", row):
            note("1 a number for a kind, a form or a refusal", at(i), m.group(0))
        if re.match(r"(pub )?const [A-Z_]+: u(8|16|64) = \d+;", row):
            note("1 a number for a kind, a form or a refusal", at(i), row)
        if re.search(r"if .*(\.number != 0|fault != 0|wrong != (0|NOTHING)|!\w+\.(fine|whole)) \{", row):
            note("1 a test for a refusal that is handed on", at(i), row)
        if re.match(r" *while ", row):
            note("3 a loop by `while`", at(i), row)
        if re.search(r"\bsame\(", row):
            note("4 equality, copying or conversion by hand", at(i), row)
        if re.match(r" +(\w+): \1,?$", row) or re.search(r"[{,] (\w+): \1[ ,]", row):
            note("4 a field with its own name told twice", at(i), row)
        if re.match(r" +(\w+): (\w+)\.\1,$", row):
            note("4 equality, copying or conversion by hand", at(i), row)
        if re.search(r"\bwide\(|\bas (u64|usize|u32|u16)\b", row):
            note("4 equality, copying or conversion by hand", at(i), row)
    for line, fn, body in blocks(code, r"^(?:pub )?fn (\w+)"):
        head, _, rest = body.partition("\n{")
        for clause in re.findall(r"(?:requires|ensures)[^{]*\{(.*)\}$", head, re.M):
            for atom in clause.split(" × "):
                atom = atom.strip(" ()")
                if re.match(r"(length|IsPrefixLen|Accepted|LaidOut|IsHeap|Narrow|Ends|Placed|SmallCounts|Gives|from \+ length)", atom):
                    atoms[atom].add(at(line))
        lines = [r for r in rest.split("\n") if r.strip(" }")]
        if len(lines) > 1:
            shape = re.sub(r'b?"[^"]*"', "S", rest)
            shape = re.sub(r"\b\d+\b", "N", shape)
            shape = re.sub(r"\b[A-Z]\w*(::\w+)?", "T", shape)
            shape = re.sub(r"\b[a-z_]\w*\b(?=\()", "f", shape)
            bodies[re.sub(r"\s+", " ", shape)].append((at(line), fn))
        arms = re.findall(r"=> [\w:]+\(.*\),?$|=> [\w:]+\($", rest, re.M)
        if "match" in rest and len(arms) > 2:
            note("7 a switch on which step to run", at(line), fn)
for atom, places in sorted(atoms.items()):
    if len(places) > 2:
        note("5 a fact in the contracts of three or more functions", f"{len(places)} functions", atom)
for shape, places in bodies.items():
    if len(places) > 1:
        note("2 functions of one shape", places[0][0], ", ".join(f for _, f in places))

for point in sorted(found):
    if show is None:
        print(f"{len(found[point]):5} {point}")
    elif point.startswith(show):
        print(f"{len(found[point])} {point}")
        for place, text in found[point]:
            print(f"    {place}: {text}")
