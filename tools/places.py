#!/usr/bin/env python3
"""Counts, in the sources of every crate, the places that docs/DESIGN-PASS.md names: python3 tools/places.py [FOLDER] [--list POINT].

Text alone is read: what a pattern cannot see (a number that stands for a kind, two functions that differ in a type) is counted by
reading, and docs/DESIGN-PASS.md says so.
"""
import collections
import pathlib
import re
import sys

args = [a for a in sys.argv[1:] if not a.startswith("--")]
show = sys.argv[sys.argv.index("--list") + 1] if "--list" in sys.argv else None
if show in args:
    args.remove(show)
top = pathlib.Path(args[0] if args else ".")

ENUM = re.compile(r"^(?:pub )?enum (\w+)(?:<[^>]*>)? \{\n(.*?)^\}", re.M | re.S)
FN = re.compile(r"^\s*(?:pub )?(?:unsafe )?(?:extern \"C\" )?fn (\w+)[^{;]*?\((.*?)\)(?: -> ([^\n{]*))?\n", re.M | re.S)


def bodies(text):
    """Every function: name, parameters, its text up to the closing brace in its own column."""
    lines = text.split("\n")
    i = 0
    while i < len(lines):
        m = re.match(r"^(\s*)(?:pub(?:\(\w+\))? )?(?:const )?(?:unsafe )?(?:extern \"C\" )?fn (\w+)", lines[i])
        if m:
            end = m.group(1) + "}"
            j = i
            while j < len(lines) and lines[j] != end and not (j == i and lines[j].endswith("}")):
                j += 1
            yield m.group(2), "\n".join(lines[i:j + 1])
            i = j
        i += 1


def params(fn):
    depth, start, out = 0, None, []
    for k, ch in enumerate(fn):
        if ch in "(<[":
            depth += 1
            if ch == "(" and start is None:
                start, at = k, depth
        elif ch in ")>]":
            if ch == ")" and start is not None and depth == at:
                inner = fn[start + 1:k]
                break
            depth -= 1
    else:
        return []
    level, cur = 0, ""
    for ch in inner:
        if ch in "(<[":
            level += 1
        if ch in ")>]":
            level -= 1
        if ch == "," and level == 0:
            out.append(cur.strip())
            cur = ""
        else:
            cur += ch
    if cur.strip():
        out.append(cur.strip())
    return out


counts = collections.OrderedDict()
places = collections.defaultdict(list)


def place(point, where):
    places[point].append(where)


NONE = {"Refused", "Lost", "Unsound", "Bad", "Unknown", "Unnamed", "Nameless", "Missing", "Full", "NoNumber", "Nothing", "None", "End", "Ended", "Failed"}
for path in sorted(top.glob("crates/*/src/**/*.rt")):
    text = path.read_text()
    rel = str(path.relative_to(top))
    for m in ENUM.finditer(text):
        variants = re.findall(r"^    (\w+)(\([^)]*\)| \{.*?\})?,", m.group(2), re.M)
        names = [v for v, _ in variants]
        bare = [v for v, p in variants if not p]
        if "Refused" in names or (len(variants) == 2 and len(bare) == 1) or (len(variants) <= 3 and set(bare) & NONE):
            place("1 enums of the shape of Option or Result", f"{rel}: {m.group(1)}")
    for m in re.finditer(r"^\s*(\w+)::(\w+)(?:\(\w+\))? => (?:\{\s*)?(?:return )?(\w+)::(\w+)(?:\(\w+\))?[,;]", text, re.M):
        if m.group(2) in NONE and m.group(4) in NONE | {"BadTable"}:
            place("1 arms that pass a failure on", f"{rel}: {m.group(0).strip()}")
    for name, body in bodies(text):
        code = body[body.find("\n{"):] if "\n{" in body else body
        for w in re.finditer(r"^(\s*)while (.*) \{\n((?:\1\s+.*\n|\n)*)", code, re.M):
            if re.search(r"^\s*\w+ (?:\+|-)= (?:1|\d+|\w+);", w.group(3), re.M):
                place("3 loops that count by hand", f"{rel}: {name}: while {w.group(2)}")
            else:
                place("3 other while loops", f"{rel}: {name}: while {w.group(2)}")
        inner = code.strip().lstrip("{").rstrip("}").strip()
        if re.fullmatch(r"\w+ as \w+", inner) or re.fullmatch(r"if \w+ (?:<|>|<=|>=) \w+ \{ \w+ \} else \{ \w+ \}", inner) \
                or re.fullmatch(r"if \w+ \{ \w+ \} else \{ \w+ \}", inner):
            place("4 conversions, order and logic by hand", f"{rel}: {name}: {inner}")
        ps = params(body)
        if len(ps) >= 8:
            place("5 functions of eight parameters or more", f"{rel}: {name}: {len(ps)}")
    for m in re.finditer(r"\bfn\(|\bdyn \w+", text):
        place("7 function pointers and dyn", f"{rel}: {m.group(0)}")
    for m in re.finditer(r"^\s*(?:pub )?(\w+): \[\w+; \w+\],", text, re.M):
        place("6 arrays of fixed size in a struct", f"{rel}: {m.group(1)}")

answers = 0
same = collections.Counter()
for path in sorted(top.glob("crates/*/proofs/**/Answers.antt")):
    text = path.read_text()
    for m in re.finditer(r"^(?:pub )?(\S+) (?:\w+ )*= ?(.*(?:\n    .*)*)", text, re.M):
        if f": goal.{m.group(1)}" in text:
            answers += 1
            same[re.sub(r"\s+", " ", m.group(2)).strip()] += 1
print("8 answers to goals:", answers)
print("8 answers by rules alone:", sum(n for t, n in same.items() if re.fullmatch(r"(search rules|search \(rules, arith\)|omega arith|cc|refl)", t)))
print("8 answers of one text that stands three times or more:", sum(n for t, n in same.items() if n >= 3))
for point in sorted(places):
    print(f"{point}: {len(places[point])}")
    if show and point.startswith(show):
        for p in places[point]:
            print("    " + p)
