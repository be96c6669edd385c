#!/usr/bin/env python3
"""Brings the names of this repository's definitions and lemmas to Rattle's spelling.

usage: python3 tools/respell.py        at the top of the repository, once, after port.py

Words are in snake case, types and facts in upper camel case. A dash stays in a lemma's name between the names of two
definitions; elsewhere it becomes an underscore. Functions of src/ keep their names. Names that would fall together with
another word of the repository get `_of` (definitions) or `_lem` (lemmas); each is printed.
Applied to .antt and .rt files, to must-fail edits, and to what stands in backquotes in docs/ and README.md.
"""
import glob
import re

WORD = r"[\w'₀-₉′]+(?:-[\w'₀-₉′*]+)*"
TOKEN = re.compile(r"(?<![\w'◌-])" + WORD + r"(?![\w'◌-])")
DECL = re.compile(r"^( *)((?:unfoldable |abbrev |pub |mutual )*)(" + WORD + r") : (.*)$", re.M)
HEADS = re.compile(r"^ *(?:pub )?(?:data|record) (" + WORD + r")", re.M)

# what port.py turned in sources and not in edits, in the lines that edits take from specs/
EDITS = [("getD", "get_or"), ("fieldsOf", "fields_of"), ("placeOf", "place_of"), ("keysOf", "keys_of"), ("firstsOf", "firsts_of"),
         ("keyOf", "key_of"), ("wordAt", "word_at"), ("sameWords", "same_words"), ("leafOf", "leaf_of"), ("countOf", "count_of")]


def snake(part):
    if not part or not part[0].islower():
        return part
    return re.sub(r"(?<=[a-z0-9])([A-Z])", lambda m: "_" + m.group(1).lower(), part)


def read(p):
    with open(p, encoding="utf-8") as f:
        return f.read()


def write(p, t):
    with open(p, "w", encoding="utf-8") as f:
        f.write(t)


def no_comments(t, mark):
    return "\n".join(l.split(mark)[0] for l in t.split("\n"))


def main():
    antt = sorted(glob.glob("crates/*/specs/**/*.antt", recursive=True) + glob.glob("crates/*/proofs/**/*.antt", recursive=True))
    rt = sorted(glob.glob("crates/*/src/**/*.rt", recursive=True))
    whole = [p for p in antt if not p.endswith("/Proof.antt")]
    defs, lemmas, types, order = set(), set(), set(), []
    for p in whole:
        t = read(p)
        types |= set(HEADS.findall(t))
        for m in DECL.finditer(t):
            name, marks, rest = m.group(3), m.group(2), m.group(4)
            if name not in order:
                order.append(name)
            if re.search(r"(→|^) *Type \d+( where)?$", rest) and name[0].islower():
                types.add(name)
            if "unfoldable" in marks or "abbrev" in marks or m.group(1) or "/specs/" in p:
                defs.add(name)
            else:
                lemmas.add(name)
    imported = set()
    for p in whole:
        for m in re.finditer(r"^use (\S+)\.\{(.*)\}$", read(p), re.M):
            if not m.group(1).startswith("Rattle.") or m.group(1).startswith("Rattle.std"):
                imported |= {w.strip().split(" as ")[0] for w in m.group(2).split(",")}
    names = {n for n in defs | imported if "-" not in n and re.fullmatch(r"[\w']+", n)}
    used = set()
    for p in whole:
        used |= set(TOKEN.findall(no_comments(read(p), "--")))
    for p in rt:
        used |= set(TOKEN.findall(no_comments(read(p), "//")))
    taken = set(used)
    table = {}
    for n in order:
        if n in types and n[0].islower():
            new = n[0].upper() + n[1:]
        elif "-" not in n:
            new = snake(n)
        else:
            parts = n.split("-")
            new = snake(parts[0])
            for a, b in zip(parts, parts[1:]):
                is_name = all(x in names or x[:1].isupper() for x in (a, b))
                new += ("-" if is_name else "_") + snake(b)
        if new == n:
            continue
        if new in taken:
            again = new + ("_lem" if "-" in n or n in lemmas or new.endswith("_of") else "_of")
            print(f"falls together: {n} -> {new}: {again}")
            new = again
            if new in taken:
                raise SystemExit(f"{n}: {new} is taken too")
        taken.add(new)
        table[n] = new
    dashed = {k for k in table if "-" in k}

    def turn(text, dash=True, field=True):
        def one(m):
            w = m.group(0)
            if w not in table or (not dash and w in dashed):
                return w
            if not field and w in dashed and text[max(0, m.start() - 1):m.start()] == ".":
                return w
            return table[w]
        return TOKEN.sub(one, text)

    def lines(text, mark, field):
        out = []
        for l in text.split("\n"):
            code, sep, said = l.partition(mark)
            out.append(turn(code, True, field) + sep + turn(said, False))
        return "\n".join(out)

    n = 0
    for p in antt:
        t = read(p)
        u = lines(t, "--", not p.endswith("/Proof.antt"))
        n += t != u
        if t != u:
            write(p, u)
    for p in rt:
        t = read(p)
        pieces = re.split(r'(b?"(?:[^"\\]|\\.)*")', t)
        u = "".join(x if i % 2 else lines(x, "//", True) for i, x in enumerate(pieces))
        n += t != u
        if t != u:
            write(p, u)
    for p in sorted(glob.glob("crates/*/must-fail/*.edit")):
        t = read(p)
        out = []
        specs = False
        for l in t.split("\n"):
            if l.startswith("file:"):
                specs = "specs/" in l or "proofs/" in l
            if l.startswith(("old:", "new:")) and specs:
                for a, b in EDITS:
                    l = re.sub(r"(?<![\w'-])" + a + r"(?![\w'-])", b, l)
                l = re.sub(r"\((\w+) \.(\w+)\)", r"\1.\2", l)
                l = re.sub(r"(?<=[a-z]) \.(?=[a-z])", ".", l)
            out.append(turn(l, not l.startswith(("file:",))) if l.startswith(("old:", "new:")) else turn(l, False))
        u = "\n".join(out)
        n += t != u
        if t != u:
            write(p, u)
    for p in sorted(glob.glob("docs/*.md")) + ["README.md"]:
        t = read(p)
        u = re.sub(r"`[^`\n]+`", lambda m: turn(m.group(0)), t)
        n += t != u
        if t != u:
            write(p, u)
    print(f"{len(table)} names, {n} files")


if __name__ == "__main__":
    main()
