#!/usr/bin/env python3
"""Spells the names of the repository's definitions and lemmas in snake case: `arrayOf` as `array_of`, `array-valid` as `array_valid`.

usage: tools/respell_names.py            in the repository's root: rewrites crates/ in place, and writes tools/respelled.tsv (old, new)
       tools/respell_names.py --check    writes nothing, and prints the table and the names that would fall together

Types and modules keep their capitals. A dash stays where it joins two names (`length-records_of`), or a type and a name. Names that a file
takes from a library, labels of proof files that the checker makes (declared at a type `tie.X`), Rust names, strings and file names stay. It
was run once, on the tree that the toolchain's own script had turned; a second run finds nothing.
"""

import os
import re
import sys

WORD = re.compile(r'[^\s(){}\[\].;,@"«»|=λ]+')
DECLARED = re.compile(
    r"^\s*(?:(?:abbrev|unfoldable|pub|record|data)\s+)*([^\s:{}()\[\].,;λ→=|]+)\s*(?:\{[^}]*\}\s*)*(?:\([^:]*:.*)?:(?:\s|$)"
)
FUNCTION = re.compile(r"^\s*(?:abbrev|unfoldable)\s+(?:pub\s+)?([^\s:{}()]+)")
LABEL = re.compile(r"^\s*(?:(?:abbrev|pub)\s+)*(\S+) : (?:tie\.|goal\.|\{M : Type 1\})")
USE = re.compile(r"^\s*(?:ghost |pub |unfoldable )*use ([^\s;{]+?)\.?(?:\{([^}]*)\})?;?\s*$")
LIBRARY = re.compile(r"(mathlib|Prim|native|borrow|lib|Rattle\.(std|core|io|libc|check))\b")
CAMEL = re.compile(r"[a-z0-9'][A-Z]")
# Functions of the library that stand in names of lemmas.
LENT = set("length get_or take drop append map filter reverse eqb".split())
# Plain words in names of lemmas, also where a function of that name is about.
PLAIN = set("holds written entry row".split())
# Of a lemma and a function that would get one name, the lemma gets `_lem`; here a lemma that was spelled so before.
LEMMAS = {"last_written": "last_written_lem"}


def texts(root, ends):
    for folder, dirs, files in os.walk(root):
        dirs[:] = sorted(d for d in dirs if d not in ("out", ".git"))
        for f in sorted(files):
            if f.endswith(ends):
                yield os.path.join(folder, f)


def read(path):
    with open(path, encoding="utf-8") as f:
        return f.read()


def code(line):
    return re.sub(r"(?:^|(?<=\s))--.*$", "", line)


def snake(part):
    if part[:1].isupper():
        return part
    return re.sub(r"(?<=[a-z0-9'])[A-Z]", lambda m: "_" + m[0].lower(), part)


def respelled(name, functions):
    parts = [snake(p) for p in name.split("-")]
    if "" in parts:
        return name
    new, last = parts[0], parts[0]
    for p in parts[1:]:
        left = last in LENT or "_" in last and last in functions or last[:1].isupper()
        right = p in LENT or "_" in p and p in functions or p[:1].isupper() or last in LENT and p in functions
        joins = left and right and p not in PLAIN
        new += ("-" if joins else "_") + p
        last = p
    return new


def table(root):
    declared, labels, functions, lent, seen = set(), set(), set(LENT), set(), set()
    rust = set()
    for path in texts(root, (".antt", ".rt")):
        text = read(path)
        if path.endswith(".rt"):
            rust.update(re.findall(r"\b(?:fn|const|static|mod|struct|enum) (\w+)", text))
        for line in text.splitlines():
            line = code(line) if path.endswith(".antt") else line
            m = USE.match(line)
            if m:
                if LIBRARY.match(m[1]):
                    for item in (m[2] or m[1].split(".")[-1]).split(","):
                        lent.update(w for w in item.split() if w != "as")
                continue
            if path.endswith(".rt"):
                continue
            seen.update(WORD.findall(line))
            m = LABEL.match(line)
            if m:
                labels.add(m[1])
                continue
            m = FUNCTION.match(line)
            if m:
                functions.add(snake(m[1]))
            m = DECLARED.match(line)
            if m:
                declared.add(m[1])
    names = {w for w in declared if "-" in w and w not in labels and not w.startswith("-")}
    names |= {w for w in declared if w[:1].isupper() and "-" in w}
    names |= {w for w in seen if CAMEL.search(w) and not w[:1].isupper() and re.fullmatch(r"[\w'?₀-₉-]+", w)}
    names = {w for w in names if w not in lent and not w[:1].isupper() or "-" in w and w not in lent}
    out = {}
    for w in sorted(names):
        if w in labels and not CAMEL.search(w):
            continue
        new = respelled(w, functions)
        if new != w:
            out[w] = new
    taken = {new for w, new in out.items() if "-" not in w}
    for w in out:
        if "-" in w and out[w] in taken:
            out[w] += "_lem"
    if out:
        out.update(LEMMAS)
    return out, seen, lent, rust


def turn(text, names, antt):
    def one(m):
        return names.get(m[0], m[0])

    out = []
    for line in text.split("\n"):
        if antt:
            c = code(line)
            rest = line[len(c):]
            rest = re.sub(r"`[^`]*`", lambda s: WORD.sub(one, s[0]) if True else s[0], rest)
            rest = re.sub(r"(?<![\w`-])[a-z]+[A-Z]\w*(?![\w-])", one, rest)
            out.append(WORD.sub(one, c) + rest)
        elif line.lstrip().startswith("//"):
            line = re.sub(r"`[^`]*`", lambda s: "`" + WORD.sub(one, s[0][1:-1]) + "`", line)
            out.append(re.sub(r"(?<![\w`-])[a-z]+[A-Z]\w*(?![\w-])", one, line))
        else:
            parts = re.split(r'("(?:[^"\\]|\\.)*")', line)
            out.append("".join(p if i % 2 else WORD.sub(one, p) for i, p in enumerate(parts)))
    return "\n".join(out)


def main():
    root = "crates"
    names, seen, lent, rust = table(root)
    by_new = {}
    for old, new in names.items():
        by_new.setdefault(new, []).append(old)
    for new in sorted(by_new):
        olds = by_new[new]
        if len(olds) > 1 or new in seen or new in lent or new in rust:
            why = [w for w, s in (("used", seen), ("library", lent), ("rust", rust)) if new in s]
            print("together:", ", ".join(olds), "->", new, " ".join(why))
    if "--check" in sys.argv:
        for old, new in names.items():
            print(f"{old}\t{new}")
        return
    for path in texts(root, (".antt", ".rt", ".edit")):
        text = read(path)
        new = turn(text, names, not path.endswith(".rt"))
        if new != text:
            with open(path, "w", encoding="utf-8") as f:
                f.write(new)
    if not names:
        return
    with open("tools/respelled.tsv", "w", encoding="utf-8") as f:
        for old, new in names.items():
            f.write(f"{old}\t{new}\n")


if __name__ == "__main__":
    main()
