#!/usr/bin/env python3
"""Lists the places that docs/DESIGN-PASS.md counts, point by point, in the crates of a checkout: `tools/places.py [FOLDER] [-v]`.

A place is what a pattern finds, so that a count can be made again; which of them the page keeps, and why, it says itself."""
import collections, difflib, glob, os, re, sys

ROOT = next((a for a in sys.argv[1:] if not a.startswith("-")), ".")
SAY = "-v" in sys.argv
ITEM = re.compile(r"^(?:    )?(?:pub(?:\(\w+\))? )?(?:const )?(?:extern \"C\" )?fn (\w+)(.*?)\n(?:    )?\}\n", re.M | re.S)


def sources():
    for path in sorted(glob.glob(os.path.join(ROOT, "crates/*/src/*.rt"))):
        yield os.path.relpath(path, ROOT), open(path, encoding="utf-8").read()


def functions():
    for path, text in sources():
        for found in ITEM.finditer(text):
            head, body = (re.split(r"\s*\{\n", found.group(2), maxsplit=1) + [""])[:2]
            head = re.sub(r"//.*", "", head)
            signature = re.split(r"\n\s+(?:requires|ensures)\b", head)[0]
            clauses = re.findall(r"requires(?: \w+)? \{ (.*) \}", head)
            parameters = re.findall(r"(\w+): ([^,()\n]+(?:\([^)]*\))?)", signature.split("->")[0])
            yield path + ":" + found.group(1), " ".join(signature.split()), parameters, clauses, re.sub(r"//.*", "", body)


def lines(pattern):
    return [f"{path}: {line.strip()}" for path, text in sources() for line in text.split("\n") if re.search(pattern, line.split("//")[0])]


def twins():
    known = [(name, re.sub(r"\b(u8|u32|usize|\d+)\b", "T", body)) for name, _, _, _, body in functions() if body.count("\n") > 2]
    pairs = []
    for i, (one, a) in enumerate(known):
        for other, b in known[i + 1 :]:
            if difflib.SequenceMatcher(None, a.split(), b.split()).ratio() > 0.75:
                pairs.append(f"{one} and {other}")
    return pairs


def repeated(groups):
    return [f"{what} ({len(names)}): {', '.join(sorted(names))}" for what, names in sorted(groups.items()) if len(names) > 2]


def facts():
    groups = collections.defaultdict(set)
    for name, _, _, clauses, _ in functions():
        for clause in clauses:
            groups[clause].add(name)
    return repeated(groups)


def together():
    groups = collections.defaultdict(set)
    for name, _, parameters, _, _ in functions():
        texts = [p for p in parameters if p[1].startswith("&")]
        for i, a in enumerate(texts):
            for b in texts[i + 1 :]:
                groups[f"{a[0]}: {a[1]}, {b[0]}: {b[1]}"].add(name)
    return repeated(groups)


def main():
    signatures = [f"{name}{signature}" for name, signature, _, _, _ in functions()]
    points = [
        ("1 enums and structs of the shape of Option or Result", lines(r"^(pub(\(crate\))? )?(enum|struct) ")),
        ("1 orders and kinds as numbers", [s for s in signatures if re.search(r"\b(order|kind|number|said): u32", s)]),
        ("2 pairs of functions whose bodies are three quarters the same", twins()),
        ("3 loops with a condition", lines(r"^\s*(while|loop)\b|= loop\b")),
        ("4 comparison, copying, conversion and printing by hand", [s for s in signatures if re.search(r":(same|smaller\w*|larger\w*|shorter|compare\w*|differ|precedes|copy\w*|exported|wide|number_of|count_of|print\w*|write_bytes|write_zeros|reverse|exchange)\b", s)]),
        ("5 facts in the requires of three functions or more", facts()),
        ("5 pairs of references in three signatures or more", together()),
        ("6 a slice and a number of its places", [s for s in signatures if "[" in s and re.search(r"\b(n|count|len\w*): usize", s)]),
        ("7 flags as parameters", [s for s in signatures if re.search(r"\w+: bool", s.split("->")[0])]),
    ]
    for title, found in points:
        print(f"{len(found):4}  {title}")
        if SAY:
            for place in found:
                print(f"          {place}")
    answers = glob.glob(os.path.join(ROOT, "crates/*/proofs/**/Answers.antt"), recursive=True)
    goals = sum(len(re.findall(r"^pub [\w-]+ : goal\.", open(p, encoding="utf-8").read(), re.M)) for p in answers)
    proofs = [p for p in glob.glob(os.path.join(ROOT, "crates/*/proofs/**/*.antt"), recursive=True)]
    print(f"{goals:4}  8 answers, in {len(answers)} files; {sum(open(p, encoding='utf-8').read().count(chr(10)) for p in proofs)} lines of proofs/ in all")


main()
