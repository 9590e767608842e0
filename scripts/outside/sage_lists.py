"""Run by `sage -python`: reads lines of a name, a tab and a text; prints what SageMath says of each text, a line for each list:
name, tab, what it is, tab, numbers. Sage gives Lyndon factorizations, tests of Lyndon words, standard factorizations and squares;
positions and lengths are counted from these."""
import sys

from sage.all import Word
from sage.combinat.words.suffix_trees import DecoratedSuffixTree

LONGEST = 130  # what Sage does in seconds


def factor_starts(w):
    starts, at = [], 0
    for factor in w.lyndon_factorization():
        starts.append(at)
        at += factor.length()
    return starts


def lyndon_table(w):
    """The set of (start, end) of all Lyndon factors of w."""
    n = w.length()
    return {(i, e) for i in range(n) for e in range(i + 1, n + 1) if w[i:e].is_lyndon()}


def forest(w, cut):
    n = w.length()
    first, past = [0] * n, [0] * n
    starts = factor_starts(w)
    for s in starts:
        first[s] = past[s] = s
    todo = list(zip(starts, starts[1:] + [n]))
    while todo:
        s, e = todo.pop()
        if e - s > 1:
            j = cut(s, e)
            first[j], past[j] = s, e
            todo += [(s, j), (j, e)]
    return first, past


def runs(text):
    """Neighbouring squares with the same primitive root length make a run."""
    n = len(text)
    squares = set()
    for start, length in DecoratedSuffixTree(Word(text)).square_vocabulary():
        if length == 0:
            continue
        square, half = text[start : start + length], length // 2
        if not Word(square[:half]).is_primitive():
            continue
        at = text.find(square)
        while at >= 0:
            squares.add((half, at))
            at = text.find(square, at + 1)
    found = []
    for half, at in squares:
        if (half, at - 1) not in squares:
            last = at
            while (half, last + 1) in squares:
                last += 1
            found.append((at, last + 2 * half - 1, half))
    return [number for run in sorted(found) for number in run]


for line in sys.stdin:
    name, text = line.rstrip("\n").split("\t")
    w = Word(text)

    def say(what, numbers):
        print(name, what, " ".join(str(number) for number in numbers), sep="\t")

    say("factors", factor_starts(w))
    if len(text) > LONGEST:
        continue
    lyndon, n = lyndon_table(w), len(text)
    say("array-rising", [max(e - i for e in range(i + 1, n + 1) if (i, e) in lyndon) for i in range(n)])
    say("suffix-table", [max(j + 1 - i for i in range(j + 1) if (i, j + 1) in lyndon) for j in range(n)])
    first, past = forest(w, lambda s, e: s + w[s:e].standard_factorization()[0].length())
    say("right-first", first)
    say("right-past", past)
    first, past = forest(w, lambda s, e: max(k for k in range(s + 1, e) if (s, k) in lyndon))
    say("left-first", first)
    say("left-past", past)
    say("runs", runs(text))
