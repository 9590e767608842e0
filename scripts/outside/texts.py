#!/usr/bin/env python3
"""Prints the texts that the outside programs are run on: a name, a tab, the text, on a line each."""

state = 20261115


def below(n):
    global state
    state = (state * 6364136223846793005 + 1442695040888963407) % 2**64
    return (state >> 33) % n


def random(alphabet, n):
    return "".join(alphabet[below(len(alphabet))] for _ in range(n))


def fibonacci(n):
    a, b = "a", "ab"
    while len(b) < n:
        a, b = b, b + a
    return b[:n]


def thue_morse(n):
    return "".join("ab"[bin(i).count("1") % 2] for i in range(n))


def tandem(n):
    text = ""
    while len(text) < n:
        kind = below(3)
        if kind == 0:
            text += random("ACGT", 1 + below(30))
        elif kind == 1:
            text += "N" * (1 + below(20))
        else:
            unit = random("ACGT", 1 + below(7))
            text += (unit * 12)[: 2 + below(50)]
    return text[:n]


TEXTS = [
    ("one-letter", "a"),
    ("paper", "abbababaababbaba"),
    ("paper-suffix-table", "babbababbaabb"),
    ("equal-letters", "z" * 40),
    ("words", "sequenceanalysisbylyndonwords"),
    ("falling-letters", "zyxwvutsrqponmlkjihgfedcba"),
    ("fibonacci", fibonacci(90)),
    ("thue-morse", thue_morse(96)),
    ("two-powers", "abaab" * 7 + "c" + "abaab" * 7 + "d"),
    ("hard", "a" * 30 + "b" + "a" * 31 + "b"),
    ("hard-turned", "b" * 30 + "a" + "b" * 31 + "a"),
    ("random-two-letters", random("ab", 110)),
    ("random-dna", random("ACGT", 120)),
    ("tandem-dna", tandem(120)),
    ("long-fibonacci", fibonacci(2000)),
    ("long-two-letters", random("ab", 2000)),
    ("long-dna", random("ACGT", 2000)),
    ("long-tandem-dna", tandem(2000)),
    ("long-protein", random("ACDEFGHIKLMNPQRSTVWY", 2000)),
]

for name, text in TEXTS:
    print(name + "\t" + text)
