#!/usr/bin/env python3
"""Brings this repository's own names to one spelling: run once, at the top, after port.py of the toolchain.

A word of specs/ or a lemma of proofs/ is in snake case, a type or a fact in upper camel case. Names of the library keep their
spelling, and so do names that Rattle makes (goals and steps), functions of src/, strings and comments of the code.
"""
import glob
import re

STOP = r"\s(){}\[\],;:.«»`@"
TOKEN = re.compile(r"(?<![^%s])[^%s]*-[^%s]*(?![^%s])" % (STOP, STOP, STOP, STOP))
USE = re.compile(r"^(?:ghost )?use ((?:Rattle\.std|lib|borrow|mathlib|native|Prim|mir|seplogic)\S*)\.\{(.*)\};?$", re.M)
# where both sides of the dash are names, the dash stays
KEPT = {"negℤ-*ℤ": "neg_ℤ-*ℤ", "*ℤ-negℤ": "*ℤ-neg_ℤ", "*ℤ-neg_ℤ": "*ℤ-neg_ℤ", "neg_ℤ-*ℤ": "neg_ℤ-*ℤ", "+ℤ-*ℤ": "+ℤ-*ℤ", "*ℤ-+ℤ": "*ℤ-+ℤ", "one-*ℤ": "one-*ℤ", "square-size>0": "square_size>0"}

# names in lower camel case, each for itself
CAMEL = {"evM": "ev_mono", "evP": "ev_poly"}


def is_name(token):
    """Holds for a name with a dash inside, not for an arrow, an operator or a comment's sign."""
    return token in KEPT or re.fullmatch(r"[*+]?[A-Za-zℤ][\w'ℤ]*(-[\w'ℤ]+)+", token) is not None


def spelled(token):
    if token in KEPT:
        return KEPT[token]
    if token[0].isupper():
        return "".join(part[0].upper() + part[1:] for part in token.split("-"))
    return token.replace("-", "_")


def library(text):
    """The names that a file takes from the library."""
    return {n.split(" as ")[-1].strip() for m in USE.finditer(text) for n in m[2].split(",")}


def code(line):
    """A line up to its comment, and the comment."""
    m = re.search(r"(?:^|\s)--(?:\s|$)", line)
    return (line[: m.start()], line[m.start() :]) if m else (line, "")


def tokens(text):
    for line in text.split("\n"):
        yield from (t for t in TOKEN.findall(code(line)[0]) if is_name(t))


def respell(text, names):
    def turn(line):
        if USE.match(line):
            return line
        head, tail = code(line)
        head = TOKEN.sub(lambda m: spelled(m[0]) if m[0] in names else m[0], head)
        return head + re.sub(r"`([^`]*)`", lambda m: "`" + TOKEN.sub(lambda n: spelled(n[0]) if n[0] in names else n[0], m[1]) + "`", tail)

    return "\n".join(turn(line) for line in text.split("\n"))


def main():
    lemmas = sorted(glob.glob("crates/*/specs/*.antt") + glob.glob("crates/*/proofs/*.antt"))
    answers = sorted(set(glob.glob("crates/*/proofs/**/*.antt", recursive=True)) - set(lemmas))
    sources = sorted(glob.glob("crates/*/src/*.rt"))
    own = set()
    for path in lemmas:
        text = open(path, encoding="utf-8").read()
        own |= set(tokens(text)) - library(text)
    for path in sources:
        for line in open(path, encoding="utf-8"):
            if line.startswith("ghost use ") and not USE.match(line.strip()):
                own |= {n for n in re.findall(r" as ([^\s,}]+)", line) if is_name(n)}
    for path in lemmas + answers:
        text = open(path, encoding="utf-8").read()
        new = respell(text, own - library(text))
        for name, turned in CAMEL.items():
            new = re.sub(r"(?<![\w'-])%s(?![\w'-])" % name, turned, new)
        if new != text:
            open(path, "w", encoding="utf-8").write(new)
    for path in sources:
        text = open(path, encoding="utf-8").read()
        lines = [line if line.lstrip().startswith("//") else respell(line, own - library(text)) for line in text.split("\n")]
        new = "\n".join(lines)
        if new != text:
            open(path, "w", encoding="utf-8").write(new)
    turned = {}
    for name in sorted(own):
        turned.setdefault(spelled(name), []).append(name)
    for name, old in turned.items():
        if len(old) > 1:
            print("falls together:", name, old)
    print("respelled:", len(own), "names")
    for name in sorted(own):
        print(" ", name, "->", spelled(name))


main()
