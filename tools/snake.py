#!/usr/bin/env python3
"""Brings the repository's own definitions and lemmas to snake case: commandOf becomes command_of, leZ-parts le_z-parts.

usage: tools/snake.py            at the top of a checkout that port.py has turned; rewrites .antt, .rt, .edit and crates' pages in place
       tools/snake.py --list     lists the names and what they become, and writes nothing

A name is turned if an .antt file of crates/ declares it, or an import gives it after `as`, and a part of it that begins in lower
case has a capital inside. Types and modules keep their camel case. Run it once: a lemma that would have a definition's name gets `_lem`.
"""
import os
import re
import sys

WORD = r"[^\s(){}\[\],;:.\"@«»⌜⌝`'|#&!?=<>+*/\\^~$%]+"
DECLARED = re.compile(r"^\s*(?:(?:pub|abbrev|unfoldable)\s+)*([^\s:(){}]+(?:\s+[^\s:(){}]+)*)\s*:\s")
ALIAS = re.compile(r"\bas ([a-z][\w'-]*)")
PART = re.compile(r"(?<![A-Za-z])[a-z][A-Za-z0-9']*")


# Aliases with a middle dot, and what stands for each.
DOTTED = {
    "List·getD-map": "get_or-map",
    "List·getD-append": "get_or-append",
    "List·getD-eq-default": "get_or-eq_default",
    "Option·map": "option_map",
    "Option·none-ne-some": "none-ne-some",
    "Option·some-ne-none": "some-ne-none",
    "Option·some-injective": "some-injective",
    "Ordering·lt": "ordering_lt",
    "Ordering·eq": "ordering_eq",
    "Ordering·gt": "ordering_gt",
    "Bool·beq": "beq",
    "leb·zero": "leb-zero",
    "leb·suc-suc": "leb-suc-suc",
    "eqb·suc-zero": "eqb-suc-zero",
}
# Lemmas that would have the name of a definition, in the crates where both are named.
LEMMAS = {
    "no_value": ("", "no_value_lem"),
    "of_length": ("crates/index/proofs/", "of_length_lem"),
    "next_row": ("crates/writing/proofs/SeveralLaws.antt", "next_row_lem"),
}
# The ruleset of the library, where a crate's own list of names passes it on.
RULES = [
    (r"\bNeeds\.needs\b", "Rules.rules"),
    (r"\bNeeds\.sfits_of\b", "Rules.sfits_of"),
    (r"(?<![\w.-])needs(?![\w-])", "rules"),
]


def files(kinds):
    for folder, dirs, names in os.walk("crates"):
        dirs[:] = sorted(d for d in dirs if d != "out")
        for name in sorted(names):
            if name.endswith(kinds):
                yield os.path.join(folder, name)


def snake(part):
    part = re.sub(r"([a-z0-9])([A-Z])", r"\1_\2", part)
    part = re.sub(r"([A-Z])([A-Z][a-z])", r"\1_\2", part)
    return part.lower()


def turned(name):
    return PART.sub(lambda m: snake(m[0]), name)


def table():
    found = set()
    for path in files(".antt"):
        with open(path, encoding="utf-8") as f:
            for line in f:
                if line.lstrip().startswith("--"):
                    continue
                m = DECLARED.match(line)
                for name in m[1].split() if m else ():
                    found.add(name)
                if re.match(r"\s*(unfoldable |pub )*use ", line):
                    found.update(ALIAS.findall(line))
    for path in files(".rt"):
        with open(path, encoding="utf-8") as f:
            for line in f:
                if line.startswith("ghost use"):
                    found.update(ALIAS.findall(line))
    return {n: turned(n) for n in found if turned(n) != n}


def earlier(path, text):
    """What has to be turned before the names are."""
    if not path.endswith(".antt"):
        return text
    for old, new in DOTTED.items():
        text = re.sub(r"(?<![\w'-])%s(?![\w'-])" % re.escape(old), new, text)
    for old, (place, new) in LEMMAS.items():
        if path.startswith(place or "crates/"):
            text = re.sub(r"(?<![\w'.-])%s(?![\w'-])" % old, new, text)
    lines = []
    for line in text.split("\n"):
        if not line.lstrip().startswith("--"):
            for old, new in RULES:
                line = re.sub(old, new, line)
            line = re.sub(r"(?<![\w'.-])([\w'-]+) as \1(?![\w'-])", r"\1", line)
        lines.append(line)
    return "\n".join(lines)


def main():
    names = table()
    if "--list" in sys.argv[1:]:
        for old, new in sorted(names.items()):
            print(old, new)
        return
    # A name inside a longer one with dashes is not that name.
    token = re.compile(r"(?<![\w'-])(%s)(?![\w'-])" % "|".join(re.escape(n) for n in sorted(names, key=len, reverse=True)))
    alias = re.compile(r"(?<![\w'.-])([\w'-]+) as \1(?![\w'-])")
    for path in files((".antt", ".rt", ".edit", ".md")):
        with open(path, encoding="utf-8") as f:
            first = f.read()
        text = earlier(path, first)
        lines = []
        for line in text.split("\n"):
            new = token.sub(lambda m: names[m[0]], line)
            # An alias that is now the name itself goes.
            if new != line and re.match(r"\s*(ghost |unfoldable |pub )*use ", new):
                new = alias.sub(r"\1", new)
            lines.append(new)
        new = "\n".join(lines)
        if new != first:
            with open(path, "w", encoding="utf-8") as f:
                f.write(new)


main()
