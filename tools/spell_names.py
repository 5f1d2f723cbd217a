#!/usr/bin/env python3
"""Turns the repository's own definitions and lemmas from camel case to snake case: crcBit to crc_bit, crcBit-linear to crc_bit-linear.

usage: tools/spell_names.py [--list]      (run at the repository's root, once, after port.py)

A name is turned where a file of specs/ or proofs/ declares it; types, modules and names of src/ are in their own case already and stay. Names are read
as whole words of .antt and .rt files, of must-fail edits and of the pages.
"""
import glob
import re
import sys

# Lemmas of these crates' proofs/ that a definition, once turned, would fall together with: a lemma that would have its function's name gets `_lem`.
LEMMAS = {
    "crc": ["byte_step", "only_zero"],
    "any_order": ["first_code", "seen_of"],
    "exchange": ["in_bytes", "passed_over"],
    "reachable": ["all_done", "other_result"],
    "script": ["no_byte"],
}
# Parameters and names brought in by `as`.
BOUND = ["onTime", "withoutFresh"]
DECLARED = re.compile(r"\s*(?:abbrev |unfoldable |opaque )*(?:pub )?([^\s:(){}.,;]+) :")
WORD = re.compile(r"[^\s(){}\[\].,;:«»\"`]+")
CAMEL = re.compile(r"[a-z][a-z0-9]*[A-Z]")


def snake(word):
    return re.sub(r"(?<=[a-z0-9])([A-Z])", lambda m: "_" + m.group(1).lower(), word)


def turned(name):
    return "-".join(snake(p) if CAMEL.match(p) else p for p in name.split("-"))


def with_lemmas(path, text):
    folder = path.split("/")
    lemmas = LEMMAS.get(folder[1], []) if folder[0] == "crates" and folder[2] == "proofs" else []
    return WORD.sub(lambda m: m.group(0) + "_lem" if m.group(0) in lemmas else m.group(0), text)


def main():
    sources = [p for k in ("specs", "proofs") for p in glob.glob(f"crates/*/{k}/**/*.antt", recursive=True)]
    declared = set(BOUND)
    for p in sources:
        with open(p, encoding="utf-8") as f:
            declared.update(m.group(1) for m in map(DECLARED.match, f) if m)
    names = {n: turned(n) for n in declared if n != turned(n)}
    if "--list" in sys.argv:
        for n in sorted(names):
            print(n, names[n])
        return
    pages = glob.glob("crates/*/must-fail/*.edit") + glob.glob("*.md") + glob.glob("docs/**/*.md", recursive=True)
    for p in sources + glob.glob("crates/*/src/*.rt") + pages:
        with open(p, encoding="utf-8") as f:
            text = f.read()
        new = WORD.sub(lambda m: names.get(m.group(0), m.group(0)), with_lemmas(p, text))
        if new != text:
            with open(p, "w", encoding="utf-8") as f:
                f.write(new)
    print(len(names), "names turned")


main()
