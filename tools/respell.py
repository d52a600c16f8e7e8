#!/usr/bin/env python3
"""Spells this repository's own definitions, fields and lemmas as the library's: placeOf becomes place_of.

usage: tools/respell.py [--check]      at the top of the repository, once, after the library's own names were turned

It reads which names crates/*/specs and crates/*/proofs declare, and turns each word that is one of them, in .antt, .rt and .edit files
below crates/. Camel case turns wherever it is declared; a hyphen turns only in a name that specs/ declares, since the library's
lemmas have hyphens between the words that they speak of. Types, modules and what the code declares keep their names.
Nothing is written where two names would fall together. --check writes nothing, and prints the table.
"""
import os
import re
import sys

WORD = re.compile(r"(?P<dot>\.?)(?P<word>[^\s(){}.;,@\"«»:/`\[\]|'⌜⌝λ¬!&*=<>+]+)")
DECLARED = re.compile(r"(?m)^ *(?:(?:pub|abbrev|unfoldable) )*([^\s(){}.;,@\"«»]+) (?:\{[^{}\n]*\} )*:(?=\s|$)")
BY_FUNCTION = ("Proof.antt", "Answers.antt", "Invariants.antt")
# Lemmas that got the library's spelling, which a definition takes here: they have their hyphen again.
LEMMAS = {
    "above_zero": "above-zero",
    "digits_of": "digits-of",
    "goes_on": "goes-on",
    "held_in": "held-in",
    "kept_of": "kept-of",
    "number_fits": "number-fits",
    "plain_row": "plain-row",
    "put_byte": "put-byte",
    "put_word": "put-word",
    "size_ok": "size-ok",
}
# Theorems that stand in specs/ beside the rows that they are about, and fields that would be spelled like a definition.
KEPT = {"accepted-rows", "control-rows", "entered-rows", "masked-rows", "tick-rows", "control-read-row", "reload-row"}
KEPT |= {"pak-ok", "rom-ok", "vram-ok", "wram-ok", "vram-bytes", "wram-bytes"}


def files(top, *ends):
    for folder, folders, names in os.walk(os.path.join(top, "crates")):
        folders[:] = sorted(f for f in folders if f != "out")
        for name in sorted(names):
            if name.endswith(ends):
                yield os.path.join(folder, name)


def read(path):
    with open(path, encoding="utf-8") as f:
        return f.read()


def respelled(name, dashes):
    name = re.sub(r"getD(?=-|$)", "get_or", name)
    name = re.sub(r"(?<=[a-zA-Z0-9])[A-Z]", lambda m: "_" + m[0].lower(), name)
    return name.replace("-", "_") if dashes else name


def table(top):
    rows = {}
    for dashes in (False, True):
        for path in files(top, ".antt"):
            if ("/specs/" in path) != dashes or os.path.basename(path) in BY_FUNCTION and not dashes:
                continue
            for name in DECLARED.findall(read(path)):
                if not name[0].isupper() and name not in KEPT and respelled(name, dashes) != name:
                    rows[name] = respelled(name, dashes)
    return rows


def main(argv):
    top = os.getcwd()
    rows = table(top)
    by_new = {}
    for old, new in sorted(rows.items()):
        by_new.setdefault(new, []).append(old)
        if "--check" in argv:
            print(old, new)
    for new, olds in by_new.items():
        if len(olds) > 1:
            print("fall together:", new, olds, file=sys.stderr)
    if "--check" in argv:
        return 0
    for path in files(top, ".antt", ".rt", ".edit"):
        lemmas = LEMMAS if "/proofs/" in path else {}

        def turned(m):
            word = m["word"]
            if word in rows:
                return m["dot"] + rows[word]
            return m["dot"] + (word if m["dot"] else lemmas.get(word, word))

        text = read(path)
        now = WORD.sub(turned, text)
        if now != text:
            with open(path, "w", encoding="utf-8") as f:
                f.write(now)
    return 0


if __name__ == "__main__":
    raise SystemExit(main(sys.argv[1:]))
