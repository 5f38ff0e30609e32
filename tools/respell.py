#!/usr/bin/env python3
"""Brings the repository's own names to today's spelling, once, after port.py: snake case for definitions, fields and lemmas, camel
case for the folders of modules. The names are in tools/respelled.txt, an old and a new one a line; functions of src/, exported
names and strings keep theirs.

usage: python3 tools/respell.py [ROOT]        crates/ and, by name alone, nothing else
       python3 tools/respell.py --names FILE..   these files alone, as pages and edits
"""

import os
import re
import subprocess
import sys

HERE = os.path.dirname(os.path.realpath(__file__))
TOKEN = re.compile(r"[^\s(){}\[\].,;`\"|]+")
# A lemma that would take a definition's name, in the files of proofs alone: the Rust functions of that name keep it.
LEMMAS = {
    "left_over": ("crates/matching/proofs/laws/", "crates/matching/proofs/Laws/"),
    "head_in": ("crates/book/proofs/laws/", "crates/book/proofs/Laws/"),
    "too_short": ("crates/book/proofs/laws/", "crates/book/proofs/Laws/", "crates/matching/proofs/laws/", "crates/matching/proofs/Laws/"),
    "runs_on": ("crates/lines/proofs/",),
    "member_of": ("crates/demands/proofs/",),
    "term_fits": ("crates/book/proofs/laws/", "crates/book/proofs/Laws/", "crates/limits/proofs/"),
}


def table():
    with open(os.path.join(HERE, "respelled.txt"), encoding="utf-8") as f:
        return dict(line.split() for line in f if line.strip())


def capital(name):
    return name[0].upper() + name[1:]


def modules(text, inside):
    """Paths and declarations of the folders `laws` and `inner`, and of the folders in `laws`."""
    text = re.sub(r"(Rattle\.\w+\.specs)\.inner\b", r"\1.Inner", text)
    text = re.sub(r"(Rattle\.\w+\.proofs)\.laws(?:\.([a-z]\w*))?", lambda m: m[1] + ".Laws" + ("." + capital(m[2]) if m[2] else ""), text)
    if inside:
        text = re.sub(r"(?m)^(\s*(?:pub )?mod )([a-z]\w*)", lambda m: m[1] + capital(m[2]), text)
    return text


def names(text, words, path=""):
    def new(m):
        w = m[0]
        for lemma, where in LEMMAS.items():
            if w == lemma and any(path.startswith(p) for p in where):
                return w + "_lem"
        return words.get(w, w)

    return TOKEN.sub(new, text)


def moves(root):
    for crate in sorted(os.listdir(os.path.join(root, "crates"))):
        for part, folder in (("specs", "inner"), ("proofs", "laws")):
            at = os.path.join(root, "crates", crate, part)
            here = os.path.join(at, folder)
            if not os.path.isdir(here):
                continue
            for name in sorted(os.listdir(here)):
                if name[0].islower():
                    yield os.path.join(here, name), os.path.join(here, capital(name))
            yield here, os.path.join(at, capital(folder))
            yield here + ".antt", os.path.join(at, capital(folder) + ".antt")


def main():
    words = table()
    if sys.argv[1:2] == ["--names"]:
        for path in sys.argv[2:]:
            with open(path, encoding="utf-8") as f:
                text = f.read()
            with open(path, "w", encoding="utf-8") as f:
                f.write(names(modules(text, False), words))
        return
    root = os.path.realpath(sys.argv[1] if len(sys.argv) > 1 else os.path.join(HERE, ".."))
    for old, new in list(moves(root)):
        if os.path.exists(old):
            os.rename(old, new)
    for folder, dirs, files in os.walk(os.path.join(root, "crates")):
        dirs[:] = sorted(d for d in dirs if d != "out")
        for name in sorted(files):
            if not name.endswith((".rt", ".antt")):
                continue
            path = os.path.join(folder, name)
            short = os.path.relpath(path, root)
            with open(path, encoding="utf-8") as f:
                text = f.read()
            inside = name in ("Lib.antt", "Laws.antt", "Inner.antt") or "/Laws/" in short and name.endswith(".antt") and os.path.isdir(path[:-5])
            turned = names(modules(text, inside and name.endswith(".antt")), words, short)
            if turned != text:
                with open(path, "w", encoding="utf-8") as f:
                    f.write(turned)


if __name__ == "__main__":
    main()
