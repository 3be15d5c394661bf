#!/usr/bin/env python3
"""Brings the repository's own definitions and lemmas to snake case.

usage: python3 tools/respell.py      once, at the top, on a tree that still has names such as `wordsFrom` and `name-bytes`

It goes by text. What the files directly in specs/ and proofs/ of a crate declare, and the ghost members of src/, is respelled
wherever it stands as a word in code: hyphens become underscores, and a capital inside a name becomes an underscore and a small
letter. Comments and strings stay. A lemma whose new name a definition has already gets another ending.
"""

import os
import re

WORD = re.compile(r"(?<![\w'\-])[A-Za-z_][\w'\-]*(?<!-)")
DECLARED = re.compile(r"\s*(?:abbrev |unfoldable |irreducible |pub |record |data )*([^\s(){}:]+(?: [^\s(){}:]+)*)\s*(?:[({][^)}]*[)}]\s*)*:\s")
GHOST = re.compile(r"ghost (\w[\w-]*)\s*(?::|=)")
# names that need a word of their own
OWN = {"Open-at": "OpenAt", "put-in": "put_in_place", "getD-of-one": "get_or_of_one", "getD-places": "get_or_places"}
# lemmas whose names other words come to
MORE = {"crates/sections/proofs/Cuts.antt": {"next_word": "next_word_holds"},
        "crates/sections/proofs/rows/next_at/Answers.antt": {"next_word": "next_word_holds"}}


def snake(word):
    word = word.replace("-", "_")
    word = re.sub(r"([a-z0-9])([A-Z])", lambda m: m.group(1) + "_" + m.group(2).lower(), word)
    return re.sub(r"_([A-Z])", lambda m: "_" + m.group(1).lower(), word)


def odd(word):
    return bool(re.search(r"[a-z0-9][A-Z]", word)) and not word[0].isupper() or bool(re.search(r"\w-\w", word))


def files():
    for folder, dirs, names in os.walk("crates"):
        dirs[:] = sorted(d for d in dirs if d != "out")
        for name in sorted(names):
            if name.endswith((".rt", ".antt")):
                yield os.path.join(folder, name)


def lines_of_code(path, text):
    mark = "--" if path.endswith(".antt") else "//"
    return [line if not line.strip().startswith(mark) else None for line in text.split("\n")]


def declares(path):
    parts = path.split("/")
    return path.endswith(".antt") and (parts[2] == "specs" or parts[2] == "proofs" and len(parts) == 4)


def declared():
    found = {}
    for path in files():
        with open(path, encoding="utf-8") as f:
            text = f.read()
        if declares(path):
            for line in lines_of_code(path, text):
                m = DECLARED.match(line or "")
                words = m.group(1).split() if m else []
                for word in words if "let" not in words else []:
                    found.setdefault(word, set()).add(path)
        elif path.endswith(".rt"):
            for m in GHOST.finditer(text):
                found.setdefault(m.group(1), set()).add(path)
    return found


def names():
    found = declared()
    to = {}
    taken = {w for w in found if not odd(w)}
    # definitions first, so that a lemma gives way
    order = sorted((w for w in found if odd(w)), key=lambda w: (not any("/specs/" in p for p in found[w]), w))
    for word in order:
        new = OWN.get(word) or snake(word)
        if new in taken and not any("/specs/" in p for p in found[word]):
            new += "_holds"
        if new in taken:
            print(f"falls together: {word} and {new}: {sorted(found[word])}")
        taken.add(new)
        to[word] = new
    return to


def turn(line, mark, to):
    code, note = line, ""
    at = line.find(mark + " ")
    if at >= 0 and line[:at].count('"') % 2 == 0:
        code, note = line[:at], line[at:]
    pieces = re.split(r'("(?:[^"\\]|\\.)*")', code)
    return "".join(p if p.startswith('"') and len(p) > 1 else WORD.sub(lambda m: to.get(m.group(0), m.group(0)), p) for p in pieces) + note


def main():
    to = names()
    count = 0
    for path in files():
        with open(path, encoding="utf-8") as f:
            text = f.read()
        here = to | (MORE.get(path, {}) if "nextWord" in to else {})
        mark = "--" if path.endswith(".antt") else "//"
        new = "\n".join(line if line.strip().startswith(mark) else turn(line, mark, here) for line in text.split("\n"))
        if new != text:
            with open(path, "w", encoding="utf-8") as f:
                f.write(new)
            count += 1
    print(f"{len(to)} names, {count} files")


if __name__ == "__main__":
    main()
