#!/usr/bin/env python3
"""Brings the names of this repository's definitions and lemmas to Rattle's spelling: words in snake case.

usage: tools/snake_names.py [--list]     at the top of the repository, after port.py; --list only prints the names

A word of two halves becomes one with an underscore (littleEndian, copy-step: little_endian, copy_step). A dash stays in a lemma
whose parts are both names of definitions or of std's words (length-straight). Types keep their capital, functions of src/ their name.
"""
import os
import re
import sys

TOKEN = re.compile(r"(?<![A-Za-z0-9_'\-])[A-Za-z_][A-Za-z0-9_'₀₁₂₃₄₅₆₇₈₉\-]*")
HEAD = re.compile(r"^\s*(?:(?:abbrev|unfoldable|pub)\s+)*((?:[A-Za-z_][A-Za-z0-9_'₀-₉\-]*\s+)*?[A-Za-z_][A-Za-z0-9_'₀-₉\-]*)\s*(?:\{[^}]*\}\s*)*:(?!=)(?:\s|$)")
# Words of std that lemmas are named after.
STD = set("length append drop take get_or set add_one suc zero map reverse sum min max".split())
# New names that would fall together with another name of the same file.
OTHERWISE = {
    "all-or-nothing": "all_or_nothing_lem",
    "at-arrival": "on_arrival",
    "at-pull": "on_pull",
    "bound-at": "bound_at_lem",
    "pull-by": "pull_by_lem",
    "pullReads": "pull_positions",
    "pushReads": "push_positions",
    "ring-refused": "ring_refused_lem",
    "rxRing": "receive_ring",
    "txRing": "transmit_ring",
}


def snake(word):
    word = re.sub(r"([a-z0-9])([A-Z])", r"\1_\2", word)
    return word.lower() if not word[:1].isupper() else word


def files():
    for folder, dirs, names in os.walk("crates"):
        dirs[:] = sorted(d for d in dirs if d != "out")
        for name in sorted(names):
            if name.endswith((".antt", ".rt", ".edit")):
                yield os.path.join(folder, name)


def read(path):
    with open(path, encoding="utf-8") as f:
        return f.read()


def definitions(texts):
    """Names that specs/ and the lemma files of proofs/ declare: those of definitions, fields and constructors, and those of lemmas."""
    words, lemmas = set(), set()
    for path, text in texts.items():
        parts = path.split(os.sep)
        if not path.endswith(".antt") or parts[2] == "proofs" and len(parts) > 4:
            continue
        for line in text.splitlines():
            it = HEAD.match(line)
            if not it:
                continue
            for name in it.group(1).split():
                if name in ("where", "let", "in", "record", "data", "use", "mod"):
                    continue
                (lemmas if parts[2] == "proofs" and "abbrev" not in line and "unfoldable" not in line else words).add(name)
    return words, lemmas - words


def table(texts):
    words, lemmas = definitions(texts)
    names = {}
    for name in words:
        names[name] = snake(name).replace("-", "_") if not name[0].isupper() else name
    known = set(names.values()) | STD
    for name in lemmas:
        parts = [snake(p) for p in name.split("-")]
        joined = None
        for i in range(1, len(parts)):
            a, b = "_".join(parts[:i]), "_".join(parts[i:])
            if a in known and b in known:
                joined = a + "-" + b
        if name[0].isupper():
            joined = parts[0] + "-" + "_".join(parts[1:]) if len(parts) > 1 else name
        names[name] = joined or "_".join(parts)
    names.update(OTHERWISE)
    return {a: b for a, b in names.items() if a != b and ("-" in a or re.search("[a-z][A-Z]", a))}


def turned(path, text, names):
    """The text with the names; in a .rt file only its ghost lines and clauses have such words, and comments keep what they say."""
    def line_of(line):
        cut = line.find("//") if path.endswith(".rt") else -1
        code, rest = (line, "") if cut < 0 else (line[:cut], line[cut:])
        pieces = re.split(r'("(?:[^"\\]|\\.)*")', code)
        return "".join(p if i % 2 else TOKEN.sub(lambda m: names.get(m.group(), m.group()), p) for i, p in enumerate(pieces)) + rest
    return "".join(line_of(l) for l in text.splitlines(keepends=True))


def together(path, text, names):
    """New names that already stand in the file as another name, or that two of its names share."""
    seen = set(TOKEN.findall(text))
    new = {}
    for t in seen:
        if t in names:
            new.setdefault(names[t], []).append(t)
    return [(b, sorted(a) + ([b] if b in seen else [])) for b, a in sorted(new.items()) if len(a) > 1 or b in seen]


def main():
    texts = {p: read(p) for p in files()}
    names = table(texts)
    if "--list" in sys.argv:
        for a, b in sorted(names.items()):
            print(a, b)
        return
    for path, text in texts.items():
        for b, a in together(path, text, names):
            print(f"{path}: {b} is {' and '.join(a)}")
        new = turned(path, text, names)
        if "--dry" not in sys.argv and new != text:
            with open(path, "w", encoding="utf-8") as f:
                f.write(new)


main()
