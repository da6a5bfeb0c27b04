#!/usr/bin/env python3
"""Brings this repository's own definitions and lemmas to snake case. It is run once, at the top, right after the kit's port.py.

A name is ours if a file in specs/, or right in proofs/, declares it. In a file that takes a name of the same spelling from a
library, the name stays as it is there, unless it is a field that is read (`.name`) or given (`name =`). Generated names of goals
and steps, which only the folders in proofs/ have, stay too.
"""

import os
import re

OWN = re.compile(r"Rattle\.(\w+)\.")
WORD = r"[^\s(){}.,;:`]+"
DECLARED = re.compile(r"\s*(?:(?:abbrev|unfoldable|pub)\s+)*(?:(?:record|data|ruleset|syntax)\s+)?(?:pub\s+)?(" + WORD + r")\s*(?:[({].*)?(?::|=)")
HEADED = re.compile(r"\s*(?:pub\s+)?(?:data|record|ruleset|abbrev)\s+(?:pub\s+)?(" + WORD + ")")
TAKEN = re.compile(r"\s*(?:ghost )?(?:pub )?use ([\w.]+)\.\{(.*?)\}", re.S)


def snake(name):
    name = name.replace("-", "_")
    name = re.sub(r"([a-z0-9])([A-Z])", lambda m: m.group(1) + "_" + m.group(2).lower(), name)
    return re.sub(r"(^|_)([A-Z])", lambda m: m.group(1) + m.group(2).lower(), name)


def files(*ends):
    for folder, dirs, names in os.walk("crates"):
        dirs[:] = sorted(d for d in dirs if d not in ("out", "target"))
        for name in sorted(names):
            if name.endswith(ends):
                yield os.path.join(folder, name)


def own_words():
    words = set()
    for path in files(".antt"):
        parts = path.split(os.sep)
        if parts[2] == "proofs" and len(parts) > 4:
            continue
        for line in open(path, encoding="utf8"):
            if line.lstrip().startswith(("--", "use ", "open ", "unfolding ")):
                continue
            for form in (DECLARED, HEADED):
                m = form.match(line)
                if m:
                    words.add(m.group(1))
    return {w: snake(w) for w in words if (("-" in w and w.strip("-") == w and ">" not in w) or (re.search(r"[a-z][A-Z]", w) and not w[0].isupper()))}


def foreign(text, crates):
    taken = set()
    for m in TAKEN.finditer(text):
        own = OWN.match(m.group(1) + ".")
        if not (own and own.group(1) in crates):
            taken |= {n.strip().split(" as ")[0].strip() for n in m.group(2).split(",")}
    return taken


def turned(text, words, crates):
    away = foreign(text, crates)

    def one(m):
        word = m.group(0)
        if word not in words:
            return word
        before, after = text[: m.start()], text[m.end() :]
        if re.search(r"\bN\.$", before):
            return word
        given = re.match(r" =(?=\s)", after) and re.search(r"[{;]\s*$", before)
        if word in away and not before.endswith(".") and not given:
            return word
        return words[word]

    return re.sub(WORD, one, text)


def main():
    crates = set(os.listdir("crates"))
    words = own_words()
    for path in files(".antt", ".rt"):
        with open(path, encoding="utf8") as f:
            text = f.read()
        new = turned(text, words, crates)
        if new != text:
            with open(path, "w", encoding="utf8") as f:
                f.write(new)
    for old, new in sorted(words.items()):
        print(old, new)


if __name__ == "__main__":
    main()
