#!/usr/bin/env python3
"""Turns the repository's own definitions and lemmas from camel case to snake case, in .rt and .antt files, once.

usage: python3 tools/respell_names.py    at the top of the repository

It goes word by word. Strings, character literals, paths' modules and types stay; functions of src/ are in snake case
already. Where a lemma had the name that a definition in the same file now takes, the lemma gets `_lem`.
"""

import os
import re

LEMMAS = {
    "crates/accepted/specs/TableRefers.antt": ["all_in"],
    "crates/names/specs/Tallying.antt": ["first_by"],
    "crates/encoding/specs/NameLaws.antt": ["name_in"],
    "crates/encoding/specs/Whole.antt": ["name_in"],
    "crates/noting/specs/Moded.antt": ["one_more"],
    "crates/accepted/specs/ModesFit.antt": ["with_call"],
}
OWN = {"getD-tab": "get_or-tab", "get_d_past": "get_or_past"}
WORD = re.compile(r"""b?'(?:\\.[^']*|[^'\\])'|"(?:\\.|[^"\\])*"|(?<!\w)[A-Za-z_][\w'₀-₉-]*""")
CAMEL = re.compile(r"(^|-)[a-z_][a-z0-9_']*[A-Z]")


def snake(word):
    def part(p):
        return re.sub(r"[A-Z]", lambda m: "_" + m.group(0).lower(), p) if p[:1].islower() else p

    return "-".join(part(p) for p in word.split("-"))


def respell(line, lemmas):
    def turn(m):
        w = m.group(0)
        if w[0] in "\"'" or w[:2] in ("b'", 'b"'):
            return w
        if w in OWN:
            return OWN[w]
        if w in lemmas:
            return w + "_lem"
        return snake(w) if CAMEL.search(w) else w

    return WORD.sub(turn, line)


def main():
    n = 0
    for folder, dirs, files in os.walk("crates"):
        dirs[:] = sorted(d for d in dirs if d != "out")
        for f in sorted(files):
            if not f.endswith((".rt", ".antt")):
                continue
            path = os.path.join(folder, f)
            with open(path, encoding="utf-8") as it:
                old = it.read()
            new = "".join(respell(l, LEMMAS.get(path, [])) for l in old.splitlines(keepends=True))
            if new != old:
                n += 1
                with open(path, "w", encoding="utf-8") as it:
                    it.write(new)
    print(f"{n} files turned")


if __name__ == "__main__":
    main()
