#!/usr/bin/env python3
"""Respells the repository's own definitions and lemmas as today's Rattle spells them.

usage: python3 tools/respell_names.py [ROOT]     run once, at the top, right after the toolchain's port.py

A definition or lemma whose name has dashes gets snake case, and a fact or a type upper camel case, wherever the name
stands in specs, proofs and clauses. Names of the source, strings and comments stay. A dash is kept between the names of
two functions in a lemma, as the library does (`length-bytes_of`). A name that a goal has is made by Rattle and stays.
It stops, having changed nothing, where two names would fall together.
"""

import collections
import os
import re
import sys

NOT_BETWEEN = r"\s(){}\[\];,.\""
TOKEN = re.compile(rf"[^{NOT_BETWEEN}]+")
SIGNATURE = re.compile(rf"^\s*(?:(?:unfoldable|abbrev|pub|data|record|open|mutual)\s+)*([^{NOT_BETWEEN}]+)(?:\s+[({{].*)?\s*:(?!=)\s")
PARAMETER = re.compile(rf"[({{]((?:[^{NOT_BETWEEN}]+\s+)+):\s")
LET = re.compile(rf"\b(?:let|λ)\s+((?:[^{NOT_BETWEEN}:=]+\s*)+)[:=.]")
GOAL = re.compile(r":\s*goal\.")
# Lemmas about one function at another: the dash between the two stays.
TWO_FUNCTIONS = {
    "joined-append": "joined-append",
    "length-bytes-of": "length-bytes_of",
    "length-file": "length-file",
    "length-joined": "length-joined",
    "length-node-bytes": "length-node_bytes",
    "bytes-of-number-of": "bytes_of-number_of",
    "number-of-bytes-of": "number_of-bytes_of",
    "number-of-small": "number_of-small",
}
# In snake case these would have the name of one of the library's functions.
TAKEN = {"bit-and": "bit_of_and", "bit-or": "bit_of_or", "bit-xor": "bit_of_xor"}


def files(root):
    for folder, dirs, names in os.walk(os.path.join(root, "crates")):
        dirs[:] = sorted(d for d in dirs if d not in ("out", "must-fail", "data"))
        for name in sorted(names):
            if name.endswith((".antt", ".rt")):
                yield os.path.join(folder, name)


def pieces(text, comment):
    """The text in pieces, each with whether names in it may be respelled: not in comments and strings."""
    apart = re.compile(rf'(?P<no>(?:(?<=\s)|^){re.escape(comment)}.*$|"(?:[^"\\\n]|\\.)*")', re.M)
    at = 0
    for m in apart.finditer(text):
        yield text[at : m.start()], True
        yield m.group(), False
        at = m.end()
    yield text[at:], True


def respelled(name):
    if name in TWO_FUNCTIONS or name in TAKEN:
        return (TWO_FUNCTIONS | TAKEN)[name]
    if name[0].isupper():
        return "".join(part[0].upper() + part[1:] for part in name.split("-"))
    return name.replace("-", "_")


def own_names(root):
    """The names with a dash that a definition, lemma, constructor, field or variable of the repository has, and the names of goals."""
    own, goals = set(), set()
    for path in files(root):
        if not path.endswith(".antt"):
            continue
        with open(path, encoding="utf-8") as f:
            for line in f:
                line = re.sub(r"(^|\s)--.*", "", line)
                m = SIGNATURE.match(line)
                if m and "-" in m.group(1):
                    (goals if GOAL.search(line) else own).add(m.group(1))
                for m in [*PARAMETER.finditer(line), *LET.finditer(line)]:
                    own |= {name for name in m.group(1).split() if "-" in name}
    is_name = re.compile(r"[A-Za-z][\w']*(-[\w']+)+$")
    return {name for name in own if is_name.match(name)} - goals, goals


def library_names(root):
    """The names that own files bring in from the library."""
    from_library = set()
    crates = set(os.listdir(os.path.join(root, "crates")))
    for path in files(root):
        with open(path, encoding="utf-8") as f:
            for m in re.finditer(r"^(?:ghost )?use ([^{};\n]+)(?:\{([^}]*)\})?", f.read(), re.M):
                module = m.group(1).split()[0].split(".")
                if not (module[0] == "Rattle" and module[1] in crates):
                    from_library |= set(TOKEN.findall(m.group(2) or ""))
    return from_library


def main(root):
    own, goals = own_names(root)
    from_library = library_names(root)
    clash = own & (goals | from_library)
    if clash:
        print("left as they are, since a goal or the library has the name:", *sorted(clash))
    turn = {name: respelled(name) for name in own - clash}
    met = collections.defaultdict(set)
    for path in files(root):
        with open(path, encoding="utf-8") as f:
            for text, open_to_change in pieces(f.read(), "--" if path.endswith(".antt") else "//"):
                if open_to_change:
                    for token in TOKEN.findall(text):
                        met[token].add(path)
    together = collections.defaultdict(set)
    for old, new in turn.items():
        together[new].add(old)
    bad = {new: olds for new, olds in together.items() if len(olds) > 1}
    for new, olds in sorted(bad.items()):
        print(f"fall together as {new}:", *sorted(olds))
    if bad:
        raise SystemExit(2)
    for old, new in sorted(turn.items()):
        shared = {p for p in met[old] & met[new]} if old != new else set()
        if shared:
            print(f"look: {old} becomes {new}, which stands already in", *sorted(shared))
    changed = 0
    for path in files(root):
        with open(path, encoding="utf-8") as f:
            before = f.read()
        after = "".join(TOKEN.sub(lambda m: turn.get(m.group(), m.group()), text) if open_to_change else text for text, open_to_change in pieces(before, "--" if path.endswith(".antt") else "//"))
        if after != before:
            with open(path, "w", encoding="utf-8") as f:
                f.write(after)
            changed += 1
    print(f"{len(turn)} names, {changed} files")


if __name__ == "__main__":
    main(sys.argv[1] if len(sys.argv) > 1 else ".")
