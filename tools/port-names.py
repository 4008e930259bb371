#!/usr/bin/env python3
"""Brings the repository's own definitions, lemmas and record fields to the spelling of today's library, once, after its port.py:
snake case for each name that is no type; in the name of a law a dash stays where it joins the names of two definitions, and a plain
word is added with '_'. Functions of src/, modules, types and goals keep their names. Prints what was renamed.

usage: python3 tools/port-names.py     at the top of the repository
"""

import glob
import re
import sys

# What a name of std's is made of, where it stands as a part of a law's name.
LIBRARY = set("""length take drop append set map sum get_or cut bytes pack unpack digits number ones total modulo flat_map
xor reverse min max replicate""".split())
# Names that would fall together with another of the same file.
APART = {
    "block-part": "block_piece",
    "string-part": "string_piece",
    "block-sums": "block_sums_are",
    "string-sums": "string_sums_are",
    "own-left": "own_left_is",
    "state-of": "state_of_is",
    "most-of": "most_of_is",
    "hasSum": "has_its_sum",
    "rowsIn": "rows_of_slice",
    "rowsWritten": "written_rows",
}
WORD = r"[A-Za-z_◌][A-Za-z0-9_'₀-₉◌ᵢ-]*"
TOKEN = re.compile(WORD)
TOP = re.compile(r"^(?:abbrev |unfoldable |pub |mutual )*(%s)\s*:(?:\s|$)" % WORD)
FIELD = re.compile(r"^\s+pub (%s)\s*:(?:\s|$)" % WORD)
RECORD = re.compile(r"^(?:pub )?record (%s)" % WORD)


def read(path):
    with open(path, encoding="utf-8") as f:
        return f.read()


def snake(part):
    part = re.sub(r"([a-z0-9])([A-Z])", r"\1_\2", part)
    return part.lower()


def declared():
    """The names that specs/ and the files of laws declare, and those of specs/ alone."""
    names, specs = set(), set()
    for path in sorted(glob.glob("crates/*/specs/**/*.antt", recursive=True) + glob.glob("crates/*/proofs/*.antt")):
        for line in read(path).split("\n"):
            found = TOP.match(line) or FIELD.match(line)
            if not found:
                continue
            names.add(found.group(1))
            if "/specs/" in path:
                specs.add(found.group(1))
    return names, specs


def turned(name, known):
    if name in APART:
        return APART[name]
    if name[0].isupper() or name.startswith("◌"):
        return name
    parts = [snake(p) if re.search("[a-z][A-Z]", p) and p[0].islower() else p for p in name.split("-")]
    out = parts[0]
    for part in parts[1:]:
        whole_left = out.split("-")[-1]
        joins = whole_left in known and part in known
        out += ("-" if joins else "_") + part
    return out


def files():
    for kind in ("crates/*/src/**/*.rt", "crates/*/specs/**/*.antt", "crates/*/proofs/**/*.antt", "crates/*/must-fail/*.edit"):
        yield from sorted(glob.glob(kind, recursive=True))


def main():
    names, specs = declared()
    known = {snake(n) if n[0].islower() else n for n in specs} | LIBRARY
    table = {n: turned(n, known) for n in names}
    table = {a: b for a, b in table.items() if a != b}
    used = set()
    texts = {path: read(path) for path in files()}
    for path, text in texts.items():
        if path.startswith("crates/") and not path.endswith(".edit"):
            used |= set(TOKEN.findall(text))
    together = {}
    for a, b in sorted(table.items()):
        together.setdefault(b, []).append(a)
    for b, olds in sorted(together.items()):
        if len(olds) > 1 or b in used:
            print("together, in different places:" if len(olds) == 1 else "together:", b, olds, file=sys.stderr)
    for path, text in texts.items():
        new = TOKEN.sub(lambda m: table.get(m.group(0), m.group(0)), text)
        if new != text:
            with open(path, "w", encoding="utf-8") as f:
                f.write(new)
    for a, b in sorted(table.items()):
        print(a, b)


if __name__ == "__main__":
    main()
