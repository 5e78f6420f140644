#!/usr/bin/env python3
# A record of a past step: this script served once, in the move that PORT.md tells of.
"""Brings the repository's own definitions, labels and lemmas to snake case, after the toolchain's port script has run.

    python3 docs/history/respell.py [ROOT]

A dash stays where it joins the names of two functions. Names of Rust items, of goals and of the library stay as they are.
"""
import glob
import os
import re
import sys

# Names that would fall together with another one, a library's word or a tactic, and import names.
OTHER = {
    "earliest-from": "earliest_from_lem",
    "swapped-out": "swapped_out_lem",
    "tables-fit": "tables_fit_lem",
    "at-start": "at_first",
    "by_turn": "turned_by",
    "first_of": "first_known",
    "first-of": "first_known",
    "getD-mapFrom": "get_or-map_from",
    "length-mapFrom": "length-map_from",
    "busI": "bus_i",
    "asR": "as_r",
    "asW": "as_w",
    "asDW": "as_dw",
    "asRI": "as_ri",
    "asRP": "as_rp",
    "asLR": "as_lr",
    "asUW": "as_uw",
    "asU": "as_u",
}

# A dash in these joins the names of two functions.
JOINED = {"length-map", "length-window", "length-written", "drop-map", "drop-written", "take-map", "take-written",
          "tally-map", "tally-set", "window-map"}

WORD = re.compile(r"[\w'·]+(?:-[\w'·]+)*", re.UNICODE)
DECLARED = [
    re.compile(r"\s*(?:(?:abbrev|unfoldable|pub)\s+)*([\w'·]+(?:-[\w'·]+)*)\s*:\s"),
    re.compile(r"\s*pub\s+((?:[\w'·]+(?:-[\w'·]+)*\s+)+[\w'·]+(?:-[\w'·]+)*)\s*:\s"),
]
GOALS = re.compile(r"/proofs/.*/(Answers|Invariants|Choices|Proof)\.antt$")


def read(path):
    with open(path, encoding="utf-8") as f:
        return f.read()


def snake(name):
    turned = re.sub(r"(?<=[a-z0-9])([A-Z])", lambda m: "_" + m.group(1).lower(), name)
    return turned if name in JOINED else turned.replace("-", "_")


def declared(files):
    """The lower-case names that are declared in specs/ and proofs/, outside the files of goals."""
    names = set()
    for path in files:
        if GOALS.search(path):
            continue
        for line in read(path).split("\n"):
            for form in DECLARED:
                found = form.match(line)
                if found:
                    names.update(found.group(1).split())
    return {name for name in names if not name[0].isupper()}


def renamed(text, names):
    return WORD.sub(lambda m: names.get(m.group(0), m.group(0)), text)


def logic(text, names):
    """antt text: all but comments."""
    lines = []
    for line in text.split("\n"):
        code, mark, comment = line.partition("--")
        lines.append(renamed(code, names) + mark + comment)
    return "\n".join(lines)


def source(text, names):
    """Rattle text: only names with a capital inside, which no Rust function has; comments and strings stay."""
    ghost = {old: new for old, new in names.items() if re.search(r"[a-z0-9][A-Z]", old)}
    parts = re.split(r'(//[^\n]*|b?"(?:[^"\\]|\\.)*")', text)
    return "".join(part if i % 2 else renamed(part, ghost) for i, part in enumerate(parts))


def main(root):
    antt = sorted(glob.glob(os.path.join(root, "crates/*/specs/**/*.antt"), recursive=True)
                  + glob.glob(os.path.join(root, "crates/*/proofs/**/*.antt"), recursive=True))
    code = sorted(glob.glob(os.path.join(root, "crates/*/src/**/*.rt"), recursive=True))
    own = declared(antt)
    names = {name: snake(name) for name in own if snake(name) != name}
    # Lemmas by these names stand in proofs/ alone.
    names.update(OTHER)
    definitions = {"by_turn"}
    for path in antt + code:
        text = read(path)
        here = names
        if path.endswith(".rt") or "/specs/" in path:
            here = {old: new for old, new in names.items() if old not in definitions}
        new = source(text, here) if path.endswith(".rt") else logic(text, here)
        if new != text:
            with open(path, "w", encoding="utf-8") as f:
                f.write(new)
    together = {}
    for old, new in names.items():
        together.setdefault(new, set()).add(old)
    for new, olds in sorted(together.items()):
        if len(olds) > 1 or (new in own and new not in names and olds - definitions):
            print("fall together:", new, "from", ", ".join(sorted(olds)))
    print(f"{len(names)} names")


if __name__ == "__main__":
    main(sys.argv[1] if len(sys.argv) > 1 else ".")
