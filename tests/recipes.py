#!/usr/bin/env python3
"""Compares the traces that `pim recipe` writes with those of tests/model.py.

    python3 tests/recipes.py [BINARY]

BINARY is crates/pim/out/pim unless given; `rt build` in crates/pim makes it. First the model
must give the records that tests/recipes.txt states. Then `pim` must write the model's bytes
for twenty recipes, and refuse others as the model does: nothing on standard output, a line
`pim: RECIPE 15: ..` on standard error, status 3. Last, the model and `pim` run ten recipes on
clusters of two shapes: every step is done, and the numbers are the same. Prints failures only,
and exits 1 if there is one.
"""
import pathlib
import subprocess
import sys

import model

TESTS = pathlib.Path(__file__).resolve().parent
NAMES = ("start", "draws", "words", "processors")
LAST = 2**32 - 1

# start, draws, words, processors
RECIPES = [
    (1, 10, 1024, 8), (7, 10, 64, 2), (4294967295, 10, 1000, 3),
    (0, 1, 1, 1), (0, 2000, 4194304, 8), (1, 2000, 1024, 8), (2, 1999, 4194303, 7), (3, 500, 4, 6),
    (4, 1000, 16, 5), (5, 2000, 3, 4), (6, 777, 4096, 3), (8, 2000, 65536, 2), (9, 2000, 12, 1),
    (LAST, 2000, 1, 8), (LAST - 1, 123, 999983, 8), (2**31, 64, 2**20, 4), (123456789, 1500, 8, 8),
    (987654321, 1, 4194304, 7), (42, 2, 5, 2), (1015568748, 300, 1024, 8),
]
REFUSED = [
    (1, 0, 1024, 8), (1, 2001, 1024, 8), (1, LAST, 1024, 8), (1, 10, 0, 8), (1, 10, 4194305, 8),
    (1, 10, LAST, 8), (1, 10, 1024, 0), (1, 10, 1024, 9), (1, 10, 1024, 256), (1, 10, 1024, 264),
]

# The shapes of the clusters that recipes run on.
SHAPES = [dict(columns=16, ways=4, lock_entries=2), dict(columns=1, ways=1, lock_entries=1)]


def stored():
    """The recipes of recipes.txt and the lines of their records."""
    recipe, lines = None, []
    for line in (TESTS / "recipes.txt").read_text().splitlines():
        if line.startswith("recipe "):
            if recipe:
                yield recipe, lines
            recipe, lines = tuple(map(int, line.split()[1:])), []
        elif line and not line.startswith("#"):
            lines.append(line)
    yield recipe, lines


def shown(record):
    stamp, processor, command, address, data = record
    text = "%d %d %s %08X" % (stamp, processor, command, address)
    return text + " %08X" % data if command in model.WRITING else text


def faults_of_model():
    for recipe, lines in stored():
        found = [shown(record) for record in model.drawn_records(*recipe)][:len(lines)]
        if len(lines) != 10 or found != lines:
            yield "the model's records of %s are not those of recipes.txt" % (recipe,)


def run(binary, recipe):
    options = [text for name, value in zip(NAMES, recipe) for text in ("--" + name, str(value))]
    return subprocess.run([binary, "recipe"] + options, capture_output=True, timeout=60)


def faults_of_pim(binary):
    for recipe in RECIPES:
        done = run(binary, recipe)
        if (done.returncode, done.stdout, done.stderr) != (0, model.recipe(*recipe), b""):
            yield "pim recipe %s: not the model's bytes" % (recipe,)
    for recipe in REFUSED:
        done = run(binary, recipe)
        line = done.stderr.startswith(b"pim: RECIPE 15: ") and done.stderr.count(b"\n") == 1
        if done.returncode != 3 or done.stdout or not line:
            yield "pim recipe %s: not refused as it must be" % (recipe,)


def faults_of_runs(binary):
    """Each run is done to its end: by the second model, and by `pim`, which must give the same numbers."""
    for recipe in RECIPES[:10]:
        data = model.recipe(*recipe)
        for shape in SHAPES:
            options = dict(shape, words=(recipe[2] + 3) // 4 * 4)
            numbers = model.statistics(model.finish(model.pim_run(data, options)))
            done = sum(n for name, n in numbers.items() if name.startswith("done."))
            if numbers["left"] or not done == numbers["steps"] == (len(data) - 8) // 16:
                yield "recipe %s: a step is not done, on %s" % (recipe, shape)
            words = [text for name, value in options.items()
                     for text in ("--" + name.replace("_", "-"), str(value))]
            run = subprocess.run([binary, "run", "--json"] + words, input=data, capture_output=True, timeout=60)
            if run.stdout != model.as_json(numbers):
                yield "recipe %s: pim's numbers are not the model's, on %s" % (recipe, shape)


def main():
    binary = sys.argv[1] if len(sys.argv) > 1 else TESTS.parent / "crates" / "pim" / "out" / "pim"
    faults = list(faults_of_model()) + list(faults_of_pim(binary)) + list(faults_of_runs(binary))
    for fault in faults:
        print(fault)
    return 1 if faults else 0


if __name__ == "__main__":
    sys.exit(main())
