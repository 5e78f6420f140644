#!/usr/bin/env python3
"""Runs the programs `listing` and `census` on the stored traces and compares what they write.

    python3 tests/run_programs.py                     both
    python3 tests/run_programs.py PROGRAM [BINARY]    one

BINARY is crates/PROGRAM/out/PROGRAM unless given; `rt run` in crates/PROGRAM makes it. The
program gets each tests/listings/NAME.trace on standard input, once as a file and once
through a pipe. Each time it must write the bytes of NAME.PROGRAM and nothing on standard
error, and end with status 0. Prints failures only, and exits 1 if there is one.
tests/make_listings.py makes the stored files.
"""
import pathlib
import subprocess
import sys

TESTS = pathlib.Path(__file__).resolve().parent
FOLDER = TESTS / "listings"
CRATES = TESTS.parent / "crates"
PROGRAMS = ("listing", "census")


def from_file(binary, path):
    with path.open("rb") as source:
        return subprocess.run([binary], stdin=source, capture_output=True, timeout=60)


def from_pipe(binary, path):
    return subprocess.run([binary], input=path.read_bytes(), capture_output=True, timeout=60)


def first_difference(wanted, found):
    """The first line in which they differ, as text."""
    lines = wanted.splitlines(keepends=True), found.splitlines(keepends=True)
    for at in range(max(map(len, lines))):
        here = [text[at] if at < len(text) else b"" for text in lines]
        if here[0] != here[1]:
            return "line %d: expected %r, found %r" % (at + 1, here[0][:80], here[1][:80])
    return "no difference"


def faults(program, binary, path):
    """What is wrong with what the program writes for this trace."""
    expected = path.with_suffix("." + program)
    if not expected.is_file():
        yield "has no expected output"
        return
    wanted = expected.read_bytes()
    for way, run in (("file", from_file), ("pipe", from_pipe)):
        try:
            done = run(binary, path)
        except (OSError, subprocess.TimeoutExpired) as fault:
            yield "%s: %s" % (way, fault)
            continue
        if done.returncode != 0:
            yield "%s: ended with status %d" % (way, done.returncode)
        if done.stderr:
            yield "%s: wrote on standard error: %r" % (way, done.stderr[:200])
        if done.stdout != wanted:
            yield "%s: %s" % (way, first_difference(wanted, done.stdout))


def main():
    asked, given = sys.argv[1:2] or PROGRAMS, sys.argv[2:]
    if len(given) > 1 or not set(asked) <= set(PROGRAMS):
        sys.exit(__doc__)
    traces = sorted(FOLDER.glob("*.trace"))
    failed = not traces
    if failed:
        print("tests/listings has no traces")
    for program in asked:
        binary = pathlib.Path(given[0]) if given else CRATES / program / "out" / program
        for path in traces:
            for fault in faults(program, str(binary.resolve()), path):
                failed = True
                print("%s, %s: %s" % (program, path.name, fault))
    return 1 if failed else 0


if __name__ == "__main__":
    sys.exit(main())
