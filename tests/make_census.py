#!/usr/bin/env python3
"""Makes crates/census/stdin and crates/census/stdout from crates/census/census.txt.

    python3 tests/make_census.py           write both files
    python3 tests/make_census.py --check   exit 1 if they are not up to date
    python3 tests/make_census.py --model   compare stdout with tests/model.py

stdin is the trace of the one case, stdout what the census program must print for it. It
was worked out by hand. It is not made by the census program.
"""
import pathlib
import sys

sys.dont_write_bytecode = True
import make_cases
import model

CENSUS = pathlib.Path(__file__).resolve().parent.parent / "crates" / "census"


def compare(case):
    """Compares what was worked out by hand with the model."""
    found = model.census(case.trace())
    if found == case.listing():
        print("the same")
        return 0
    print("-- by hand\n%s-- model\n%s" % (case.listing().decode(), found.decode()))
    return 1


def main():
    text = (CENSUS / "census.txt").read_text(encoding="ascii")
    cases = make_cases.read_cases(text, source="census.txt")
    if len(cases) != 1:
        sys.exit("census.txt: there must be one case")
    case, option = cases[0], sys.argv[1:]
    if option == ["--model"]:
        sys.exit(compare(case))
    wanted = {"stdin": case.trace(), "stdout": case.listing()}
    make_cases.write_or_check(CENSUS, wanted, 1, option, __doc__)


if __name__ == "__main__":
    main()
