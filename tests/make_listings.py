#!/usr/bin/env python3
"""Makes the stored traces tests/listings/NAME.trace, with what two programs must write for each.

    python3 tests/make_listings.py           write all files
    python3 tests/make_listings.py --check   exit 1 if they are not up to date
    python3 tests/make_listings.py --model   compare what was worked out by hand with tests/model.py

NAME.listing is for the program `listing`, and NAME.census for the program `census`.
tests/listings.txt describes the traces; its head tells its form. All that is expected
stands there, worked out by hand, but for `most-records`, where tests/model.py makes it.
Nothing is made by the programs. tests/run_programs.py runs them on the stored traces.
"""
import pathlib
import struct
import sys

sys.dont_write_bytecode = True
import make_cases
import model

TESTS = pathlib.Path(__file__).resolve().parent
FOLDER = TESTS / "listings"
BY_MODEL = ["made by tests/model.py"]
MODELS = {"listing": model.listing, "census": model.census}

# All blocks of one column, many more than its four ways, so that lines are swapped out; and
# a few of other columns, the first and the last block among them.
BLOCKS = [3 + 16 * row for row in range(16)] + [0, 17, 255]


class Draw:
    """Numbers by a rule of its own, so that every Python draws the same."""

    def __init__(self):
        self.number = 1

    def below(self, limit):
        self.number = (self.number * 1103515245 + 12345) % 2**31
        return (self.number >> 12) % limit

    def one_of(self, items):
        return items[self.below(len(items))]

    def word(self):
        return self.below(2**16) << 16 | self.below(2**16)


def plan(draw):
    """Commands (name, address, data) that one processor issues one after another.

    A lock is released at the plan's end, and between the commands stay in the locked
    block. So a processor that holds a lock never waits, and no run gets stuck.
    """
    def command(name, address):
        return name, address, draw.word() if name in model.WRITING else 0

    start = draw.one_of(BLOCKS) * 4
    address = start + draw.below(4)
    kind = draw.below(20)
    if kind < 15:
        name = draw.one_of(("R", "R", "R", "W", "W", "DW", "RI", "RP", "RB"))
        return [command(name, address)]
    if kind < 17:
        inside = [command(draw.one_of(("R", "W", "DW", "RB")), start + draw.below(4))
                  for _ in range(draw.below(4))]
        return [command("LR", address)] + inside + [command(draw.one_of(("U", "UW")), address)]
    if kind == 17:  # the same lock twice, and one more than there are entries
        return [command("LR", start), command("LR", start), command("LR", start + 1),
                command("LR", start + 3), command("U", start + 1), command("UW", start)]
    if kind == 18:  # a release of what is not held
        return [command(draw.one_of(("U", "UW")), address)]
    return [command(draw.one_of(model.COMMANDS), 1024 + draw.word() // 2)]


def mixed(count, processors):
    """So many records. Each is the next of a plan of a processor that is drawn."""
    draw, plans, records, stamp = Draw(), [[] for _ in range(processors)], [], 0
    while len(records) < count:
        p = draw.below(processors)
        if not plans[p]:
            new = plan(draw)
            if len(records) + sum(map(len, plans)) + len(new) > count:
                continue
            plans[p] = new
        name, address, data = plans[p].pop(0)
        records.append(struct.pack("<IBBHII", stamp, p, model.COMMANDS.index(name), 0,
                                   address, data))
        stamp += draw.below(4)
    return records


class Listing(make_cases.Case):
    """A case with files of its own."""

    def __init__(self, name):
        super().__init__(name)
        self.behind = b""

    def take(self, line):
        """Takes one line of the part before `gives`."""
        word, *rest = line.split()
        if word == "mixed":
            self.records += mixed(int(rest[0]), self.processors)
        elif word == "behind":
            self.behind = bytes.fromhex(rest[0])
        else:
            super().take(line)

    def trace(self):
        return super().trace() + self.behind

    def lines(self, program):
        """The lines behind `gives` that are the program's."""
        at = self.expected.index("census")
        return self.expected[:at] if program == "listing" else self.expected[at + 1:]

    def by_hand(self, program):
        return self.lines(program) != BY_MODEL

    def output(self, program):
        """What the program must write."""
        if not self.by_hand(program):
            return MODELS[program](self.trace())
        return "".join(line + "\n" for line in self.lines(program)).encode("ascii")


def files(cases):
    """What each file must hold, by name."""
    wanted = {case.name + ".trace": case.trace() for case in cases}
    for program in MODELS:
        wanted.update({"%s.%s" % (case.name, program): case.output(program) for case in cases})
    return wanted


def check(wanted):
    """Tells which files are missing, differ, or are described by nothing."""
    stored = {path.name: path.read_bytes() for path in FOLDER.glob("*")}
    stale = [name for name in sorted(wanted.keys() | stored.keys())
             if wanted.get(name) != stored.get(name)]
    for name in stale:
        print("tests/listings/%s is not up to date" % name)
    return 1 if stale else 0


def differs_from_model(case, program):
    """Prints both outputs if they differ."""
    by_hand, found = case.output(program), MODELS[program](case.trace())
    if found != by_hand:
        print("== %s.%s\n-- by hand\n%s-- model\n%s" % (
            case.name, program, by_hand.decode(), found.decode()))
    return found != by_hand


def compare(cases):
    """Compares what was worked out by hand with the model."""
    by_hand = [(case, program) for case in cases for program in MODELS if case.by_hand(program)]
    wrong = sum(differs_from_model(*each) for each in by_hand)
    print("%d outputs by hand, %d differ from the model" % (len(by_hand), wrong))
    return 1 if wrong else 0


def write(wanted):
    FOLDER.mkdir(exist_ok=True)
    for path in FOLDER.glob("*"):
        if path.name not in wanted:
            path.unlink()
    for name, data in wanted.items():
        (FOLDER / name).write_bytes(data)
    print("%d files written" % len(wanted))
    return 0


def main():
    text = (TESTS / "listings.txt").read_text(encoding="ascii")
    cases = make_cases.read_cases(text, Listing, "listings.txt")
    option = sys.argv[1:]
    if option == ["--check"]:
        return check(files(cases))
    if option == ["--model"]:
        return compare(cases)
    if option:
        sys.exit(__doc__)
    return write(files(cases))


if __name__ == "__main__":
    sys.exit(main())
