#!/usr/bin/env python3
"""Runs the program `pim` and compares what it writes, and how it ends.

    python3 tests/run_pim.py [BINARY]

BINARY is crates/pim/out/pim unless given; `rt run` in crates/pim makes it. Prints failures only,
and exits 1 if there is one. What must be written comes from outside the program:

- tests/pim/runs.txt has commands with their output, worked out by hand. docs/PIM.md has examples
  in the same form; they are run too.
- tests/pim/traces.txt has traces with what `pim check` tells of each, tests/pim/texts.txt texts with
  what `pim trace` makes of each, both by hand.
- tests/listings has the listings and censuses of stored traces.
- tests/model.py gives the bytes of `list`, `run` and `census` where each option changes them, and of a
  long trace. The tables of `run` are made here from the model's numbers, as docs/PIM.md shows them.

docs/FORMATS.md says where the fields of a listing stand; a byte of each is changed in turn for `judge`.
"""
import collections
import pathlib
import random
import shutil
import struct
import subprocess
import sys
import tempfile

sys.dont_write_bytecode = True
import compare
import make_cases
import model

TESTS = pathlib.Path(__file__).resolve().parent
BINARY = TESTS.parent / "crates" / "pim" / "out" / "pim"
LISTINGS = TESTS / "listings"
PAGE = TESTS.parent / "docs" / "PIM.md"

# The fields of a step's line and their places, counted from 1.
FIELDS = (("step", 1, 7), ("processor", 9, 9), ("command", 11, 12), ("address", 14, 21),
          ("answer", 23, 24), ("word", 26, 33), ("state found", 35, 36), ("state left", 38, 39),
          ("cycles", 41, 44))
SPACES = (8, 10, 13, 22, 25, 34, 37, 40)

# Options that each change what the stored trace of 4,095 records gives.
CHANGES = (
    dict(columns=1), dict(columns=256), dict(ways=1), dict(ways=3), dict(lock_entries=1),
    dict(lock_entries=4), dict(swap_in=1000), dict(transfer=0), dict(invalidation=999),
    dict(swap_out=17), dict(lock_signal=1), dict(words=512), dict(words=0), dict(words=4194304),
    dict(dead=[3]), dict(dead=[255, 17, 3]), dict(columns=2, ways=2, dead=[19, 35], words=2048))

# What each subcommand's help must name.
CLUSTER = ["--" + name.replace("_", "-") for name in model.Measures._fields[1:]] + ["--words", "--dead"]
HELP = {"list": CLUSTER, "run": CLUSTER + ["--json", "--csv"], "census": CLUSTER, "text": [],
        "trace": [], "judge": CLUSTER + ["TRACE", "LISTING"], "check": [],
        "recipe": ["--start", "--draws", "--words", "--processors"]}

# What a page may use where the machine has it.
OPTIONAL = ("jq",)

LONG_SEED, LONG_RECORDS = "pim", 100000

Result = collections.namedtuple("Result", "status output error")
Example = collections.namedtuple("Example", "number command lines status")


def good(output):
    return Result(0, output, b"")


def refused(line):
    return Result(3, b"", line.encode("ascii") + b"\n")


class Folder:
    """A folder with the program as `pim`, tests/ and the traces of tests/pim; and the failures."""

    def __init__(self, binary, path):
        self.path, self.failures = pathlib.Path(path), 0
        (self.path / "pim").symlink_to(binary)
        (self.path / "tests").symlink_to(TESTS)

    def store(self, name, data):
        (self.path / name).write_bytes(data)
        return name

    def run(self, *words, data=b""):
        """What the program gives for these arguments and this standard input."""
        done = subprocess.run(["./pim", *words], cwd=self.path, input=data, capture_output=True,
                              timeout=60)
        return Result(done.returncode, done.stdout, done.stderr)

    def shell(self, command):
        """What a line of the shell gives."""
        done = subprocess.run(["bash", "-c", command], cwd=self.path, stdin=subprocess.DEVNULL,
                              capture_output=True, timeout=60)
        return Result(done.returncode, done.stdout, done.stderr)

    def fail(self, name, what):
        self.failures += 1
        print("%s: %s" % (name, what))

    def expect(self, name, wanted, found):
        """Tells of the first thing in which a result is not what is wanted."""
        for what, here, there in zip(Result._fields, wanted, found):
            if here != there:
                shown = "expected %r, found %r" % (here, there) if what == "status" else \
                    difference(here, there)
                return self.fail(name, "%s: %s" % (what, shown))
        return None


def difference(wanted, found):
    """The first line in which two outputs differ, as text."""
    sides = [text.splitlines(keepends=True) for text in (wanted, found)]
    for at in range(max(map(len, sides))):
        here = [lines[at] if at < len(lines) else b"" for lines in sides]
        if here[0] != here[1]:
            return "line %d: expected %r, found %r" % (at + 1, here[0][:120], here[1][:120])
    return "no difference"


# Commands with their output.


def blocks(text):
    """The indented lines of a page, each with its number, and None where other lines come between."""
    for number, line in enumerate(text.splitlines(), 1):
        if not line or line.startswith("    "):
            yield number, line[4:]
        else:
            yield None


def examples(text):
    """The commands of a page, what stands below each, and the status that each ends with."""
    found, lines = [], None
    for each in blocks(text):
        if each is None:
            lines = None
            continue
        number, line = each
        if line.startswith("$ "):
            lines = []
            found.append(Example(number, line[2:], lines, 0))
        elif lines == [] and found[-1].command.endswith("\\"):
            found[-1] = found[-1]._replace(command=found[-1].command[:-1] + line.lstrip())
        elif lines is not None:
            lines.append(line)
    return with_statuses(found)


def with_statuses(found):
    """The commands but `echo $?`, each with the status that this one tells of it."""
    told = []
    for example in found:
        while example.lines and not example.lines[-1]:
            example.lines.pop()
        if example.command == "echo $?":
            told[-1] = told[-1]._replace(status=int(example.lines[0]))
        else:
            told.append(example)
    return told


def check_example(folder, page, example):
    """Runs a command and compares. A last line `...` stands for any lines more."""
    name = "%s, line %d, %s" % (page, example.number, example.command)
    found, lines = folder.shell(example.command), list(example.lines)
    shown = found.output if example.status < 2 else found.error
    if lines[-1:] == ["..."]:
        lines.pop()
        if len(shown.splitlines()) <= len(lines):
            folder.fail(name, "no lines more")
        shown = b"".join(shown.splitlines(keepends=True)[:len(lines)])
    text = "".join(line + "\n" for line in lines).encode()
    wanted = Result(example.status, *((text, b"") if example.status < 2 else (b"", text)))
    cut = (shown, found.error) if example.status < 2 else (found.output, shown)
    folder.expect(name, wanted, Result(found.status, *cut))


def check_page(folder, path):
    """Runs all commands of a page, in order."""
    found = examples(path.read_text(encoding="utf-8"))
    if not found:
        folder.fail(path.name, "has no commands")
    for example in found:
        name = example.command.split()[0]
        if name not in OPTIONAL or shutil.which(name):
            check_example(folder, path.name, example)


# Traces and texts.


class Text(make_cases.Case):
    """A text, and behind `gives` the trace that it is or the number of its first wrong line."""

    def __init__(self, name):
        super().__init__(name)
        self.text = b""

    def take(self, line):
        if line == "cut":
            self.text = self.text[:-1]
        else:
            mark, text = line[:1], line[1:]
            if mark != "|":
                raise ValueError("no line of a text")
            self.text += text.encode("ascii").decode("unicode_escape").encode("latin-1") + b"\n"

    def wanted(self):
        word, *rest = self.expected[0].split()
        if word == "line":
            return refused("pim: TEXT line %s: not a line of a trace's text" % rest[0])
        trace = make_cases.Case(self.name)
        for line in self.expected:
            trace.take(line)
        return good(trace.trace())


def check_traces(folder):
    """`pim check` on each trace. One that is refused is refused by the other subcommands too."""
    for case in read(TESTS / "pim" / "traces.txt", make_cases.Case):
        file, first = folder.store(case.name + ".trace", case.trace()), case.expected[0]
        wanted = refused(first) if first.startswith("pim:") else good(case.listing())
        folder.expect("check " + file, wanted, folder.run("check", file))
        folder.expect("check < " + file, wanted, folder.run("check", data=case.trace()))
        if wanted.status:
            for name in ("list", "run", "census", "text"):
                folder.expect("%s %s" % (name, file), wanted, folder.run(name, file))
            folder.expect("judge " + file, wanted, folder.run("judge", file, file))


def check_texts(folder):
    """`pim trace` on each text."""
    for case in read(TESTS / "pim" / "texts.txt", Text):
        file = folder.store(case.name + ".txt", case.text)
        folder.expect("trace " + file, case.wanted(), folder.run("trace", file))
        folder.expect("trace < " + file, case.wanted(), folder.run("trace", data=case.text))


def read(path, kind):
    return make_cases.read_cases(path.read_text(encoding="ascii"), kind, path.name)


def text_of(processors, records):
    """The text of a trace, of records as tests/compare.py draws them."""
    lines = ["trace version 1 processors %d" % processors]
    for stamp, p, code, _, address, data in records:
        name = model.COMMANDS[code]
        word = " %08X" % data if name in model.WRITING else ""
        lines.append("%d %d %s %08X%s" % (stamp, p, name, address, word))
    return "".join(line + "\n" for line in lines).encode("ascii")


def check_too_many(folder):
    """A text of as many records as a trace has at most, and of one more."""
    head, line = b"trace version 1 processors 1\n", b"0 0 U 0\n"
    most = model.RECORDS_LIMIT
    record = struct.pack("<IBBHII", 0, 0, 8, 0, 0, 0)
    trace = record * most + struct.pack("<IBBH", 16 * most, 1, 1, 0)
    folder.expect("trace of the most records", good(trace), folder.run("trace", data=head + line * most))
    wrong = refused("pim: TEXT line %d: not a line of a trace's text" % (most + 2))
    folder.expect("trace of one record more", wrong, folder.run("trace", data=head + line * (most + 1)))


# Stored listings and censuses.


def check_stored(folder):
    """`list` and `census` without options, from a file and through a pipe."""
    stored = sorted(LISTINGS.glob("*.trace"))
    if not stored:
        folder.fail("tests/listings", "has no traces")
    for path in stored:
        for name, suffix in (("list", ".listing"), ("census", ".census")):
            wanted = path.with_suffix(suffix).read_bytes()
            data, what = path.read_bytes(), "%s %s" % (name, path.name)
            found = folder.run(name, str(path)), folder.run(name, data=data)
            if wanted.startswith(b"TRACE "):
                check_refused(folder, what, wanted.decode("ascii").rstrip("\n"), found)
                continue
            for result in found:
                folder.expect(what, good(wanted), result)


def check_refused(folder, name, line, found):
    """One line on standard error that begins with what the listing program prints of the trace."""
    for result in found:
        start = ("pim: " + line + ": ").encode("ascii")
        if not result.error.startswith(start) or result.error.count(b"\n") != 1:
            folder.fail(name, "error: expected %r.., found %r" % (start, result.error))
        folder.expect(name, Result(3, b"", result.error), result)


def check_long_note(folder):
    """A note that the listing program does not take."""
    trace = (LISTINGS / "worked-example.trace").read_bytes()
    wanted = good((LISTINGS / "worked-example.listing").read_bytes())
    for size in (65536, 1000001):
        file = folder.store("long-note.trace", bytes(range(250)) * (size // 250) + bytes(size % 250) + trace)
        told = "processors 2\nrecords 4\nnote bytes %d\nfirst stamp 1\nlast stamp 4\n" % size
        folder.expect("list a note of %d bytes" % size, wanted, folder.run("list", file))
        folder.expect("check a note of %d bytes" % size, good(told.encode()), folder.run("check", file))


# The model.


def check_options(folder):
    """Each option changes the output as it changes the model's."""
    path = LISTINGS / "most-records.trace"
    data, met = path.read_bytes(), set()
    plain = outputs(data, {})
    for options in ({},) + CHANGES:
        words, wanted = compare.option_words(options), outputs(data, options)
        if options and wanted["list"] == plain["list"] and wanted["run --json"] == plain["run --json"]:
            folder.fail(" ".join(words), "changes nothing")
        for call, output in wanted.items():
            found = folder.run(*call.split(), *words, str(path))
            folder.expect(" ".join([call] + words), good(output), found)
        met |= set(words)
    for option in set(CLUSTER) - met:
        folder.fail(option, "is not tried")


def outputs(data, options):
    """What each call of pim must write, by the model."""
    run = model.pim_run(data, options)
    listing, numbers = model.listing_of(run), model.statistics(run)
    return {"list": listing, "run --json": model.as_json(numbers), "run --csv": model.as_csv(numbers),
            "run": tables(numbers), "census": model.census_of(run)}


# The tables of the statistics, as docs/PIM.md shows them.


def row(name, value, whole):
    """A number that is a part of a whole, with its percentage, rounded to tenths, halves up."""
    tenths = (2000 * value + whole) // (2 * whole) if whole else 0
    return "  %-22s%12d%7d.%d %%" % (name, value, tenths // 10, tenths % 10)


def table(title, whole, parts):
    """A number, and below it its parts."""
    return ["", "%-24s%12d" % (title, whole)] + [row(name, value, whole) for name, value in parts]


def command_table(numbers):
    """The answers of each command that a processor issued, and of all."""
    kinds, lines = ("done", "waiting", "refused"), []
    sums = dict.fromkeys(kinds, 0)
    for p in range(numbers["processors"]):
        for name in model.COMMANDS:
            counts = [numbers["%s.%d.%s" % (kind, p, name)] for kind in kinds]
            if any(counts):
                lines.append("  %d %-20s%12d%12d%12d" % (p, name, *counts))
            for kind, count in zip(kinds, counts):
                sums[kind] += count
    head = "%-24s%12s%12s%12s" % ("processor and command", *kinds)
    return sums, ["", head] + lines + ["  %-22s%12d%12d%12d" % ("all", *sums.values())]


def tables(numbers):
    """What `run` writes without --json and --csv."""
    def parts(prefix, names):
        return [(name, numbers[prefix + name]) for name in names]

    sums, lines = command_table(numbers)
    lines[:0] = ["%-24s%12d" % (name, numbers[name]) for name in ("processors", "steps", "cycles", "left")]
    events = ["hits", "misses", "from_cache", "from_memory", "swap_outs"]
    events += ["bus." + signal for signal in ("F", "FI", "I", "LK", "UL")]
    lines += table("steps done", sums["done"], parts("", events))
    causes = ("swap_in", "transfer", "swap_out", "invalidation", "lock_signal")
    lines += table("bus cycles", numbers["cycles"], parts("cycles.", causes))
    locks = sum(numbers["done.%d.LR" % p] for p in range(numbers["processors"]))
    lines += table("LR done", locks, parts("", ("lr_hits", "lr_hits_exclusive")))
    lines += table("releases", numbers["releases"], parts("", ("releases_unwaited",)))
    refusals = parts("refusals.", ["%02d" % number for number in range(3, 12)])
    lines += table("steps refused", sums["refused"], [each for each in refusals if each[1]])
    total = sum(numbers["lines." + state] for state in model.STATES)
    lines += table("lines at the end", total, parts("lines.", model.STATES))
    copies = parts("copies.", [str(n) for n in range(9)])
    lines += table("blocks by copies", sum(count for _, count in copies), copies)
    return "".join(line + "\n" for line in lines).encode("ascii")


def check_long(folder):
    """A long trace that does not get stuck: its listing, its statistics and its text."""
    trial = compare.long_trial(random.Random(LONG_SEED), 0, LONG_RECORDS)
    file, words = folder.store("long.trace", trial.trace()), compare.option_words(trial.options)
    wanted = outputs(trial.trace(), trial.options)
    steps = wanted["list"].count(b"\n") - 1
    if steps < LONG_RECORDS or b"STUCK" in wanted["list"]:
        folder.fail("the long trace", "gets stuck")
    for call in ("list", "run", "run --json"):
        folder.expect("%s long.trace" % call, good(wanted[call]), folder.run(*call.split(), *words, file))
    listing = folder.store("long.listing", wanted["list"])
    agree = good(b"agree: %d steps\n" % steps)
    folder.expect("judge long.trace", agree, folder.run("judge", *words, file, listing))
    text = text_of(trial.processors, trial.records)
    folder.expect("text long.trace", good(text), folder.run("text", file))
    folder.expect("trace long.txt", good(trial.but(note=b"").trace()), folder.run("trace", data=text))


# Judging.


def judged(folder, name, trace, ours, theirs, line, field):
    """`judge` names the first line that differs, and its field."""
    file = folder.store("theirs.listing", theirs)
    sides = [side.split(b"\n") for side in (ours, theirs)]
    shown = [lines[line - 1] if line <= side.count(b"\n") + (not side.endswith(b"\n") and side != b"")
             else b"(no line)" for side, lines in zip((ours, theirs), sides)]
    text = b"differ: line %d, %s\nours:   %s\ntheirs: %s\n" % (line, field.encode(), *shown)
    found = folder.run("judge", str(LISTINGS / (trace + ".trace")), file)
    folder.expect("judge, " + name, Result(1, text, b""), found)


def changed(data, place):
    """The bytes with one changed that is at a place."""
    other = b"1" if data[place:place + 1] != b"1" else b"2"
    return data[:place] + other + data[place + 1:]


def check_fields(folder):
    """A byte of each field of a step's line; of a space between them; of TOTAL and STUCK."""
    ours = (LISTINGS / "stuck.listing").read_bytes()
    lines = ours.splitlines(keepends=True)
    total, stuck = len(lines) - 1, len(lines)
    if not lines[-1].startswith(b"STUCK ") or total < 5:
        folder.fail("stuck.listing", "has other lines than this test takes it to have")
    starts = [sum(map(len, lines[:at])) for at in range(len(lines))]
    changes = [(3, place, name) for name, first, last in FIELDS for place in range(first, last + 1)]
    changes += [(total - 1, last, name) for name, _, last in FIELDS]
    changes += [(1, place, "line") for place in SPACES] + [(3, 45, "line")]
    changes += [(total, place, "total") for place in (7, 18)] + [(total, 1, "line")]
    changes += [(stuck, place, "stuck") for place in (7, 13)] + [(stuck, 5, "line")]
    for line, place, field in changes:
        theirs = changed(ours, starts[line - 1] + place - 1)
        judged(folder, "line %d place %d" % (line, place), "stuck", ours, theirs, line, field)


def check_lines(folder):
    """Lines that are missing, come too often, or differ twice; an end that is missing."""
    ours = (LISTINGS / "worked-example.listing").read_bytes()
    lines, name = ours.splitlines(keepends=True), "worked-example"
    join = b"".join
    judged(folder, "no lines", name, ours, b"", 1, "line")
    judged(folder, "last line missing", name, ours, join(lines[:5]), 6, "line")
    judged(folder, "first line missing", name, ours, join(lines[1:]), 1, "step")
    judged(folder, "last step missing", name, ours, join(lines[:4] + lines[5:]), 5, "line")
    judged(folder, "an empty line behind", name, ours, ours + b"\n", 7, "line")
    judged(folder, "a line more", name, ours, ours + b"STUCK 0000001\n", 7, "line")
    judged(folder, "a byte more", name, ours, ours + b"x", 7, "line")
    judged(folder, "a step twice", name, ours, join(lines[:2] + lines[1:]), 3, "step")
    judged(folder, "end missing", name, ours, ours[:-1], 6, "end")
    judged(folder, "byte 13 at the ends", name, ours, ours.replace(b"\n", b"\r\n"), 1, "line")
    judged(folder, "a TRACE line", name, ours, b"TRACE 12\n", 1, "line")
    twice = changed(changed(ours, 2 * 45 + 35), 2 * 45 + 15)
    judged(folder, "two fields of a line", name, ours, twice, 3, "address")
    twice = changed(changed(ours, 3 * 45 + 2), 1 * 45 + 43)
    judged(folder, "two lines", name, ours, twice, 2, "cycles")


# Help.


def check_help(folder):
    """Each help is on standard output and names the options."""
    helps = {("--help",): list(HELP), ("-h",): list(HELP), ("help",): list(HELP)}
    for name, options in HELP.items():
        for call in ((name, "--help"), (name, "-h"), ("help", name)):
            helps[call] = ["Usage: pim " + name] + options
    for call, names in helps.items():
        found, what = folder.run(*call), "pim " + " ".join(call)
        folder.expect(what, Result(0, found.output, b""), found)
        for each in names:
            if each.encode() not in found.output:
                folder.fail(what, "does not name " + each)


CHECKS = (check_traces, check_texts, check_too_many, check_stored, check_long_note, check_options,
          check_fields, check_lines, check_help, check_long)


def main():
    if len(sys.argv) > 2:
        sys.exit(__doc__)
    binary = pathlib.Path(sys.argv[1] if sys.argv[1:] else BINARY).resolve()
    if not binary.is_file():
        sys.exit("%s is not there; `rt run` in crates/pim makes it" % binary)
    with tempfile.TemporaryDirectory() as path:
        folder = Folder(binary, path)
        for check in CHECKS:
            check(folder)
        for page in (TESTS / "pim" / "runs.txt", PAGE):
            check_page(folder, page)
    return 1 if folder.failures else 0


if __name__ == "__main__":
    sys.exit(main())
