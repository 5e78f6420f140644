#!/usr/bin/env python3
"""Compares the programs with tests/model.py on random traces.

    python3 tests/compare.py [--count N] [--long N] [--records N] [--seed S] [--save FILE]
                             [--pim PATH] [--listing PATH] [--census PATH] [--without NAME]..

Draws --count short traces (500 unless given) and --long traces of --records records (3 of
50,000), each with measures, costs, words and dead blocks of its own. `pim list`, `pim run --json`,
`pim run --csv` and `pim census` must write the bytes that the model gives, and end as it does;
of a line on standard error what refuses, its number and its index are compared. The listing
program and the census program, which take no options and 65,536 bytes, run on the short traces.
The programs are crates/NAME/out/NAME unless given; --without leaves one out.

At the first difference it prints the trace, made as short as it can be in a minute, the options
and the first line that differs, and exits 1; --save writes the trace's bytes too. It exits 1 also
where 500 traces or more do not meet every answer that `pim` can have. The same seed gives the same traces.
"""
import argparse
import collections
import pathlib
import random
import re
import struct
import subprocess
import sys
import tempfile
import time

sys.dont_write_bytecode = True
import model

CRATES = pathlib.Path(__file__).resolve().parent.parent / "crates"
PROGRAMS = ("pim", "listing", "census")
CODE = {name: code for code, name in enumerate(model.COMMANDS)}
ERROR = re.compile(r"pim: ((?:CLUSTER|WORDS|DEAD|TRACE) \d\d(?: \d{7})?): [^\n]+\n")
SHORTENING = 60    # seconds
SHOWN_LINES = 400  # of a trace that differs

# How often each command is drawn, in each mood. Locks that are never released end
# a trace early, so releases are drawn mostly for addresses that were locked.
MOODS = {
    "mixed": dict(R=4, W=4, DW=3, RI=2, RP=2, RB=3, LR=3, UW=2, U=2),
    "locks": dict(R=2, W=2, DW=1, RI=1, RP=1, RB=1, LR=6, UW=5, U=5),
    "crowd": dict(R=6, W=8, DW=3, RI=2, RP=1, RB=2, LR=1, UW=1, U=1),
    "purge": dict(R=3, W=3, DW=4, RI=4, RP=4, RB=6, LR=1, UW=1, U=1),
    "refusals": dict(R=1, W=2, DW=5, RI=4, RP=4, RB=2, LR=4, UW=3, U=3),
}
POOLS = ("few blocks", "one column", "two columns", "wide")

# What 500 traces must meet, so that a comparison that compares little fails.
TO_MEET = ["OK", "WT", "04", "06", "07", "08", "09", "10", "11", "STUCK", "TRACE 12", "TRACE 13",
           "CLUSTER 01", "WORDS 02", "DEAD 01", "DRAINED 11"]


class Trial:
    """A trace and the options that it runs with. `raw` are its bytes if it is a damaged one."""

    def __init__(self, processors, options, note=b"", records=(), raw=None):
        self.processors, self.options, self.note = processors, options, note
        self.records, self.raw = list(records), raw

    def trace(self):
        return pack(self.note, self.records, self.processors) if self.raw is None else self.raw

    def but(self, **changed):
        """The trial with something changed."""
        return Trial(**{**vars(self), **changed})


def pack(note, records, processors):
    area = b"".join(struct.pack("<IBBHII", *record) for record in records)
    return note + area + struct.pack("<IBBH", len(area), 1, processors, 0)


# Drawing options.


def random_cost(rng):
    return rng.choice((0, 1, 2, 5, 7, 13, 999, 1000, rng.randrange(1001)))


def random_words(rng, lines):
    """Words of memory: few, some more than a cache of so many lines has, or many."""
    blocks = rng.choice((1, 2, 5, 16, 64, 256, 256, 2 * lines, 2 * lines, 5 * lines, 100000, 1048576))
    return 4 * min(blocks, 1048576) if rng.random() > 0.01 else 0


def random_options(rng):
    """Lawful options; some are left at what they are without."""
    options = {}
    if rng.random() < 0.85:
        options["columns"] = 2 ** rng.choice((0, 0, 0, 1, 1, 2, 3, 4, 5, 6, 7, 8))
        options["ways"] = rng.randint(1, 4)
    if rng.random() < 0.7:
        options["lock_entries"] = rng.randint(1, 4)
    for cost in model.COSTS:
        if rng.random() < 0.5:
            options[cost] = random_cost(rng)
    if rng.random() < 0.8:
        options["words"] = random_words(rng, options.get("columns", 16) * options.get("ways", 4))
    return options


def random_dead(rng, blocks):
    """At most 16 dead blocks, mostly of those that the trace uses."""
    dead = rng.sample(blocks, min(len(blocks), rng.choice((1, 1, 2, 4, 16))))
    return dead + [rng.choice((dead[0], 4194303, 2 ** 32 - 1))] * (len(dead) < 16 and rng.random() < 0.2)


def spoil(rng, options):
    """Makes one to three of the options unlawful."""
    for _ in range(rng.choice((1, 1, 1, 2, 3))):
        name, value = rng.choice((
            ("columns", rng.choice((0, 3, 12, 255, 257, 512))), ("ways", rng.choice((0, 5, 8))),
            ("lock_entries", rng.choice((0, 5, 9))), (rng.choice(model.COSTS), rng.choice((1001, 5000))),
            ("words", rng.choice((1, 2, 3, 1023, 4194302, 4194305, 4194308))),
            ("words", rng.choice((6, 1022, 4194308))), ("dead", list(range(17))),
            ("dead", [rng.randrange(256) for _ in range(rng.choice((17, 18, 40)))])))
        options[name] = value


# Drawing traces.


def random_blocks(rng, pool, options):
    """Blocks of memory that the records are about, so that they meet each other."""
    columns, ways = options.get("columns", 16), options.get("ways", 4)
    count = max(options.get("words", model.WORDS) // 4, 1)
    if pool == "few blocks":
        return rng.sample(range(count), min(count, rng.randint(1, 4)))
    if pool == "wide":
        return rng.sample(range(count), min(count, 4096))
    first = rng.randrange(min(columns, count))
    chosen = (first, (first + 1) % columns) if pool == "two columns" else (first,)
    blocks = [block for start in chosen for block in range(start, min(count, 64 * columns), columns)]
    return blocks[:rng.randint(1, 3 * ways * len(chosen))] or [0]


def next_stamp(rng, stamp):
    return min(stamp + rng.choice((0, 0, 1, 1, 7, 1 << 20)), 0xFFFFFFFF)


def random_data(rng, name):
    return rng.choice((0, 1, 2, 0xFFFFFFFF, rng.getrandbits(32))) if name in model.WRITING else 0


def free_records(rng, trial_size, processors, blocks, options, mood):
    """Records of commands that are drawn one by one."""
    weights = MOODS[mood]
    names, odds = list(weights), list(weights.values())
    astray = 0.12 if mood == "refusals" else 0.02
    records, stamp = [], rng.randrange(3)
    locked = [[] for _ in range(processors)]
    for _ in range(trial_size):
        p, name = rng.randrange(processors), rng.choices(names, odds)[0]
        address = 4 * rng.choice(blocks) + rng.choice((0, 0, 1, 2, 3, 3))
        if rng.random() < astray:
            words = options.get("words", model.WORDS)
            address = rng.choice((max(words, 1) - 1, words, words + 1, 0xFFFFFFFF, rng.getrandbits(32)))
        if name in model.RELEASING and rng.random() < 0.85:
            if locked[p]:
                address = locked[p].pop(rng.randrange(len(locked[p])))
            else:
                name = "R"
        if name == "LR":
            # One lock too many is refused anyway: now and then is often enough.
            if len(locked[p]) >= options.get("lock_entries", 2) and rng.random() < 0.8:
                name, address = "U", locked[p].pop(0)
            else:
                locked[p].append(address)
        records.append((stamp, p, CODE[name], 0, address, random_data(rng, name)))
        stamp = next_stamp(rng, stamp)
    if rng.random() < 0.6:
        # Release what is still held, so that the waiting ones get their turn.
        records += [(stamp, p, CODE["U"], 0, address, 0)
                    for p in range(processors) for address in locked[p]]
    return records


class Orderly:
    """A processor that locks blocks in rising order, and that uses no lower block while it holds a
    lock, but those it holds. So those who wait never wait for each other, and no run gets stuck
    as long as memory refuses nothing."""

    def __init__(self, rng, blocks, entries):
        self.rng, self.blocks, self.entries, self.held = rng, sorted(blocks), entries, []

    def address(self):
        """An address in a block that it may use."""
        floor = max(self.held)[0] if self.held else 0
        block = self.rng.choice(self.blocks)
        if block < floor:
            block = self.rng.choice(self.held)[0]
        return 4 * block + self.rng.choice((0, 0, 1, 2, 3))

    def release(self):
        block, place = self.held.pop(self.rng.randrange(len(self.held)))
        return self.rng.choice(model.RELEASING), 4 * block + place

    def lock(self):
        address = self.address()
        if divmod(address, 4) not in self.held and len(self.held) < self.entries:
            self.held.append(divmod(address, 4))
        return "LR", address

    def next(self):
        """Its next command and address."""
        if self.held and self.rng.random() < 0.4:
            return self.release()
        kind = self.rng.random()
        if kind < 0.12:
            return self.lock()
        if kind < 0.14 and not self.held:  # a release of what it does not hold
            return self.rng.choice(model.RELEASING), self.address()
        name = self.rng.choice(("R", "R", "R", "R", "W", "W", "W", "DW", "DW", "RI", "RP", "RB"))
        return name, self.address()


def orderly_records(rng, trial_size, processors, blocks, options):
    """Records of processors that are orderly; at the end nobody holds a lock."""
    actors = [Orderly(rng, blocks, options.get("lock_entries", 2)) for _ in range(processors)]
    records, stamp, owed = [], 0, 0
    while len(records) + owed < trial_size - 1:  # a lock adds its own record and a release
        p = rng.randrange(processors)
        name, address = actors[p].next()
        records.append((stamp, p, CODE[name], 0, address, random_data(rng, name)))
        stamp, owed = next_stamp(rng, stamp), sum(len(actor.held) for actor in actors)
    for p, actor in enumerate(actors):
        while actor.held:
            name, address = actor.release()
            records.append((stamp, p, CODE[name], 0, address, random_data(rng, name)))
    return records


def damage(rng, trace):
    """The trace with something wrong in most cases."""
    trace = bytearray(trace)
    kind = rng.choice(("byte", "byte", "record", "trailer", "cut", "insert", "long", "noise"))
    if kind == "byte":
        for _ in range(rng.randint(1, 3)):
            trace[rng.randrange(len(trace))] = rng.choice((0, 1, 8, 9, 0x80, 0xFF, rng.randrange(256)))
    elif kind == "record" and len(trace) >= 24:
        at = len(trace) - 8 - 16 * rng.randint(1, (len(trace) - 8) // 16)
        trace[at + rng.choice((3, 4, 5, 6, 7, 12))] = rng.choice((1, 7, 8, 9, 0xFF))
    elif kind == "trailer":
        trace[rng.randrange(-8, 0)] = rng.choice((0, 1, 2, 8, 9, 16, 32, 0xFF))
    elif kind == "cut":
        del trace[:rng.randrange(len(trace) + 1)]
        if rng.random() < 0.3:
            del trace[rng.randrange(len(trace) + 1):]
    elif kind == "insert":
        place = rng.randrange(len(trace) + 1)
        trace[place:place] = rng.randbytes(rng.choice((1, 8, 16)))
    elif kind == "long":
        room = model.INPUT_LIMIT - len(trace)
        trace[:0] = bytes(max(room + rng.choice((-1, 0, 1, 2, 4000)), 0))
    else:
        trace = bytearray(rng.randbytes(rng.randrange(64)))
    return bytes(trace)


def short_trial(rng):
    """A short trace of any kind, with any options."""
    processors, options = rng.choice((1, 2, 2, 2, 3, 4, 5, 8)), random_options(rng)
    if rng.random() < 0.3:
        options = {}
    blocks = random_blocks(rng, rng.choice(POOLS), options)
    size = rng.choice((0, 1, 3, 10, 30, 80, 200))
    if rng.random() < 0.25:
        records = orderly_records(rng, size, processors, blocks, options)
    else:
        records = free_records(rng, size, processors, blocks, options, rng.choice(sorted(MOODS)))
    note = rng.randbytes(rng.choice((0, 0, 0, 1, 16, 23)))
    if rng.random() < 0.3:
        options["dead"] = random_dead(rng, blocks)
    if rng.random() < 0.12:
        spoil(rng, options)
    trial = Trial(processors, options, note, records)
    return trial.but(raw=damage(rng, trial.trace())) if rng.random() < 0.2 else trial


def long_trial(rng, number, size):
    """A long trace that does not get stuck. The first ones are of different kinds."""
    pool = ("wide", "one column", "few blocks", "two columns")[number % 4]
    processors, options = rng.choice((2, 4, 8, 8)), random_options(rng)
    if number == 0:
        options.update(columns=256, ways=4, words=16384)
    options["words"] = max(options.get("words", 0), 64)
    blocks = random_blocks(rng, pool, options)
    records = orderly_records(rng, size, processors, blocks, options)
    return Trial(processors, options, rng.randbytes(5), records)


def limit_trials():
    """The longest note, and one record too many."""
    record = (0, 0, CODE["W"], 0, 5, 6)
    yield Trial(1, {}, bytes(range(256)) * 65536, [record])
    size = 16 * (model.RECORDS_LIMIT + 1)
    yield Trial(1, {}, raw=bytes(size) + struct.pack("<IBBH", size, 1, 1, 0))


# What the model gives: the status, the bytes, and what refuses.

Result = collections.namedtuple("Result", "status output error")


def option_words(options):
    words = []
    for name, value in options.items():
        shown = ",".join(map(str, value)) if name == "dead" else str(value)
        words += ["--" + name.replace("_", "-"), shown]
    return words


def by_model(trial):
    """What pim must give, by the words of its call."""
    calls = "list", "run --json", "run --csv", "census"
    try:
        run = model.pim_run(trial.trace(), trial.options)
    except model.Refused as bad:
        return {"pim " + call: Result("3", b"", str(bad)) for call in calls}
    listing = model.listing_of(run)
    numbers = model.statistics(run)
    outputs = listing, model.as_json(numbers), model.as_csv(numbers), model.census_of(run)
    return {"pim " + call: Result("0", output, "") for call, output in zip(calls, outputs)}


def expected(trial, programs):
    """What each call of a program must give."""
    wanted = by_model(trial) if "pim" in programs else {}
    if "listing" in programs:
        wanted["listing"] = Result("0", model.listing(trial.trace()), "")
    if "census" in programs:
        wanted["census"] = Result("0", model.census(trial.trace()), "")
    return wanted


# What the programs give.


class Programs:
    """The binaries, by name, and a place for a trace that is given as a file."""

    def __init__(self, binaries, folder):
        self.binaries, self.file = binaries, pathlib.Path(folder) / "trace"

    def call(self, call, trial, from_file=False):
        """What a call gives for the trial."""
        name, *words = call.split()
        words = [str(self.binaries[name])] + words
        if name == "pim":
            words += option_words(trial.options)
        trace = trial.trace()
        if from_file and name == "pim":
            self.file.write_bytes(trace)
            words, trace = words + [str(self.file)], b""
        try:
            done = subprocess.run(words, input=trace, capture_output=True, timeout=600)
        except subprocess.TimeoutExpired:
            return Result("out of time", b"", "")
        error = done.stderr.decode(errors="replace")
        match = ERROR.fullmatch(error)
        return Result(str(done.returncode), done.stdout, match.group(1) if match else error)

    def difference(self, trial, wanted, from_file=False):
        """The first call that does not give what is wanted of it, with both results; or None."""
        for call, result in wanted.items():
            found = self.call(call, trial, from_file)
            if found != result:
                return call, result, found
        return None

    def difference_of(self, trial, call):
        """The same for one call."""
        return self.difference(trial, {call: expected(trial, [call.split()[0]])[call]})


# Showing a difference.


class Shortener:
    """Drops whatever is not needed for one call to differ, for a minute at most."""

    def __init__(self, programs, call):
        self.programs, self.call, self.end = programs, call, time.monotonic() + SHORTENING

    def differs(self, trial):
        return time.monotonic() < self.end and self.programs.difference_of(trial, self.call) is not None

    def first_records(self, trial):
        """The shortest beginning that differs, found by halving."""
        low, high = 0, len(trial.records)
        while low < high:
            middle = (low + high) // 2
            if self.differs(trial.but(records=trial.records[:middle])):
                high = middle
            else:
                low = middle + 1
        fewer = trial.but(records=trial.records[:high])
        return fewer if self.differs(fewer) else trial

    def without_records(self, trial):
        """Drops pieces of the records, smaller and smaller ones."""
        size = max(1, len(trial.records) // 2)
        while time.monotonic() < self.end:
            start, dropped = 0, False
            while start < len(trial.records):
                fewer = trial.but(records=trial.records[:start] + trial.records[start + size:])
                if self.differs(fewer):
                    trial, dropped = fewer, True
                else:
                    start += size
            if size == 1 and not dropped:
                break
            size = max(1, size // 2)
        return trial

    def without_options(self, trial):
        for name in list(trial.options):
            fewer = {other: value for other, value in trial.options.items() if other != name}
            if self.differs(trial.but(options=fewer)):
                trial = trial.but(options=fewer)
        return trial

    def shorten(self, trial):
        if trial.raw is None:
            if trial.note and self.differs(trial.but(note=b"")):
                trial = trial.but(note=b"")
            trial = self.without_records(self.first_records(trial))
        return self.without_options(trial)


def shown_bytes(data):
    return data.hex() if len(data) <= 4096 else "%d bytes, the last 64 of them %s" % (
        len(data), data[-64:].hex())


def readable(trial):
    """The trace in the form of crates/cases/cases.txt."""
    if trial.raw is not None:
        return "bytes " + shown_bytes(trial.raw)
    lines = ["processors %d" % trial.processors]
    if trial.note:
        lines.append("note " + shown_bytes(trial.note))
    for stamp, p, code, _, address, data in trial.records[:SHOWN_LINES]:
        word = " %X" % data if data else ""
        lines.append("@%d %d %s %X%s" % (stamp, p, model.COMMANDS[code], address, word))
    if len(trial.records) > SHOWN_LINES:
        lines.append("# and %d records more" % (len(trial.records) - SHOWN_LINES))
    return "\n".join(lines)


def pieces(output):
    """The lines of an output; a line of JSON is taken apart."""
    text = output.decode(errors="replace")
    return text.split(",") if text.startswith("{") else text.splitlines(keepends=True)


def shown_difference(wanted, found):
    if (wanted.status, wanted.error) != (found.status, found.error):
        return "model:   status %s %s\nprogram: status %s %s" % (
            wanted.status, wanted.error, found.status, found.error.strip())
    sides = pieces(wanted.output), pieces(found.output)
    for at in range(max(map(len, sides))):
        here = [side[at] if at < len(side) else "(nothing)" for side in sides]
        if here[0] != here[1]:
            return "at %d\nmodel:   %s\nprogram: %s" % (at + 1, here[0].rstrip(), here[1].rstrip())
    return "the bytes differ, their text does not: %r, %r" % (wanted.output[:200], found.output[:200])


def report(programs, trial, call):
    """Prints a trial that differs, made short. The short trial."""
    trial = Shortener(programs, call).shorten(trial)
    _, wanted, found = programs.difference_of(trial, call) or (call, None, None)
    print(readable(trial))
    print("-- " + " ".join([call] + (option_words(trial.options) if call.startswith("pim") else [])))
    if wanted is None:
        print("no difference when run again")
    else:
        print(shown_difference(wanted, found))
    return trial


# The comparison.


def note_met(met, wanted):
    """Counts what a trial meets, by the results of the model."""
    listing = wanted.get("pim list") or wanted.get("listing")
    if listing is None:
        return
    met[" ".join(listing.error.split()[:2])] += listing.status != "0"
    for line in listing.output.decode().splitlines():
        words = line.split()
        met[words[4] if words[0].isdigit() else " ".join(words[:1 + (words[0] == "TRACE")])] += 1
    if "pim census" in wanted:
        met["DRAINED 11"] += wanted["pim census"].output.endswith(b"DRAINED 11\n")


def trials(options):
    """All trials, each with a name and the programs that it is for."""
    rng = random.Random(options.seed)
    for number in range(1, options.count + 1):
        yield "trace %d" % number, short_trial(rng), PROGRAMS
    for number, trial in enumerate(limit_trials(), 1):
        yield "limit %d" % number, trial, PROGRAMS
    for number in range(options.long):
        rng = random.Random("%d long %d" % (options.seed, number))
        yield "long trace %d" % (number + 1), long_trial(rng, number, options.records), ("pim",)


def compare(programs, options):
    """Compares all trials. The exit status."""
    met, count = collections.Counter(), 0
    for name, trial, meant in trials(options):
        count += 1
        wanted = expected(trial, [which for which in programs.binaries if which in meant])
        found = programs.difference(trial, wanted, from_file=count % 2 == 0)
        if found:
            print("%s of seed %d differs" % (name, options.seed))
            trial = report(programs, trial, found[0])
            if options.save:
                pathlib.Path(options.save).write_bytes(trial.trace())
            return 1
        note_met(met, wanted)
    print("%d traces, no difference; met %s" % (
        count, ", ".join("%s %d" % pair for pair in sorted(met.items()) if pair[1])))
    missing = [what for what in TO_MEET if not met[what]]
    if "pim" in programs.binaries and options.count >= 500 and missing:
        print("the traces did not meet " + ", ".join(missing))
        return 1
    return 0


def arguments():
    parser = argparse.ArgumentParser(description=__doc__, formatter_class=argparse.RawTextHelpFormatter)
    parser.add_argument("--count", type=int, default=500)
    parser.add_argument("--long", type=int, default=3)
    parser.add_argument("--records", type=int, default=50000)
    parser.add_argument("--seed", type=int, default=1)
    parser.add_argument("--save")
    for name in PROGRAMS:
        parser.add_argument("--" + name, type=pathlib.Path, default=CRATES / name / "out" / name)
    parser.add_argument("--without", action="append", choices=PROGRAMS, default=[])
    return parser


def main():
    options = arguments().parse_args()
    binaries = {name: getattr(options, name).resolve() for name in PROGRAMS if name not in options.without}
    for path in binaries.values():
        if not path.is_file():
            sys.exit("%s is not there; `rt run` in its crate makes it" % path)
    with tempfile.TemporaryDirectory() as folder:
        return compare(Programs(binaries, folder), options)


if __name__ == "__main__":
    sys.exit(main())
