#!/usr/bin/env python3
"""Tries the figures published in 1987 and 1989 on pim and on tests/model.py, and writes docs/FIGURES.md.

    python3 tests/figures.py [--pim PATH | --without-pim]           write the page
    python3 tests/figures.py --check [--pim PATH | --without-pim]   exit 1 if the page is not up to date

PATH is crates/pim/out/pim unless given. Each trace is run by both models. It exits 1 where their
statistics differ, an exact row does not hold, or a drawn row does not go the published way.
The numbers are drawn by a rule of tests/make_listings.py, so the page is always the same.
"""
import argparse
import collections
import json
import pathlib
import struct
import subprocess
import sys
import tempfile

sys.dont_write_bytecode = True
import make_listings
import model

ROOT = pathlib.Path(__file__).resolve().parent.parent
PAGE = ROOT / "docs" / "FIGURES.md"
TEXT = ROOT / "tests" / "figures.txt"  # the page, with names in braces where its tables stand

PROCESSORS, BLOCK = 8, 4
STANDARD = {"columns": 256, "ways": 4, "words": 131072}
ONE_LINE = {"columns": 1, "ways": 1, "words": 64}

# The published counts of the 1987 benchmark program.
REDUCTIONS = 35752
REFERENCES = 1312900
HEAP = {"words of memory": 62800, "references": 192800, "writes": 98100, "reads": 94600, "LR": 38000}
PER_REDUCTION = {"words of memory": "1.8", "references": "5.4", "writes": "2.7", "reads": "2.6", "LR": "1.1"}

# The published mix: references of each kind, in thousandths of all.
MIX = {("heap", "write"): 75, ("heap", "read"): 43, ("heap", "lock"): 29, ("code", "read"): 495,
       ("goal", "write"): 139, ("goal", "read"): 138, ("suspension", "write"): 11,
       ("suspension", "read"): 11, ("control", "write"): 6, ("control", "read"): 27,
       ("control", "lock"): 6, ("communication", "write"): 10, ("communication", "read"): 10}

# The commands that may stand for a plain read or write, by area and use; a set of them is a variant.
HEAP_SET = {("heap", "new"): "DW"}
GOAL_SET = {("goal", "new"): "DW", ("goal", "take"): "RB"}
BUFFER_SET = {("communication", "new"): "DW", ("communication", "take"): "RB"}
CLAIM_SET = {("communication", "claim"): "RI"}
PLAIN = {"read": "R", "write": "W", "new": "W", "take": "R", "claim": "R",
         "lock": "LR", "bind": "UW", "unlock": "U"}
KIND = {"read": "read", "take": "read", "claim": "read", "write": "write", "new": "write",
        "bind": "write", "lock": "lock"}


def fail(text):
    sys.exit("figures: " + text)


# The drawn references. A reference is (area, use, address).

REDUCTIONS_EACH = 340     # measured, of each processor
CODE_WORDS = 1900         # words of code that are executed
CODE_RUNS = 105           # places where a reduction starts to fetch
WARM_HEAP = 3200          # words of heap that a processor has before the measured part
RECENT = 48               # words of heap that count as recent
FOREIGN = 10              # references to another processor's heap, in hundredths
OLD = 6                   # references to old words of the own heap, in hundredths
BUFFERS = 16              # messages that may be under way to a processor
STARTING_GOALS = 24       # goals of a processor at first


def code_at(word):
    return word % CODE_WORDS


def flag_of(p):
    return 2048 + 8 * p


def record_of(p):
    return 2048 + 8 * p + 4


def buffer_of(p, number):
    return 4096 + (p * BUFFERS + number % BUFFERS) * BLOCK


def goal_start(p):
    return 8192 + 1024 * p


def suspension_start(p):
    return 8192 + 1024 * p + 768


def heap_start(p):
    return 65536 + 8192 * p


class Processor:
    """One processor's references, reduction by reduction, in the published mix."""

    def __init__(self, number, others, draw, boxes):
        self.number, self.others, self.draw, self.boxes = number, others, draw, boxes
        self.credit = collections.Counter()
        self.top = heap_start(number)
        self.goals, self.free_goals = [], []
        self.next_goal = goal_start(number)
        self.suspended, self.suspensions = collections.deque(), 0
        self.arrived, self.sent_to = collections.deque(), 0
        self.code = 0

    def afford(self, kind, words=1):
        """Whether so many references of a kind are due; then they are spent."""
        price = words * 1000 * REDUCTIONS
        if self.credit[kind] < price:
            return False
        self.credit[kind] -= price
        return True

    def earn(self):
        """What one reduction makes due: the kind's share of the references per reduction."""
        for kind, share in MIX.items():
            self.credit[kind] += share * REFERENCES

    # Each of these gives references.

    def warm(self):
        """What came before the measured part: the code, and a heap of some size."""
        for word in range(0, CODE_WORDS, BLOCK):
            yield "code", "read", code_at(word)
        while self.top < heap_start(self.number) + WARM_HEAP:
            yield "heap", "new", self.top
            self.top += BLOCK
        for _ in range(STARTING_GOALS):
            yield from self.push_goal()

    def fetch(self, words):
        for _ in range(words):
            if self.afford(("code", "read")):
                yield "code", "read", code_at(self.code)
                self.code += 1

    def heap_word(self):
        """An address in the heap: recent, old, or of another processor."""
        kind = self.draw.below(100)
        if kind < FOREIGN:
            other = self.draw.one_of(self.others)
            return other.top - 64 - self.draw.below(256)
        if kind < FOREIGN + OLD:
            return heap_start(self.number) + self.draw.below(self.top - heap_start(self.number))
        return self.top - 1 - self.draw.below(RECENT)

    def new_structure(self):
        """The new words that are due; the published counts say how many heap writes are to new words."""
        self.credit["new"] += HEAP["words of memory"] * 1000
        while self.afford("new"):
            self.credit["heap", "write"] -= 1000 * REDUCTIONS
            yield "heap", "new", self.top
            self.top += 1

    def bindings(self):
        """A lock, an instruction, and a write that releases it; or a release without one."""
        while self.afford(("heap", "lock")):
            address = self.heap_word()
            yield "heap", "lock", address
            yield from self.fetch(1)
            yield "heap", "bind" if self.afford(("heap", "write")) else "unlock", address

    def heap_reads(self):
        while self.afford(("heap", "read")):
            yield "heap", "read", self.heap_word()

    def push_goal(self):
        if self.free_goals:
            record = self.free_goals.pop()
        else:
            record, self.next_goal = self.next_goal, self.next_goal + BLOCK
        for word in range(BLOCK):
            yield "goal", "new", record + word
        self.goals.append(record)

    def pop_goal(self):
        record = self.goals.pop()
        for word in range(BLOCK):
            yield "goal", "take", record + word
        self.free_goals.append(record)

    def suspend(self):
        while self.afford(("suspension", "write"), BLOCK):
            record = suspension_start(self.number) + BLOCK * (self.suspensions % 32)
            self.suspensions += 1
            for word in range(BLOCK):
                yield "suspension", "write", record + word
            self.suspended.append(record)
        while self.suspended and self.afford(("suspension", "read"), BLOCK):
            record = self.suspended.popleft()
            for word in range(BLOCK):
                yield "suspension", "read", record + word

    def change(self, address):
        """A flag or a record of control is locked, and released by a write."""
        if self.afford(("control", "lock")):
            yield "control", "lock", address
            yield from self.fetch(1)
            self.afford(("control", "write"))
            yield "control", "bind", address

    def poll(self):
        while self.afford(("control", "read")):
            yield "control", "read", flag_of(self.number)

    def send(self):
        """A message to another processor; its oldest goal goes with it."""
        other = self.draw.one_of(self.others)
        if len(self.goals) < 4 or len(other.arrived) > BUFFERS // 2 \
                or not self.afford(("communication", "write"), BLOCK):
            return
        buffer, goal = buffer_of(other.number, other.sent_to), self.goals.pop(0)
        other.sent_to += 1
        if self.boxes:
            self.afford(("communication", "read"))
            yield "communication", "claim", buffer
            self.credit["communication", "write"] += 1000 * REDUCTIONS  # the receiver's write
        for word in range(BLOCK - 1 if self.boxes else BLOCK):
            yield "communication", "write" if self.boxes else "new", buffer + word
        other.arrived.append((buffer, goal))
        yield from self.change(flag_of(other.number))

    def receive(self):
        """The oldest message; its goal is the next that is reduced here."""
        if not self.arrived or not self.afford(("communication", "read"), BLOCK - 1 if self.boxes else BLOCK):
            return
        buffer, goal = self.arrived.popleft()
        for word in range(BLOCK - 1 if self.boxes else BLOCK):
            yield "communication", ("claim" if word == 0 else "read") if self.boxes else "take", buffer + word
        if self.boxes:
            self.afford(("communication", "write"))
            yield "communication", "write", buffer
        self.goals.append(goal)
        yield from self.change(flag_of(self.number))

    def reduce(self):
        """One reduction."""
        self.earn()
        start = self.draw.below(CODE_RUNS) * self.draw.below(CODE_RUNS) // CODE_RUNS
        self.code = start * CODE_WORDS // CODE_RUNS
        yield from self.poll()
        yield from self.receive()
        while self.goals and self.afford(("goal", "read"), BLOCK):
            yield from self.pop_goal()
        yield from self.fetch(6)
        yield from self.heap_reads()
        yield from self.bindings()
        yield from self.fetch(6)
        yield from self.new_structure()
        yield from self.suspend()
        yield from self.fetch(4)
        while self.afford(("goal", "write"), BLOCK):
            yield from self.push_goal()
        yield from self.send()
        if self.credit["control", "lock"] > 4 * 1000 * REDUCTIONS:
            yield from self.change(record_of(self.draw.below(PROCESSORS)))
        yield from self.fetch(1000)

    def work(self):
        """The measured part."""
        for _ in range(REDUCTIONS_EACH):
            yield from self.reduce()


def in_turn(streams):
    """One reference of each processor after another, with the processor's number."""
    running = list(enumerate(streams))
    while running:
        for entry in list(running):
            reference = next(entry[1], None)
            if reference is None:
                running.remove(entry)
            else:
                yield (entry[0],) + reference


def draw_references(boxes):
    """The references before the measured part, and those of the measured part."""
    draw, processors = make_listings.Draw(), []
    for number in range(PROCESSORS):
        processors.append(Processor(number, [], draw, boxes))
    for one in processors:
        one.others = [other for other in processors if other is not one]
    warm = list(in_turn([one.warm() for one in processors]))
    measured = list(in_turn([one.work() for one in processors]))
    return warm, measured


def records_of(references, commands):
    """The references as records, with the commands of a variant."""
    records = []
    for stamp, (p, area, use, address) in enumerate(references):
        name = commands.get((area, use), PLAIN[use])
        records.append((stamp, p, name, address, stamp + 1 if name in model.WRITING else 0))
    return records


# Running traces on both models.


def trace_of(records, processors):
    area = b"".join(struct.pack("<IBBHII", stamp, p, model.COMMANDS.index(name), 0, address, data)
                    for stamp, p, name, address, data in records)
    return area + struct.pack("<IBBH", len(area), 1, processors, 0)


class Models:
    """Both models; or, without a binary, tests/model.py alone."""

    def __init__(self, binary, folder):
        self.binary, self.file = binary, pathlib.Path(folder) / "trace"

    def by_pim(self, trace, options):
        self.file.write_bytes(trace)
        words = [word for name, value in options.items()
                 for word in ("--" + name.replace("_", "-"), str(value))]
        done = subprocess.run([str(self.binary), "run", "--json"] + words + [str(self.file)],
                              capture_output=True, timeout=600)
        if done.returncode != 0 or done.stderr:
            fail("pim ended with status %d: %s" % (done.returncode, done.stderr.decode(errors="replace")))
        return done.stdout

    def run(self, records, processors, options):
        """The statistics of a run, the same on both models and without a refusal."""
        trace = trace_of(records, processors)
        numbers = model.statistics(model.finish(model.pim_run(trace, options)))
        if self.binary and self.by_pim(trace, options) != model.as_json(numbers):
            theirs, ours = json.loads(self.by_pim(trace, options)), numbers
            fail("the models differ: " + ", ".join(
                "%s %s and %s" % (name, theirs.get(name), ours.get(name))
                for name in sorted(set(theirs) | set(ours)) if theirs.get(name) != ours.get(name)))
        if numbers["left"] or any(value for name, value in numbers.items() if name.startswith("refus")):
            fail("a trace is stuck or has refusals")
        return numbers


def total(numbers, command):
    return sum(numbers["done.%d.%s" % (p, command)] for p in range(numbers["processors"]))


# Exact rows.


def commands(text):
    """Records of a list of commands: `0 W 10; 1 R 10`, addresses decimal."""
    words = [command.split() for command in text.split(";")]
    return [(stamp, int(p), name, int(address), 1 if name in model.WRITING else 0)
            for stamp, (p, name, address) in enumerate(words)]


def last_cost(models, text):
    """The cycles of the last of some commands, over caches of one line."""
    records = commands(text)
    before = models.run(records[:-1], 2, ONE_LINE)["cycles"] if records[:-1] else 0
    return models.run(records, 2, ONE_LINE)["cycles"] - before


PATTERNS = (
    ("a block from memory", "0 R 0", "13", 13),
    ("a block from another cache", "0 R 0; 1 R 0", "7", 7),
    ("an invalidation of other copies", "0 R 0; 1 R 0; 0 W 0", "2", 2),
    ("a swap-out alone", "0 DW 0; 0 DW 4", "5", 5),
    ("a block from memory, and a swap-out", "0 DW 0; 0 R 4", "13", 18),
    ("a block from another cache, and a swap-out", "0 DW 0; 1 DW 4; 0 R 4", "10", 12))


def pattern_rows(models):
    for what, text, published, wanted in PATTERNS:
        ours = last_cost(models, text)
        if ours != wanted:
            fail("%s costs %d and not %d" % (what, ours, wanted))
        yield what, "`%s`" % text, published, str(ours)


def streamed(models, name, blocks):
    """Cycles of one processor that writes so many blocks, word after word."""
    records = [(stamp, 0, name, stamp, 1) for stamp in range(BLOCK * blocks)]
    return models.run(records, 1, dict(STANDARD, words=8192))["cycles"]


def stream_rows(models):
    lines = STANDARD["columns"] * STANDARD["ways"]
    for what, name, published, wanted in (("W", "W", "13", 18), ("DW", "DW", "5", 5)):
        ours = streamed(models, name, 2 * lines) - streamed(models, name, lines)
        if ours != wanted * lines:
            fail("a stream of %s costs %d cycles for %d blocks" % (what, ours, lines))
        yield "each block of a stream of %s" % what, published, str(ours // lines)


def heap_rows():
    for name, count in HEAP.items():
        ours = "%.1f" % (count / REDUCTIONS)
        if ours != PER_REDUCTION[name]:
            fail("%s per reduction: %s" % (name, ours))
        yield name, "%.1fK" % (count / 1000), PER_REDUCTION[name], "%.3f" % (count / REDUCTIONS)


def full_bus():
    """The bus cycles in the time that the reductions take: cycles of 50 ns, and each of the
    processors doing 200,000 reductions a second."""
    nanoseconds = REDUCTIONS * 10 ** 9 // (200000 * PROCESSORS)
    if nanoseconds * 200000 * PROCESSORS != REDUCTIONS * 10 ** 9 or nanoseconds != 446900 * 50:
        fail("utilisation")
    return nanoseconds // 50


# Drawn rows.

# On a bus that carries two words a cycle the four words of a block take two cycles less.
TWO_WORDS = {"swap_in": 11, "transfer": 5, "swap_out": 3}

# What is run: the commands, whether messages are sent in boxes or in buffers, and costs.
Variant = collections.namedtuple("Variant", "commands boxes costs", defaults=(True, {}))
ALL_SETS = {**HEAP_SET, **GOAL_SET, **CLAIM_SET}
VARIANTS = {
    "buffers": Variant({**HEAP_SET, **GOAL_SET, **BUFFER_SET}, False),
    "plain buffers": Variant(HEAP_SET, False),
    "plain": Variant({}), "heap": Variant(HEAP_SET), "goal": Variant(GOAL_SET),
    "communication": Variant(CLAIM_SET), "all": Variant(ALL_SETS),
    "wide bus": Variant(ALL_SETS, costs=TWO_WORDS)}


def run_variant(models, references, variant):
    """The statistics of the measured part: those of the whole less those of the part before it."""
    warm, measured = references
    records, options = records_of(warm + measured, variant.commands), {**STANDARD, **variant.costs}
    before = models.run(records[:len(warm)], PROCESSORS, options)
    whole = models.run(records, PROCESSORS, options)
    numbers = {name: value - before[name] for name, value in whole.items()}
    numbers["processors"] = PROCESSORS
    numbers["direct"] = sum(name == "DW" and address % BLOCK == 0
                            for _, _, name, address, _ in records[len(warm):])
    return numbers


def run_variants(models):
    drawn = {boxes: draw_references(boxes) for boxes in (False, True)}
    return drawn, {name: run_variant(models, drawn[variant.boxes], variant)
                   for name, variant in VARIANTS.items()}


def mix_rows(measured):
    """The drawn mix beside the published one. A U refers to no word."""
    counts = collections.Counter((area, KIND[use]) for _, area, use, _ in measured if use != "unlock")
    everything = sum(counts.values())
    for area in ("heap", "code", "goal", "suspension", "control", "communication"):
        cells = ["%.1f, %.1f" % (MIX[area, kind] / 10, 100 * counts[area, kind] / everything)
                 if (area, kind) in MIX else "-" for kind in ("write", "read", "lock")]
        yield [area] + cells


def directions(rows):
    """Fails where a drawn row does not go the published way; gives the rows without the test."""
    for *row, holds in rows:
        if not holds:
            fail("not the published direction: " + " | ".join(row))
        yield row


def miss_rows(runs):
    one, plain = runs["buffers"], runs["plain buffers"]
    done = one["hits"] + one["misses"]
    ratio, less = one["misses"] / done, (one["misses"] - one["direct"]) / done
    more = plain["cycles"] / one["cycles"] - 1
    yield "1987", "misses", "7.9 %", "%.1f %%" % (100 * ratio), "over the row below", ratio > less
    yield ("1987", "misses, with DW counted as a hit", "2.7 %", "%.1f %%" % (100 * less),
           "under half of the row above", less < ratio / 2)
    yield ("1987", "cycles without RB and DW for goals and messages", "11 % more",
           "%.0f %% more" % (100 * more), "more", more > 0)


PUBLISHED_SETS = (("heap", "0.55 to 0.65"), ("goal", "0.80 to 1.00"), ("communication", "0.83 to 0.99"),
                  ("all", "0.51 to 0.62"))


def set_rows(runs):
    relative = {name: runs[name]["cycles"] / runs["plain"]["cycles"] for name, _ in PUBLISHED_SETS}
    tests = {"heap": relative["heap"] < min(relative["goal"], relative["communication"]),
             "goal": relative["goal"] < 1, "communication": relative["communication"] < 1,
             "all": relative["all"] < min(relative[name] for name in ("heap", "goal", "communication"))}
    said = {"heap": "under 1, and the least of a single set", "goal": "under 1", "communication": "under 1",
            "all": "under each single set"}
    for name, published in PUBLISHED_SETS:
        yield ("1989", "cycles with the commands: %s" % name, published, "%.2f" % relative[name], said[name],
               tests[name])


def other_rows(runs):
    plain, one = runs["plain"], runs["all"]
    swap_ins = runs["heap"]["from_memory"] / plain["from_memory"]
    invalidations = runs["communication"]["bus.I"] / plain["bus.I"]
    hits, exclusive = [one[name] / total(one, "LR") for name in ("lr_hits", "lr_hits_exclusive")]
    alone = one["releases_unwaited"] / one["releases"]
    yield ("1989", "swap-ins with DW for the heap, of those without", "0.10 to 0.55", "%.2f" % swap_ins,
           "under 1", swap_ins < 1)
    yield ("1989", "invalidations with RI, of those without", "0.30 to 0.40", "%.2f" % invalidations,
           "under 1", invalidations < 1)
    wide = runs["wide bus"]["cycles"] / one["cycles"]
    yield ("1989", "cycles on a bus of two words, of those on a bus of one", "0.62 to 0.75", "%.2f" % wide,
           "under 1", wide < 1)
    yield "1989", "LR that find the block", "0.743 to 0.959", "%.3f" % hits, "over a half", hits > 0.5
    yield ("1989", "LR that find it exclusive", "0.658 to 0.954", "%.3f" % exclusive,
           "over a half, and at most the row above", 0.5 < exclusive <= hits)
    yield ("1989", "U and UW that nobody waits for", "0.976 to 0.999", "%.3f" % alone, "over nine tenths",
           alone > 0.9)


def table(heads, rows):
    lines = ["| %s |" % " | ".join(heads), "|%s" % ("---|" * len(heads))]
    return "\n".join(lines + ["| %s |" % " | ".join(row) for row in rows])


def page(models):
    """The whole page: the text of figures.txt, with the tables in their places."""
    drawn, runs = run_variants(models)
    tables = {
        "PATTERNS": table(("what takes place", "commands", "published", "ours"), pattern_rows(models)),
        "STREAMS": table(("what takes place", "published", "ours"), stream_rows(models)),
        "HEAP": table(("of the heap", "published", "published, a reduction", "ours, a reduction"),
                      heap_rows()),
        "FULL": "{:,}".format(full_bus()), "EACH": "%.1f" % (full_bus() / REDUCTIONS),
        "MIX": table(("area", "writes", "reads", "LR"), mix_rows(drawn[False][1])),
        "DRAWN": table(("published in", "figure", "published", "ours", "direction that is checked"),
                       directions([*miss_rows(runs), *set_rows(runs), *other_rows(runs)])),
        "RECORDS": "{:,}".format(len(drawn[False][1])), "WARM": "{:,}".format(len(drawn[False][0])),
        "REDUCTIONS": "{:,}".format(PROCESSORS * REDUCTIONS_EACH)}
    text = TEXT.read_text(encoding="ascii")
    for name, value in tables.items():
        text = text.replace("{%s}" % name, value)
    return text


def arguments():
    parser = argparse.ArgumentParser(description=__doc__, formatter_class=argparse.RawTextHelpFormatter)
    parser.add_argument("--check", action="store_true")
    which = parser.add_mutually_exclusive_group()
    which.add_argument("--pim", type=pathlib.Path, default=ROOT / "crates" / "pim" / "out" / "pim")
    which.add_argument("--without-pim", action="store_true")
    return parser


def main():
    options = arguments().parse_args()
    binary = None if options.without_pim else options.pim.resolve()
    if binary and not binary.is_file():
        fail("%s is not there; `rt run` in its crate makes it" % binary)
    with tempfile.TemporaryDirectory() as folder:
        text = page(Models(binary, folder))
    if not options.check:
        PAGE.write_text(text, encoding="ascii")
    elif not PAGE.is_file() or PAGE.read_text(encoding="ascii") != text:
        print("docs/FIGURES.md is not up to date")
        return 1
    return 0


if __name__ == "__main__":
    sys.exit(main())
