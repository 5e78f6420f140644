#!/usr/bin/env python3
"""A second model of the cluster, written from docs/ and apart from the crates.

    python3 tests/model.py list [OPTIONS] [TRACE]
    python3 tests/model.py run [--json | --csv] [OPTIONS] [TRACE]
    python3 tests/model.py census [OPTIONS] [TRACE]
    python3 tests/model.py recipe --start N --draws N --words N --processors N

prints the bytes that `pim` must print for that trace (standard input without a file). `run`
prints JSON unless asked for CSV. The options are those of `pim`: --columns, --ways,
--lock-entries, --swap-in, --transfer, --invalidation, --swap-out, --lock-signal, --words and
--dead B,B,.. . A refused trace, or measures, words or dead blocks that are refused, print one
line on standard error and end with status 3. `listing` and `census` give the bytes of the
listing program and the census program. `recipe` takes four options of its own and no trace.

Nothing here is shared with the crates, so a mistake has to be made twice, in two different
ways, before both agree on a wrong output.
"""
import argparse
import collections
import json
import struct
import sys

INPUT_LIMIT = 65536  # bytes that the listing program and the census program take
BLOCK = 4            # words in a block
RECORDS_LIMIT = 1048576
WORDS_LIMIT = 4194304
DEAD_LIMIT = 16

COMMANDS = ("R", "W", "DW", "RI", "RP", "RB", "LR", "UW", "U")
WRITING = ("W", "DW", "UW")
ANSWERING = ("R", "RI", "RP", "RB", "LR")
RELEASING = ("UW", "U")
STATES = ("EM", "EC", "SM", "S", "I")
MODIFIED = ("EM", "SM")

# What a command sends and the state it leaves, by the state found. The last
# part of a cell is the state left; A/B means A after a supply by a cache and B
# after one by memory. MC is a machine check.
TABLE = """
     EM   EC   SM       S        I
R    EM   EC   SM       S        F,S/EC
W    EM   EM   I,EM     I,EM     FI,EM
DW   MC   MC   MC       MC       EM
RI   EM   EC   MC       MC       FI,EM/EC
RP   I    I    MC       MC       FI,I
LR   EM   EC   LK,I,EM  LK,I,EM  LK,FI,EM/EC
UW   EM   EM   MC       MC       FI,EM
U    EM   EC   MC       MC       I
"""

Measures = collections.namedtuple(
    "Measures", "processors columns ways lock_entries swap_in transfer invalidation swap_out lock_signal",
    defaults=(16, 4, 2, 13, 7, 2, 5, 2))
COSTS = Measures._fields[4:]
WORDS = 1024

# What a cell sends (a bus command or nothing, LK or not), and the state left after a supply
# by a cache and after one by memory.
Cell = collections.namedtuple("Cell", "bus lk after_cache after_memory")

# What a step shows. `events` is what a done command did on the bus.
Answer = collections.namedtuple("Answer", "name word found left cycles events")
Events = collections.namedtuple("Events", "bus lk ul supplier swapped")


def cell(text):
    *sent, left = text.split(",")
    if left == "MC":
        return None
    bus = [signal for signal in sent if signal != "LK"]
    states = left.split("/")
    return Cell(bus[0] if bus else None, "LK" in sent, states[0], states[-1])


def cells():
    head, *rows = [line.split() for line in TABLE.strip().splitlines()]
    return {row[0]: {state: cell(text) for state, text in zip(head, row[1:])} for row in rows}


CELLS = cells()
SILENT = Events(None, False, False, None, False)


def refused(number):
    """The answer of a refused command."""
    return Answer("%02d" % number, 0, "--", "--", 0, SILENT)


REFUSED = {number: refused(number) for number in range(3, 12)}


class Refused(Exception):
    """Carries what refuses and its number, as `TRACE 12` or `TRACE 13 0000003`."""


def lawful(measures):
    """Whether a geometry has these measures."""
    processors, columns, ways, lock_entries, *costs = measures
    return (1 <= processors <= 8 and 1 <= columns <= 256 and columns & (columns - 1) == 0
            and 1 <= ways <= 4 and 1 <= lock_entries <= 4 and all(0 <= cost <= 1000 for cost in costs))


def fit(words):
    """Whether a memory has so many words. An unfit one has no blocks."""
    return words % BLOCK == 0 and words <= WORDS_LIMIT


class Line:
    __slots__ = ("state", "block", "words", "way")

    def __init__(self, state, block, words, way):
        self.state, self.block, self.words, self.way = state, block, words, way


class Lock:
    __slots__ = ("owner", "address", "awaited")

    def __init__(self, owner, address):
        self.owner, self.address, self.awaited = owner, address, False


class Cluster:
    """Caches, locks and memory. What is invalid, empty or 0 in memory is not stored.

    A cache has at most one line of a block, in the block's own column. So it is a dictionary by
    block; the windows beside it tell which way a line stands in.
    """

    def __init__(self, measures, words=WORDS, dead=()):
        self.measures, self.dead = measures, frozenset(dead)
        self.blocks = words // BLOCK if fit(words) else 0
        self.processors = range(measures.processors)
        self.memory = {}
        self.caches = [{} for _ in self.processors]
        self.others = [[(q, self.caches[q]) for q in self.processors if q != p]
                       for p in self.processors]
        self.windows = [[[None] * measures.ways for _ in range(measures.columns)]
                        for _ in self.processors]
        self.turns = [0] * measures.processors
        self.waits = [None] * measures.processors
        self.locks = [{} for _ in self.processors]       # by address
        self.locked = collections.defaultdict(list)      # all locks, by block

    # Questions.

    def copy_elsewhere(self, p, block):
        """The line of the lowest other processor that has the block."""
        for _, cache in self.others[p]:
            if block in cache:
                return cache[block]
        return None

    def foreign_locks(self, p, block):
        if block not in self.locked:
            return []
        return [lock for lock in self.locked[block] if lock.owner != p]

    def row_of(self, p, command, block, place, own):
        """The row of the table that a command follows."""
        if command == "DW" and place != 0:
            return "W"
        if command == "RB":
            if place == BLOCK - 1:
                return "RP"
            return "RI" if own is None and self.copy_elsewhere(p, block) else "R"
        return command

    def early_refusal(self, p, command, address):
        """The refusals that do not ask the caches, in their order."""
        if p not in self.processors:
            return 3
        if address >= self.blocks * BLOCK:
            return 4
        if self.waits[p] is not None:
            return 5
        if command == "LR":
            if address in self.locks[p]:
                return 6
            if len(self.locks[p]) == self.measures.lock_entries:
                return 7
        elif command in RELEASING and address not in self.locks[p]:
            return 8
        return None

    # One command.

    def issue(self, p, command, address, data):
        """The answer to a command."""
        number = self.early_refusal(p, command, address)
        if number:
            return REFUSED[number]
        block, place = divmod(address, BLOCK)
        own = self.caches[p].get(block)
        row = self.row_of(p, command, block, place, own)
        if row == "DW" and own is None and (self.copy_elsewhere(p, block)
                                            or self.foreign_locks(p, block)):
            return REFUSED[9]
        found = own.state if own else "I"
        effect = CELLS[row][found]
        if effect is None:
            return REFUSED[10]
        if effect.bus in ("F", "FI") or effect.lk:
            locks = self.foreign_locks(p, block)
            if locks:
                return self.wait(p, block, found, locks)
        if own is None and row != "U":
            return self.miss(p, command, block, place, data, effect)
        return self.hit(p, command, block, place, data, own, effect)

    def wait(self, p, block, found, locks):
        for lock in locks:
            lock.awaited = True
        self.waits[p] = block
        return Answer("WT", 0, found, found, self.measures.lock_signal, SILENT)

    def hit(self, p, command, block, place, data, own, effect):
        """A command that takes no way: the line found changes, if there is one."""
        if effect.bus:
            self.snoop(p, block, effect.bus)
        found, left, word = "I", effect.after_memory, 0
        if own:
            found = own.state
            if command in ANSWERING:
                word = own.words[place]
            elif command in WRITING:
                own.words[place] = data
            if left == "I":
                self.drop(p, own)
            else:
                own.state = left
        return self.done(p, command, block, place, word, found, left, effect, None, False)

    def miss(self, p, command, block, place, data, effect):
        """A command that takes a way. Refused before anything changes, or done."""
        supplier, words = None, [0] * BLOCK
        if effect.bus:
            copy = self.copy_elsewhere(p, block)
            if copy:
                supplier, words = "cache", list(copy.words)
            elif block in self.dead:
                return REFUSED[11]
            else:
                supplier, words = "memory", list(self.memory.get(block, words))
        way, by_turn = self.way_for(p, block)
        victim = self.windows[p][block % self.measures.columns][way]
        swapped = victim is not None and victim.state in MODIFIED
        if swapped:
            if victim.block in self.dead:
                return REFUSED[11]
            self.memory[victim.block] = victim.words
        if victim:
            self.drop(p, victim)
        if by_turn:
            self.turns[p] = (way + 1) % self.measures.ways
        if effect.bus:
            self.snoop(p, block, effect.bus)
        word = words[place] if command in ANSWERING else 0
        if command in WRITING:
            words[place] = data
        left = effect.after_cache if supplier == "cache" else effect.after_memory
        if left != "I":
            self.put(p, Line(left, block, words, way))
        return self.done(p, command, block, place, word, "I", left, effect, supplier, swapped)

    def way_for(self, p, block):
        """The way to take, and whether the turn named it."""
        window = self.windows[p][block % self.measures.columns]
        if None in window:
            return window.index(None), False
        return self.turns[p], True

    def done(self, p, command, block, place, word, found, left, effect, supplier, swapped):
        """Settles the lock, and adds up what took place."""
        ul = False
        if command == "LR":
            self.take_lock(p, block, block * BLOCK + place)
        elif command in RELEASING:
            ul = self.release(p, block, block * BLOCK + place)
        costs, cycles = self.measures, 0
        if swapped:
            cycles += costs.swap_out
        if supplier:
            cycles += costs.transfer if supplier == "cache" else costs.swap_in
        if effect.bus == "I":
            cycles += costs.invalidation
        if ul:
            cycles += costs.lock_signal
        return Answer("OK", word, found, left, cycles,
                      Events(effect.bus, effect.lk, ul, supplier, swapped))

    def put(self, p, line):
        self.caches[p][line.block] = line
        self.windows[p][line.block % self.measures.columns][line.way] = line

    def drop(self, p, line):
        del self.caches[p][line.block]
        self.windows[p][line.block % self.measures.columns][line.way] = None

    def snoop(self, p, block, bus):
        """What the other caches make of a bus command."""
        for q, cache in self.others[p]:
            line = cache.get(block)
            if line is None:
                continue
            if bus == "F":
                line.state = {"EM": "SM", "EC": "S"}.get(line.state, line.state)
            else:
                self.drop(q, line)

    def take_lock(self, p, block, address):
        lock = Lock(p, address)
        self.locks[p][address] = lock
        self.locked[block].append(lock)

    def release(self, p, block, address):
        """Empties the entry; whether UL went out and woke those who wait."""
        lock = self.locks[p].pop(address)
        self.locked[block].remove(lock)
        if not self.locked[block]:
            del self.locked[block]
        if lock.awaited:
            self.waits = [None if awaited == block else awaited for awaited in self.waits]
        return lock.awaited

    # The whole line table.

    def states_of(self, p):
        """How many lines of a processor are in each state."""
        counts = collections.Counter(line.state for line in self.caches[p].values())
        counts["I"] = self.measures.columns * self.measures.ways - len(self.caches[p])
        return counts

    def drain(self):
        """Writes all modified lines back and drops all lines. How many were written, or None
        where memory refused one; then that line and the later ones stay."""
        written = 0
        for p in self.processors:
            for line in [line for window in self.windows[p] for line in window if line]:
                if line.state in MODIFIED:
                    if line.block in self.dead:
                        return None
                    self.memory[line.block] = line.words
                    written += 1
                self.drop(p, line)
        return written


def read_trace(data, limit=None):
    """The trailer's processors and the records (p, command, address, data)."""
    if len(data) < 8 or limit is not None and len(data) > limit:
        raise Refused("TRACE 12")
    size, version, processors, zero = struct.unpack("<IBBH", data[-8:])
    if size % 16 or size > 16 * RECORDS_LIMIT or size > len(data) - 8 or version != 1 \
            or not 1 <= processors <= 8 or zero:
        raise Refused("TRACE 12")
    area = memoryview(data)[len(data) - 8 - size:len(data) - 8]
    records, last_stamp = [], 0
    for index, fields in enumerate(struct.iter_unpack("<IBBHII", area)):
        stamp, p, code, zero, address, word = fields
        if stamp < last_stamp or p >= processors or code >= len(COMMANDS) or zero \
                or (word and COMMANDS[code] not in WRITING):
            raise Refused("TRACE 13 %07d" % index)
        last_stamp = stamp
        records.append((p, COMMANDS[code], address, word))
    return processors, records


def drawn_records(start, draws, words, processors):
    """The records of a recipe, as (stamp, processor, command, address, data)."""
    x = start
    for number in range(1, draws + 1):
        x = (1664525 * x + 1013904223) % 2**32
        kind, processor, address = x >> 29, (x >> 24 & 31) % processors, (x & 0xFFFFFF) % words
        commands = ("R",) * 5 + ("W",) * 2 + ("LR UW",)
        for command in commands[kind].split():
            yield number, processor, command, address, number if command in WRITING else 0


def recipe(start, draws, words, processors):
    """The bytes of a recipe's trace."""
    if not (1 <= draws <= 2000 and 1 <= words <= WORDS_LIMIT and 1 <= processors <= 8):
        raise Refused("RECIPE 15")
    body = b"".join(struct.pack("<IBBHII", stamp, processor, COMMANDS.index(command), 0, address, data)
                    for stamp, processor, command, address, data
                    in drawn_records(start, draws, words, processors))
    return body + struct.pack("<IBBH", len(body), 1, processors, 0)


def make_cluster(measures, words=WORDS, dead=()):
    """A new cluster and its memory, or what refuses it."""
    if not lawful(measures):
        raise Refused("CLUSTER 01")
    if not fit(words):
        raise Refused("WORDS 02")
    if len(dead) > DEAD_LIMIT:
        raise Refused("DEAD 01")
    return Cluster(measures, words, dead)


class Run:
    """A good trace over a cluster, step by step, and a tally of the steps so far."""

    def __init__(self, cluster, records):
        self.cluster, self.records = cluster, records
        # For each processor the indices of its unfinished records, first one first.
        self.queues = [collections.deque() for _ in cluster.processors]
        for index, record in enumerate(records):
            self.queues[record[0]].append(index)
        self.count, self.cycles = 0, 0
        self.tally = collections.Counter()

    def due(self):
        """The earliest of the first unfinished records of those who do not wait."""
        waits = self.cluster.waits
        return min([queue[0] for queue, awaited in zip(self.queues, waits)
                    if queue and awaited is None], default=None)

    def steps(self):
        """Takes all steps. Gives processor, command, address and answer of each."""
        issue, tally = self.cluster.issue, self.tally
        index = self.due()
        while index is not None:
            p, command, address, data = self.records[index]
            answer = issue(p, command, address, data)
            name, _, found, _, cycles, events = answer
            if name != "WT":
                self.queues[p].popleft()
            self.count += 1
            self.cycles += cycles
            tally[p, command, name, found, events] += 1
            yield p, command, address, answer
            index = self.due()

    def left(self):
        return sum(map(len, self.queues))


def listing_lines(run):
    """Takes all steps of the run. The lines of its listing."""
    for number, (p, command, address, answer) in enumerate(run.steps(), 1):
        name, word, found, left, cycles, _ = answer
        yield "%07d %d %-2s %08X %s %08X %-2s %-2s %04d\n" % (
            number, p, command, address, name, word, found, left, cycles)
    yield "TOTAL %012d\n" % run.cycles
    if run.left():
        yield "STUCK %07d\n" % run.left()


def listing_of(run):
    return "".join(listing_lines(run)).encode("ascii")


def finish(run):
    """Takes all steps of the run that are left to take."""
    collections.deque(run.steps(), maxlen=0)
    return run


def named_numbers(processors):
    """All names of the statistics, in order, each with 0."""
    names = ["processors", "steps", "cycles", "left"]
    names += ["%s.%d.%s" % (kind, p, command) for p in range(processors) for command in COMMANDS
              for kind in ("done", "waiting", "refused")]
    names += ["hits", "misses", "from_cache", "from_memory", "swap_outs"]
    names += ["bus." + signal for signal in ("F", "FI", "I", "LK", "UL")]
    names += ["cycles." + cause for cause in
              ("swap_in", "transfer", "swap_out", "invalidation", "lock_signal")]
    names += ["lr_hits", "lr_hits_exclusive", "releases", "releases_unwaited"]
    names += ["refusals.%02d" % number for number in range(3, 12)]
    names += ["lines." + state for state in STATES]
    names += ["copies.%d" % copies for copies in range(9)]
    return dict.fromkeys(names, 0)


def count_done(numbers, command, found, events, n):
    """Adds n done steps of one kind to the statistics."""
    numbers["hits" if found != "I" else "misses"] += n
    if events.supplier:
        numbers["from_" + events.supplier] += n
    if events.swapped:
        numbers["swap_outs"] += n
    if events.bus:
        numbers["bus." + events.bus] += n
    numbers["bus.LK"] += n * events.lk
    numbers["bus.UL"] += n * events.ul
    if command == "LR":
        numbers["lr_hits"] += n * (found != "I")
        numbers["lr_hits_exclusive"] += n * (found in ("EM", "EC"))
    if command in RELEASING:
        numbers["releases"] += n
        numbers["releases_unwaited"] += n * (not events.ul)


def count_steps(numbers, run):
    """Adds all steps of a run to the statistics."""
    for (p, command, name, found, events), n in run.tally.items():
        kind = {"OK": "done", "WT": "waiting"}.get(name, "refused")
        numbers["%s.%d.%s" % (kind, p, command)] += n
        if kind == "done":
            count_done(numbers, command, found, events, n)
        elif kind == "refused":
            numbers["refusals." + name] += n


def count_cycles(numbers, run):
    """Cycles by cause. They must add up to the cycles of the steps."""
    costs = run.cluster.measures
    waiting = sum(n for (_, _, name, _, _), n in run.tally.items() if name == "WT")
    numbers["cycles.swap_in"] = numbers["from_memory"] * costs.swap_in
    numbers["cycles.transfer"] = numbers["from_cache"] * costs.transfer
    numbers["cycles.swap_out"] = numbers["swap_outs"] * costs.swap_out
    numbers["cycles.invalidation"] = numbers["bus.I"] * costs.invalidation
    numbers["cycles.lock_signal"] = (numbers["bus.UL"] + waiting) * costs.lock_signal
    assert run.cycles == sum(numbers["cycles." + cause] for cause in COSTS)


def statistics(run):
    """The statistics of a run that took all its steps, by name and in order."""
    cluster = run.cluster
    numbers = named_numbers(cluster.measures.processors)
    numbers.update(processors=cluster.measures.processors, steps=run.count, cycles=run.cycles,
                   left=run.left())
    count_steps(numbers, run)
    count_cycles(numbers, run)
    for p in cluster.processors:
        for state, n in cluster.states_of(p).items():
            numbers["lines." + state] += n
    copies = collections.Counter(block for cache in cluster.caches for block in cache)
    for n in copies.values():
        numbers["copies.%d" % n] += 1
    numbers["copies.0"] = cluster.blocks - len(copies)
    return numbers


def as_json(numbers):
    text = json.dumps(numbers, sort_keys=True, separators=(",", ":"))
    return (text + "\n").encode("ascii")


def as_csv(numbers):
    rows = ["name,value"] + ["%s,%d" % pair for pair in numbers.items()]
    return "".join(row + "\n" for row in rows).encode("ascii")


def census_of(run):
    """The census of a run that took all its steps, and the drain behind it."""
    cluster, lines, modified = run.cluster, ["P EM   EC   SM   S    I"], 0
    for p in cluster.processors:
        counts = cluster.states_of(p)
        lines.append("%d %s" % (p, " ".join("%04d" % counts[state] for state in STATES)))
        modified += sum(counts[state] for state in MODIFIED)
    lines.append("MODIFIED %04d" % modified)
    written = cluster.drain()
    if written is None:
        lines.append("DRAINED 11")
    else:
        lines.append("DRAINED %04d %012d" % (written, written * cluster.measures.swap_out))
    return "".join(line + "\n" for line in lines).encode("ascii")


# The listing program and the census program.


def standard_run(data):
    """The run of an input of these programs, or what refuses it."""
    processors, records = read_trace(data, INPUT_LIMIT)
    return Run(make_cluster(Measures(processors)), records)


def listing(data):
    """What the listing program prints for an input."""
    try:
        return listing_of(standard_run(data))
    except Refused as bad:
        return ("%s\n" % bad).encode("ascii")


def census(data):
    """What the census program prints for an input."""
    try:
        return census_of(finish(standard_run(data)))
    except Refused as bad:
        return ("%s\n" % bad).encode("ascii")


# The program pim.


def pim_run(data, options):
    """The run of a trace with pim's cluster options, a dictionary, or what refuses it."""
    processors, records = read_trace(data)
    options = dict(options)
    words, dead = options.pop("words", WORDS), options.pop("dead", ())
    return Run(make_cluster(Measures(processors, **options), words, dead), records)


def arguments():
    parser = argparse.ArgumentParser(description=__doc__, formatter_class=argparse.RawTextHelpFormatter)
    parser.add_argument("command", choices=("list", "run", "census", "recipe"))
    parser.add_argument("trace", nargs="?")
    shape = parser.add_mutually_exclusive_group()
    shape.add_argument("--json", action="store_true")
    shape.add_argument("--csv", action="store_true")
    for name in Measures._fields[1:] + ("words",):
        parser.add_argument("--" + name.replace("_", "-"), type=int, default=argparse.SUPPRESS)
    for name in ("start", "draws", "processors"):
        parser.add_argument("--" + name, type=int, default=argparse.SUPPRESS)
    parser.add_argument("--dead", type=lambda text: [int(block) for block in text.split(",")],
                        default=argparse.SUPPRESS)
    return parser


def read_input(trace):
    """The bytes of the file with a name, or of standard input."""
    if trace is None:
        return sys.stdin.buffer.read()
    with open(trace, "rb") as source:
        return source.read()


def main():
    options = vars(arguments().parse_intermixed_args())
    command, trace = options.pop("command"), options.pop("trace")
    options.pop("json")
    shape = as_csv if options.pop("csv") else as_json
    try:
        if command == "recipe":
            sys.stdout.buffer.write(recipe(**options))
            return 0
        run = pim_run(read_input(trace), options)
    except Refused as bad:
        print("pim: %s: refused" % bad, file=sys.stderr)
        return 3
    if command == "list":
        for line in listing_lines(run):
            sys.stdout.write(line)
    elif command == "run":
        sys.stdout.buffer.write(shape(statistics(finish(run))))
    else:
        sys.stdout.buffer.write(census_of(finish(run)))
    return 0


if __name__ == "__main__":
    sys.exit(main())
