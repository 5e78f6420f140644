#!/usr/bin/env python3
"""Makes crates/test_steps/stdin and crates/test_steps/stdout from crates/test_steps/steps.txt.

    python3 tests/make_steps.py           write both files
    python3 tests/make_steps.py --check   exit 1 if they are not up to date
    python3 tests/make_steps.py --model   compare every case with tests/model.py, but for who
                                          supplied a block, whose lock a WAIT met and which
                                          block was swapped out or refused: the model does not
                                          tell. A case with `lend` is left out

stdin holds, for each case: a byte with the length of its name, the name, then
processors (1 byte), columns (2), ways (1), lock entries (1) and words of memory (2),
a byte with the number of dead blocks and 2 bytes for each, a byte with the number of
steps and the steps, 16 bytes each: a command as a record of a trace, another call with
one of the letters N, H and L in place of the command's code. stdout holds, for each case, a line "== NAME" and
the expected lines. The head of steps.txt tells its form.
"""
import pathlib
import struct
import sys

sys.dont_write_bytecode = True
import make_cases
import model

OTHERS = {"new": b"N", "holder": b"H", "lend": b"L"}
STEPS = pathlib.Path(__file__).resolve().parent.parent / "crates" / "test_steps"


class Case(make_cases.Case):
    """A case whose steps are played on a cluster of its own geometry."""

    def __init__(self, name):
        super().__init__(name)
        self.geometry, self.dead = None, []

    def take(self, line):
        """Takes one line of the part before `gives`."""
        word, *rest = line.split()
        if word == "geometry":
            self.geometry = struct.pack("<BHBBH", *map(int, rest))
        elif word == "dead":
            self.dead = [struct.pack("<H", int(block)) for block in rest]
        elif word in OTHERS:
            self.records.append(other(word, *rest))
        else:
            self.records.append(self.record(line.split()))

    def data(self):
        if self.geometry is None:
            sys.exit("steps.txt: %s has no geometry" % self.name)
        return (counted(1, self.name.encode("ascii")) + self.geometry
                + counted(2, b"".join(self.dead)) + counted(16, b"".join(self.records)))


def other(word, first="0", second="0"):
    """A step that is no command: for `holder` an address, for `lend` two numbers."""
    base = 16 if word == "holder" else 10
    return struct.pack("<4xxcxxII", OTHERS[word], int(first, base), int(second, base))


def counted(width, items):
    """The items, behind a byte with their number."""
    return bytes([len(items) // width]) + items


def files(cases):
    """What the two files must hold, by name."""
    return {"stdin": b"".join(case.data() for case in cases),
            "stdout": b"".join(b"== " + case.name.encode("ascii") + b"\n" + case.listing()
                               for case in cases)}


def told(line):
    """What an expected line tells that the model tells too, as a list of words."""
    words = line.split()
    if words[0] in ("states", "locks"):
        return words[:1] + sorted(words[1:])
    if words[0] in OTHERS:
        return words
    if words[3] == "OK":
        supplier, swapped = words[10:12]
        words[10] = supplier if supplier in ("M", "--") else "C"
        words[11] = "no" if swapped == "--------" else "yes"
    elif words[3] == "WT":
        del words[4]
    else:
        del words[4:]
    return words


def answered(p, command, address, answer):
    """The words of the model's answer."""
    name, word, found, left, cycles, events = answer
    words = [str(p), command, "%08X" % address, name]
    if name == "OK":
        supplier = {"memory": "M", "cache": "C", None: "--"}[events.supplier]
        words += ["%08X" % word, found, left, events.bus or "--", str(int(events.lk)), str(int(events.ul)),
                  supplier, "yes" if events.swapped else "no", "%04d" % cycles]
    elif name == "WT":
        words += [found, "%04d" % cycles]
    return words


def called(cluster, letter, address):
    """What the model tells of a call that is no command."""
    if letter == OTHERS["holder"]:
        holders = [p for p, locks in enumerate(cluster.locks) if address in locks]
        return ["holder", "%08X" % address, "P%d" % holders[0] if holders else "--"]
    memory = cluster.memory
    cluster.__init__(cluster.measures, cluster.blocks * model.BLOCK, cluster.dead)
    cluster.memory = memory
    return ["new", "OK"]


def played(case):
    """What the model tells of a case."""
    processors, columns, ways, entries, words = struct.unpack("<BHBBH", case.geometry)
    dead = [block for block, in map(struct.Struct("<H").unpack, case.dead)]
    measures = model.Measures(processors, columns, ways, entries)
    if not model.lawful(measures):
        yield []
        return
    cluster = model.Cluster(measures, words, dead)
    for record in case.records:
        _, p, code, _, address, data = struct.unpack("<IBBHII", record)
        if record[5:6] in OTHERS.values():
            yield called(cluster, record[5:6], address)
        else:
            command = model.COMMANDS[code]
            yield answered(p, command, address, cluster.issue(p, command, address, data))
    yield ["states"] + sorted("%d:%04d=%s" % (p, line.block, line.state)
                              for p, cache in enumerate(cluster.caches) for line in cache.values())
    yield ["locks"] + sorted("%d:%08X=%s" % (p, lock.address, "LW" if lock.awaited else "L")
                             for p, locks in enumerate(cluster.locks) for lock in locks.values())


def differs_from_model(case):
    """Prints the first line that differs."""
    wanted, found = [told(line) for line in case.expected], list(played(case))
    for at in range(max(len(wanted), len(found))):
        here = [lines[at] if at < len(lines) else [] for lines in (wanted, found)]
        if here[0] != here[1]:
            print("== %s, line %d\n-- by hand %s\n-- model   %s" % (
                case.name, at + 1, " ".join(here[0]), " ".join(here[1])))
            return True
    return False


def main():
    cases = make_cases.read_cases((STEPS / "steps.txt").read_text(encoding="ascii"),
                                  Case, "steps.txt")
    if sys.argv[1:] == ["--model"]:
        asked = [case for case in cases
                 if all(record[5:6] != OTHERS["lend"] for record in case.records)]
        wrong = sum(map(differs_from_model, asked))
        print("%d cases, %d differ from the model" % (len(asked), wrong))
        sys.exit(1 if wrong else 0)
    make_cases.write_or_check(STEPS, files(cases), len(cases), sys.argv[1:], __doc__)


if __name__ == "__main__":
    main()
