#!/usr/bin/env python3
"""Makes crates/test_cases/stdin and crates/test_cases/stdout from crates/test_cases/cases.txt.

    python3 tests/make_cases.py           write both files
    python3 tests/make_cases.py --check   exit 1 if they are not up to date
    python3 tests/make_cases.py --model   compare every case with tests/model.py

stdin holds, for each case, a byte with the length of its name, the name, a 4-byte
little-endian length and the trace's bytes;
stdout holds, for each case, a line "== NAME" and the expected listing. The head
of cases.txt tells its form.
"""
import pathlib
import re
import struct
import sys

sys.dont_write_bytecode = True
import model

CASES = pathlib.Path(__file__).resolve().parent.parent / "crates" / "test_cases"
NAME = re.compile(r"[a-z0-9]+(-[a-z0-9]+)*")


class Case:
    def __init__(self, name):
        self.name = name
        self.processors, self.note, self.whole = 2, b"", None
        self.records, self.patches, self.trailer_patches = [], [], []
        self.expected = []

    def trace(self):
        """The bytes of the trace."""
        if self.whole is not None:
            return self.whole
        area = bytearray(b"".join(self.records))
        trailer = bytearray(struct.pack("<IBBH", len(area), 1, self.processors, 0))
        for target, patches in ((area, self.patches), (trailer, self.trailer_patches)):
            for offset, new in patches:
                if offset + len(new) > len(target):
                    raise ValueError("%s: a patch lies outside" % self.name)
                target[offset:offset + len(new)] = new
        return self.note + bytes(area) + bytes(trailer)

    def listing(self):
        return "".join(line + "\n" for line in self.expected).encode("ascii")

    def take(self, line):
        """Takes one line of the part before `gives`."""
        word, *rest = line.split()
        if word == "processors":
            self.processors = int(rest[0])
        elif word == "note":
            self.note = bytes.fromhex(rest[0])
        elif word == "note-repeat":
            self.note = bytes.fromhex(rest[0]) * int(rest[1])
        elif word == "bytes":
            self.whole = bytes.fromhex("".join(rest))
        elif word == "repeat":
            self.whole = bytes.fromhex(rest[0]) * int(rest[1])
        elif word == "patch":
            self.patches.append((int(rest[0]), bytes.fromhex(rest[1])))
        elif word == "trailer":
            self.trailer_patches.append((int(rest[0]), bytes.fromhex(rest[1])))
        else:
            self.records.append(self.record(line.split()))

    def record(self, words):
        stamp = len(self.records) + 1
        if words[0].startswith("@"):
            stamp = int(words.pop(0)[1:])
        processor, command, address, *data = words
        if len(data) > 1:
            raise ValueError("too many words")
        return struct.pack("<IBBHII", stamp, int(processor), model.COMMANDS.index(command),
                           0, int(address, 16), int(data[0], 16) if data else 0)


def read_cases(text, kind=Case, source="cases.txt"):
    """All cases of the file, in order."""
    cases, case, giving = [], None, False
    for number, line in enumerate(text.splitlines(), 1):
        try:
            if not line:
                if case and not giving:
                    raise ValueError("the case ends without `gives`")
                case, giving = None, False
            elif giving:
                case.expected.append(line)
            elif line.startswith("#"):
                continue
            elif line.startswith("case "):
                name = line[len("case "):]
                if case or not NAME.fullmatch(name) or name in [c.name for c in cases]:
                    raise ValueError("bad or repeated name, or no empty line before")
                case = kind(name)
                cases.append(case)
            elif line == "gives":
                giving = True
            else:
                case.take(line)
        except (ValueError, IndexError, AttributeError, struct.error) as fault:
            sys.exit("%s:%d: %s: %s" % (source, number, line, fault))
    return cases


def files(cases):
    """What the two files must hold, by name."""
    traces = b"".join(bytes([len(c.name)]) + c.name.encode("ascii")
                      + struct.pack("<I", len(c.trace())) + c.trace() for c in cases)
    listings = b"".join(b"== " + c.name.encode("ascii") + b"\n" + c.listing() for c in cases)
    return {"stdin": traces, "stdout": listings}


def differs_from_model(case):
    """Prints both listings if they differ."""
    found = model.listing(case.trace())
    if found == case.listing():
        return False
    print("== %s\n-- by hand\n%s-- model\n%s" % (
        case.name, case.listing().decode(), found.decode()))
    return True


def write_or_check(folder, wanted, count, option, usage):
    """Writes the files, or under --check tells which are not up to date."""
    if option == ["--check"]:
        stale = [name for name, data in wanted.items()
                 if not (folder / name).is_file() or (folder / name).read_bytes() != data]
        for name in stale:
            print("crates/%s/%s is not up to date" % (folder.name, name))
        sys.exit(1 if stale else 0)
    if option:
        sys.exit(usage)
    for name, data in wanted.items():
        (folder / name).write_bytes(data)
    print("%d cases written" % count)


def main():
    cases = read_cases((CASES / "cases.txt").read_text(encoding="ascii"))
    option = sys.argv[1:]
    if option == ["--model"]:
        wrong = sum(differs_from_model(case) for case in cases)
        print("%d cases, %d differ from the model" % (len(cases), wrong))
        sys.exit(1 if wrong else 0)
    write_or_check(CASES, files(cases), len(cases), option, __doc__)


if __name__ == "__main__":
    main()
