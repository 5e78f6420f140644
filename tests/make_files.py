#!/usr/bin/env python3
"""Makes crates/test_files/stdin and crates/test_files/stdout from crates/test_files/files.txt.

    python3 tests/make_files.py           write both files
    python3 tests/make_files.py --check   exit 1 if they are not up to date

stdin holds, for each case: a byte with the length of its name, the name, then 8 bytes:
R, W, C or A for read, write, copy or all, the processors (1 byte), the room of the
output (2), how much of it is lent to close (2) and the length of the bytes that follow
(2). These are the trace, or the records to put, 15 bytes each: stamp (4), processor (1), name of the
command (2), address (4) and data (4). All numbers are little-endian. stdout holds, for
each case, a line "== NAME" and the expected lines. The head of files.txt tells its form.
"""
import pathlib
import struct
import sys

sys.dont_write_bytecode = True
import make_cases
import make_steps
import model

FILES = pathlib.Path(__file__).resolve().parent.parent / "crates" / "test_files"
WRITING = ("write", "all")


class Case(make_cases.Case):
    """A trace that is read, written, copied or written in one call."""

    known = {}

    def __init__(self, name):
        super().__init__(name)
        self.known[name] = self
        self.kind, self.room, self.lent = None, 0, None
        self.input = bytearray()

    def take(self, line):
        """Takes one line of the part before `gives`."""
        word, *rest = line.split()
        if word in ("read", "copy", "write", "all"):
            self.ask(word, *map(int, rest))
        elif self.kind in WRITING:
            self.take_written(word, rest)
        else:
            self.take_bytes(word, rest)

    def ask(self, kind, room=0, processors=0):
        if self.kind:
            raise ValueError("asked for twice")
        self.kind, self.room, self.processors = kind, room, processors
        self.lent = room

    def take_written(self, word, rest):
        if word == "put":
            self.records.append(self.record(rest))
        elif word == "close" and self.kind == "write" and int(rest[0]) <= self.room:
            self.lent = int(rest[0])
        else:
            raise ValueError("no line of a written trace")

    def take_bytes(self, word, rest):
        if word == "like":
            if rest[0] not in self.known:
                raise ValueError("no such case")
            self.input += self.known[rest[0]].input
        elif word == "patch":
            offset, new = int(rest[0]), bytes.fromhex(rest[1])
            if offset + len(new) > len(self.input):
                raise ValueError("the patch lies outside")
            self.input[offset:offset + len(new)] = new
        else:
            self.input += bytes.fromhex(word + "".join(rest))

    def record(self, words):
        """A record to put; its command goes by name, not by code."""
        stamp, processor, command, address, *data = words
        if command not in model.COMMANDS or len(data) != (command in model.WRITING):
            raise ValueError("no such command, or data where there is none")
        return struct.pack("<IB2sII", int(stamp, 16), int(processor),
                           command.ljust(2).encode("ascii"), int(address, 16),
                           int(data[0], 16) if data else 0)

    def data(self):
        if not self.kind:
            sys.exit("files.txt: %s asks for nothing" % self.name)
        body = b"".join(self.records) if self.kind in WRITING else bytes(self.input)
        return (make_steps.counted(1, self.name.encode("ascii"))
                + struct.pack("<cBHHH", self.kind[0].upper().encode("ascii"),
                              self.processors, self.room, self.lent, len(body)) + body)


def main():
    cases = make_cases.read_cases((FILES / "files.txt").read_text(encoding="ascii"),
                                  Case, "files.txt")
    make_cases.write_or_check(FILES, make_steps.files(cases), len(cases), sys.argv[1:],
                              __doc__)


if __name__ == "__main__":
    main()
