#!/usr/bin/env python3
"""Programs that the checker must refuse to compile.

    python3 tests/refused.py

Each file tests/refused/*.edit names a crate, a file in it, the checker's error, one
line of that file (`old:`) and the lines to put in its place (`new:`). Each edit is
applied to a copy of that crate and of those below it. The copy compiles without it;
with it the checker must report that error in that file. Such an edit does not reach the
prover, so it cannot be a must-fail edit.

Nothing is proved here. `rt all` first reads the sources of the crates that no other
stands on, with those of the libraries below, and only that is run.
"""
import contextlib
import pathlib
import re
import shutil
import signal
import subprocess
import sys
import tempfile

ROOT = pathlib.Path(__file__).resolve().parent.parent


class Edit:
    def __init__(self, path):
        self.name, self.new = path.stem, []
        for line in path.read_text().splitlines():
            word, text = line.split(": ", 1)
            if word == "new":
                self.new.append(text)
            else:
                setattr(self, word, text)

    def text(self, source):
        """The file's text with the edit."""
        lines = source.split("\n")
        if lines.count(self.old) != 1:
            raise ValueError("%s: `%s` is not one line of %s" % (self.name, self.old, self.file))
        at = lines.index(self.old)
        return "\n".join(lines[:at] + self.new + lines[at + 1:])


def stands_on():
    """The names that each line of crates.txt gives behind a crate's."""
    lines = [line.split("#")[0] for line in (ROOT / "crates.txt").read_text().splitlines()]
    return {name.split()[0]: below.split() for name, found, below in
            (line.partition(":") for line in lines) if found}


def with_those_below(crate):
    known, wanted = stands_on(), [crate]
    for name in wanted:
        wanted += [below for below in known[name] if below in known and below not in wanted]
    return {name: known[name] for name in wanted}


@contextlib.contextmanager
def copied(crate):
    """A folder with a copy of a crate and of those below it, of which nothing is built."""
    folder = pathlib.Path(tempfile.mkdtemp(prefix="refused-"))
    try:
        wanted = with_those_below(crate)
        (folder / "crates.txt").write_text(
            "".join("%s: %s\n" % (name, " ".join(below)) for name, below in wanted.items()))
        for name in wanted:
            shutil.copytree(ROOT / "crates" / name, folder / "crates" / name,
                            ignore=shutil.ignore_patterns("out"))
        yield folder
    finally:
        shutil.rmtree(folder, ignore_errors=True)


def compiled(copy):
    """Whether the copy compiles, and what the checker says until that is known.

    The line `only=` tells that the sources compile. The checker would go on and prove the
    libraries, so it is ended there, and with it all that it started.
    """
    said = ""
    with subprocess.Popen(["rt", "all", "check"], cwd=copy, stdin=subprocess.DEVNULL, text=True,
                          stdout=subprocess.PIPE, stderr=subprocess.STDOUT) as running:
        for line in running.stdout:
            said += line
            if line.startswith("only="):
                running.send_signal(signal.SIGTERM)
                return True, said
    return False, said


def refused(copy, edit):
    """Whether the checker reports the error that the edit names, in its file."""
    path = copy / "crates" / edit.crate / edit.file
    source = path.read_text()
    path.write_text(edit.text(source))
    compiles, said = compiled(copy)
    path.write_text(source)
    pattern = "^" + re.escape(edit.file) + r":\d+:\d+: error\[" + re.escape(edit.error) + r"\]"
    if not compiles and re.search(pattern, said, re.MULTILINE):
        print("refused: %s (%s)" % (edit.name, edit.error))
        return True
    print("NOT REFUSED as it should be: %s (%s)\n%s" % (edit.name, edit.error, said[-2000:]))
    return False


def all_refused(crate, edits):
    """Whether the crate compiles without an edit, and with none of them."""
    with copied(crate) as copy:
        compiles, said = compiled(copy)
        if not compiles:
            print("%s does not compile without an edit\n%s" % (crate, said[-2000:]))
            return False
        return all([refused(copy, edit) for edit in edits])


def main():
    edits = [Edit(path) for path in sorted((ROOT / "tests" / "refused").glob("*.edit"))]
    crates = sorted({edit.crate for edit in edits})
    results = [all_refused(crate, [edit for edit in edits if edit.crate == crate])
               for crate in crates]
    return 0 if results and all(results) else 1


if __name__ == "__main__":
    sys.exit(main())
