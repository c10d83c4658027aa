#!/usr/bin/env python3
"""Measures documents through the program's command `replay`: the time of edits, and the memory.

Use: documents.py [--times N] [--program PROGRAM] [--tables NAMES] [FILE..]

Each FILE is a SQL text; without one, statements.sql beside this script is repeated up to 10 MB. The
program is the one that ./run builds, which is built first if need be; PROGRAM is any other with the
command `replay`.

An edit is measured by two scripts. Both insert the whole text into an empty document and at last
delete all of it, so that the report is short; the second has K edits between these two. The time of
an edit is the difference of the processor time of the scripts, user and system, divided by K. K is
raised until the edits take half the time of the first script and 0.05 s, or up to 4096. The time of
each script is the least of N runs (5 if nothing is said), which take turns. A difference below
0.001 s is taken to be 0.001 s, so that no ratio is by zero.

A fresh document is measured the same way: the text is deleted and inserted again, K / 2 times. So
its time has the deletion in it, and the reading of the text from the script.

NAMES are one or more of these, with commas between them; all of them if nothing is said:
  edits     a fresh document, and edits of several kinds: times, and ratios to the fresh document
  memory    the largest resident set as a multiple of the text, which is repeated up to 10 MB if it
            is shorter: of a script that inserts the text and deletes it, of one with a letter
            inserted in between, and of one that keeps the text and so makes its report
  growth    a letter in the middle of the text, once, 2, 4 and 8 times as long: the time of an edit,
            its ratio to a fresh document of that text, and its ratio to that of half the text

The script holds the text too, so each figure of memory has the text in it once more.
"""
import argparse
import os
import pathlib
import random
import re
import subprocess
import sys
import tempfile

HERE = pathlib.Path(__file__).resolve().parent
BUILT = HERE.parent / "crates/squawk_show/out/squawk_show"
MB = 1000000

# A difference in seconds below which none is taken to be, and one that is long enough.
LEAST_TIME = 0.001
LONG_TIME = 0.05

# The most edits of a script that is measured.
MOST_EDITS = 4096

# Runs a program from a small process, since the peak of a process has that of its parent in it.
RUN = """
import os, sys
pid = os.posix_spawn(sys.argv[1], sys.argv[1:], os.environ)
_, status, usage = os.wait4(pid, 0)
print(usage.ru_utime + usage.ru_stime, usage.ru_maxrss * 1024, file=sys.stderr)
sys.exit(os.waitstatus_to_exitcode(status))
"""

# What a random edit inserts. No character opens a quote, a comment or a psql command.
LETTERS = b"abcxyz_0123456789 \n;(),.=<+"
RANDOM_EDITS = 1000

# A statement of ten bytes.
STATEMENT = b"select 1;\n"


def record(start, end, new):
    """The record of a script that replaces a range by new bytes."""
    return b"@%d %d %d\n%b\n" % (start, end, len(new), new)


def in_and_out(offset, new):
    """The edit that inserts bytes at an offset, and the one that deletes them again, by turns."""
    edits = (offset, offset, new), (offset, offset + len(new), b"")
    return lambda i: edits[i % 2]


def middle(text, pattern):
    """The end of the first match after the middle of the text, or else of the first of all."""
    match = re.compile(pattern).search(text, len(text) // 2) or re.search(pattern, text)
    if match is None:
        sys.exit("documents.py: the text has no word to edit")
    return match.end()


def letter_edits(text):
    """A letter inside a word in the middle comes and goes."""
    return in_and_out(middle(text, rb"[^\w$][a-z]{2}(?=[a-z])"), b"q")


# The edits by their names. Each row makes, of a text, a function from an edit's number to the edit.
EDITS = {
    "a letter in the middle": letter_edits,
    "a blank in the middle": lambda text: in_and_out(middle(text, rb"\w "), b" "),
    "a statement at the end": lambda text: lambda i: (len(text) + 10 * i,) * 2 + (STATEMENT,),
    "a statement at the start": lambda text: lambda i: (0, 0, STATEMENT),
}


def random_edits(text):
    """The list of random edits, each of which replaces up to three characters by up to three."""
    now = bytearray(text)
    chance = random.Random(1)

    def boundary(offset):
        while offset < len(now) and now[offset] & 0xC0 == 0x80:
            offset += 1
        return offset

    edits = []
    for _ in range(RANDOM_EDITS):
        start = boundary(chance.randrange(len(now) + 1))
        end = boundary(min(len(now), start + chance.randrange(4)))
        new = bytes(chance.choices(LETTERS, k=chance.randrange(4)))
        edits.append((start, end, new))
        now[start:end] = new
    return edits


class Bench:
    """Writes scripts over texts to files, runs the program on them, and prints what they cost."""

    def __init__(self, program, times, folder):
        self.program = program
        self.times = times
        self.plain = pathlib.Path(folder) / "plain"
        self.edited = pathlib.Path(folder) / "edited"

    def cost(self, path):
        """The processor time in seconds and the peak memory in bytes of one run."""
        words = [sys.executable, "-I", "-S", "-c", RUN, self.program, "replay"]
        with open(path, "rb") as source, open(os.devnull, "wb") as sink:
            done = subprocess.run(words, stdin=source, stdout=sink, stderr=subprocess.PIPE)
        if done.returncode != 0:
            sys.exit(f"documents.py: {self.program} replay ended with {done.returncode}")
        time, peak = done.stderr.split()[-2:]
        return float(time), int(peak)

    @staticmethod
    def write(path, text, edits, is_kept=False):
        """Writes the script that inserts a text, makes edits, and deletes all if it is not kept."""
        with open(path, "wb") as file:
            file.write(b"@0 0 %d\n" % len(text))
            file.write(text)
            file.write(b"\n")
            for edit in edits:
                file.write(record(*edit))
            size = len(text) + sum(len(new) - (end - start) for start, end, new in edits)
            if not is_kept:
                file.write(record(0, size, b""))

    def difference(self, times):
        """The least time of the plain script, and how much more the edited one takes."""
        runs = [(self.cost(self.plain)[0], self.cost(self.edited)[0]) for _ in range(times)]
        plain, edited = map(min, zip(*runs))
        return plain, max(edited - plain, LEAST_TIME)

    def edit_time(self, text, edit, count=16):
        """The time of one of the edits that a function gives by their numbers."""
        self.write(self.plain, text, [])
        while True:
            self.write(self.edited, text, [edit(i) for i in range(count)])
            plain, more = self.difference(1)
            if more >= max(plain / 2, LONG_TIME) or count * 4 > MOST_EDITS:
                return self.difference(self.times)[1] / count
            count *= 4

    def fresh_time(self, text):
        """The time of a fresh document."""
        edits = (0, len(text), b""), (0, 0, text)
        return 2 * self.edit_time(text, lambda i: edits[i % 2], 2)

    def edits(self, text):
        fresh = self.fresh_time(text)
        print(f"{'fresh document':24} {fresh * 1000:10.4f} ms {len(text) / MB / fresh:8.1f} MB/s")
        for name, edits in EDITS.items():
            self.row(name, self.edit_time(text, edits(text)), fresh)
        edits = random_edits(text)
        self.write(self.plain, text, [])
        self.write(self.edited, text, edits)
        total = self.difference(self.times)[1]
        self.row("a random small edit", total / len(edits), fresh)
        self.row(f"{len(edits)} random in a row", total, fresh)

    @staticmethod
    def row(name, time, fresh):
        ratio = f"{time / fresh:12.6f} of a fresh document"
        print(f"{name:24} {time * 1000:10.4f} ms {ratio}", flush=True)

    def memory(self, text):
        text *= max(1, 10 * MB // len(text))
        letter = letter_edits(text)
        for name, edits, is_kept in (
            ("inserted and deleted", [], False),
            ("with a letter", [letter(0)], False),
            ("kept, with its report", [], True),
        ):
            self.write(self.plain, text, edits, is_kept)
            peak = self.cost(self.plain)[1]
            ratio = f"{peak / len(text):8.1f} times the text"
            print(f"{name:24} {peak / MB:10.1f} MB {ratio}", flush=True)

    def growth(self, text):
        half = None
        for factor in 1, 2, 4, 8:
            longer = text * factor
            fresh = self.fresh_time(longer)
            time = self.edit_time(longer, letter_edits(longer))
            note = "" if half is None else f" | {time / half:.2f} times that of half"
            line = f"{factor}x {len(longer) / MB:9.2f} MB {time * 1000:10.4f} ms"
            print(f"{line} {time / fresh:12.6f} of a fresh document{note}", flush=True)
            half = time


# The tables by their names.
TABLES = {"edits": Bench.edits, "memory": Bench.memory, "growth": Bench.growth}


def main():
    shape = argparse.RawDescriptionHelpFormatter
    parser = argparse.ArgumentParser(description=__doc__, formatter_class=shape)
    parser.add_argument("files", metavar="FILE", nargs="*", type=pathlib.Path)
    parser.add_argument("--times", metavar="N", type=int, default=5)
    parser.add_argument("--program", metavar="PROGRAM")
    parser.add_argument("--tables", metavar="NAMES", default=",".join(TABLES))
    words = parser.parse_args()
    tables = words.tables.split(",")
    for table in tables:
        if table not in TABLES:
            parser.error(f"no table {table}")
    if words.program is None:
        subprocess.run([HERE.parent / "run", "make", "1"], stdout=subprocess.DEVNULL, check=True)
    for path in words.files:
        if path.stat().st_size == 0:
            parser.error(f"{path} is empty")
    statements = (HERE / "statements.sql").read_bytes()
    texts = [(path.name, path.read_bytes()) for path in words.files]
    texts = texts or [("statements.sql", statements * (10 * MB // len(statements)))]
    with tempfile.TemporaryDirectory() as folder:
        bench = Bench(words.program or str(BUILT), words.times, folder)
        for name, text in texts:
            for table in tables:
                print(f"\n{table}: {name}, {len(text) / MB:.2f} MB")
                TABLES[table](bench, text)


if __name__ == "__main__":
    main()
