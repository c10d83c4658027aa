#!/usr/bin/env python3
"""Measures the program, and any second one beside it: processor time, speed and peak memory.

Use: program.py [--times N] [--other PROGRAM] [--program PROGRAM] [--tables NAMES] [--seed N] [--count N] [FILE..]

Each FILE is a SQL text; without one, statements.sql beside this script is repeated up to 10 MB. The program is the one
that ./run builds, which is built first if need be; PROGRAM is any other that reads SQL on standard input. Each row is
the least of N runs (5 if nothing is said), which take turns between the two programs. Their output goes to /dev/null.

NAMES are one or more of these, with commas between them; all of them but the last if nothing is said:
  texts     the files, and `make 100000`, which only the program that ./run builds knows
  growth    the first file, 1, 2, 4 and 8 times, with the ratio of the time to that of half the text
  hostile   texts of 20 MB that repeat what is bad for a lexer or a tree, and a group 100000 deep
  commands  the files under split, quote, squeeze and clauses of the first program, as ratios to its report
  hostile_commands
            the same of hostile texts of 10 and 20 MB, with the ratio of the time of 20 MB to that of 10 MB
  random    N random texts of 10 MB (`--count N`, 100 if nothing is said; `--seed N` chooses which, 1 if nothing is
            said), each an opening and a piece that is repeated: the ten with the highest ratio of time or memory to the
            second program, and how many are above 1.1. A text that is above 1.05 is measured again, with three times
            the runs, and the first result is dropped. Needs `--other`; left out unless it is named

Time is user and system time of the process. Memory is its largest resident set. On Linux the figure includes the
memory of this script, about 15 MB, so it says nothing below that.
"""
import argparse
import os
import pathlib
import random
import subprocess
import sys
import tempfile

HERE = pathlib.Path(__file__).resolve().parent
BUILT = HERE.parent / "crates/squawk_show/out/squawk_show"
MB = 1000000

# A time in seconds below which no run is taken to be.
LEAST_TIME = 0.001

# What a hostile text begins with, and what it repeats.
HOSTILE = {
    ";": ("", ";"),
    "(": ("", "("),
    "()": ("", "()"),
    "a+": ("", "a+"),
    "'": ("", "'"),
    "unclosed '": ("'", "''"),
    "letters in quotes": ("'", "a"),
    "letters between quotes": ("'", "a''"),
    "words between quotes": ("'", "some ordinary words''"),
    "unclosed E'": ("E'", "\\'"),
    "letters between escapes": ("E'", "a\\\\"),
    "$a$": ("", "$a$"),
    "$b$ in $a$": ("$a$", "$b$ "),
    "/*": ("", "/*"),
    "*/ /*": ("", "*/ /*"),
    "/**/": ("", "/**/"),
    "* in a comment": ("/*", "*"),
    "/ in a comment": ("/* ", "/"),
    "* and blanks in a comment": ("/*", " *"),
    "line comments": ("", "--x\n"),
    "empty line comments": ("", "--\n"),
    "line ends": ("", "\n"),
    "two-byte letters": ("", "\u00e4"),
    "three-byte letters": ("", "\u0e01"),
    "four-byte letters": ("", "\U00020000"),
    "two-byte words": ("", "\u00e4 "),
    "digits": ("", "1"),
    "control characters": ("", "\x01"),
    "$1a": ("", "$1a "),
    "psql argument": ("\\set ", "a"),
    "psql arguments": ("\\set ", "a 'b' "),
    "quotes in a psql argument": ("\\set ", "''"),
    "escapes in psql arguments": ("\\set ", "'\\'' "),
    "blanks after a psql command": ("\\set ", " "),
    "psql options": ("\\g (", "a='b' "),
    "quotes in psql options": ("\\g (", ":'"),
    "long quotes to CR": ("", "\\a \"" + "a" * 70 + "\r"),
    "psql commands": ("", "\\g\n"),
    "current_timestamp": ("", "current_timestamp "),
    "create or replace": ("", "create or replace "),
    "select 1;": ("", "select 1;\n"),
}


def repeated(start, piece, size):
    """The bytes of a text of about this size, in parts of about 100 KB."""
    yield start.encode()
    piece = piece.encode()
    count = MB // 10 // len(piece) + 1
    for _ in range(size // (count * len(piece)) + 1):
        yield piece * count


def nested(depth):
    """The bytes of a statement with groups in one another."""
    yield b"select "
    yield b"(" * depth
    yield b"1"
    yield b")" * depth
    yield b";"


# Of these, and of others, those that are bad for a command that reads a text.
HOSTILE_TO_COMMANDS = {
    "$q": ("", "$q"),
    "data of COPY": ("copy t from stdin;\n", "\\.x\n"),
    "ends of data": ("", "\\.\n"),
    "white space": ("", " \n"),
    "comments": ("", "/**/"),
    "'": HOSTILE["'"],
    ";": HOSTILE[";"],
    "select": ("", "select "),
}

# The commands that read a text, without that of the report.
COMMANDS = "split", "quote", "squeeze", "clauses"

# What a random text begins with, and what its piece is made of.
OPENINGS = "", "'", "E'", '"', "U&'", "/*", "--", "$a$", "$abcdef$", "\\set ", "select ", "(", "copy t from stdin;\n"
ITEMS = (
    "a", "b", "E", "x'", "e'", "_", "select", "\u00e4", "\u20ac", "\U0001f600", "1", "0x1", "1e5", ".", "'", "''", '"',
    "\\", "/", "*", "/*", "*/", "-", "--", "$", "$$", "$a$", "$abcde", ",", ";", "(", ")", "+", "@", "#", ":",
    "\\g", "\\.\n", " ", "\t", "\n",
)
LONGEST_PIECE = 8
RANDOM_SIZE = 10 * MB

# A random text is measured again if its ratio is above this.
RATIO_TO_REPEAT = 1.05

# A ratio that no random text should exceed.
HIGHEST_RATIO = 1.1

# The number of rows of random texts, and the width of their names.
RANDOM_ROWS = 10
RANDOM_NAME = 44


def parts_of(path):
    """The bytes of a file, in parts."""
    with open(path, "rb") as file:
        while part := file.read(MB):
            yield part


def cost(program, words, path):
    """The processor time in seconds and the peak memory in bytes of one run."""
    with open(path, "rb") as source, open(os.devnull, "wb") as sink:
        process = subprocess.Popen([program, *words], stdin=source, stdout=sink)
        _, status, usage = os.wait4(process.pid, 0)
    process.returncode = os.waitstatus_to_exitcode(status)
    if process.returncode != 0:
        sys.exit(f"program.py: {program} ended with {process.returncode}")
    return max(usage.ru_utime + usage.ru_stime, LEAST_TIME), usage.ru_maxrss * 1024


def least_costs(programs, words, path, times):
    """The least time and the least memory of each program, which take turns."""
    return least_of([(program, words) for program in programs], path, times)


def least_of(calls, path, times):
    """The least time and the least memory of each call, a program and its words. They take turns."""
    runs = [[cost(program, words, path) for program, words in calls] for _ in range(times)]
    return [tuple(map(min, zip(*costs))) for costs in zip(*runs)]


def highest_ratio(costs):
    """The higher ratio of the first program to the second, of time or of memory."""
    return max(first / second for first, second in zip(*costs))


def row(name, size, costs):
    """A line of a table: what the first program costs, and the second, as ratios of the first to the second."""
    (time, memory), *others = costs
    speed = size / MB / time
    line = f"{name:20} {size / MB:8.2f} MB {time:7.3f} s {speed:6.1f} MB/s"
    line += f" {memory / MB:8.1f} MB {memory / max(size, 1):6.1f}x"
    for other_time, other_memory in others:
        line += f" | {other_time:7.3f} s {other_memory / MB:8.1f} MB"
        line += f" | time {time / other_time:5.2f} memory {memory / other_memory:5.2f}"
    return line


class Bench:
    """Runs the programs on texts, each of which it writes to a file, and prints a row for each."""

    def __init__(self, programs, times, folder, openings_and_pieces=()):
        self.programs = programs
        self.times = times
        self.openings_and_pieces = openings_and_pieces
        self.makes_texts = programs[0] == str(BUILT)
        self.path = pathlib.Path(folder) / "text"

    def measure(self, name, parts, half=None):
        """Prints the row of a text, with the ratio to the time of half of it. Returns the first program's time."""
        self.write(parts)
        costs = least_costs(self.programs, [], self.path, self.times)
        time = costs[0][0]
        note = "" if half is None else f" | {time / half:.2f} times the time of half"
        print(row(name, self.path.stat().st_size, costs) + note, flush=True)
        return time

    def texts(self, files):
        for path in files:
            self.measure(path.name, parts_of(path))
        if not self.makes_texts:
            return
        summary = subprocess.run([self.programs[0], "make", "100000"], capture_output=True, check=True).stdout
        costs = least_costs(self.programs[:1], ["make", "100000"], os.devnull, self.times)
        print(row("make 100000", int(summary.split()[1]), costs), flush=True)

    def growth(self, files):
        path = files[0]
        half = None
        for factor in 1, 2, 4, 8:
            parts = (part for _ in range(factor) for part in parts_of(path))
            half = self.measure(f"{path.name} {factor}x", parts, half)

    def commands(self, files):
        for path in files:
            self.measure_commands(path.name, parts_of(path))

    def hostile_commands(self, _files):
        for name, (start, piece) in HOSTILE_TO_COMMANDS.items():
            half = self.measure_commands(name, repeated(start, piece, 10 * MB))
            self.measure_commands(name, repeated(start, piece, 20 * MB), half)

    def measure_commands(self, name, parts, halves=None):
        """Prints a row for each command, and for the report. Returns their times."""
        self.write(parts)
        calls = [(self.programs[0], [command] if command else []) for command in ("", *COMMANDS)]
        costs = least_of(calls, self.path, self.times)
        report_time, report_memory = costs[0]
        for number, (time, memory) in enumerate(costs):
            label = f"{name}, {' '.join(calls[number][1]) or 'report'}"
            line = f"{label:30} {time:7.3f} s {memory / MB:8.1f} MB"
            line += f" | time {time / report_time:5.2f} memory {memory / report_memory:5.2f}"
            if halves:
                line += f" | {time / halves[number]:.2f} times the time of half"
            print(line, flush=True)
        return [time for time, _ in costs]

    def write(self, parts):
        """Writes a text to the file that the programs read."""
        with open(self.path, "wb") as file:
            for part in parts:
                file.write(part)

    def hostile(self, _files):
        for name, (start, piece) in HOSTILE.items():
            self.measure(name, repeated(start, piece, 20 * MB))
        self.measure("100000 deep", nested(100000))

    def random(self, _files):
        results = sorted((self.measure_random(*text) for text in self.openings_and_pieces), reverse=True)
        for ratio, name, size, costs in results[:RANDOM_ROWS]:
            print(row(name.ljust(RANDOM_NAME), size, costs))
        above = sum(result[0] > HIGHEST_RATIO for result in results)
        print(f"{len(results)} texts, {above} above {HIGHEST_RATIO}", flush=True)

    def measure_random(self, opening, piece):
        """The higher ratio on a text, of time or of memory, its name, its size, and the costs."""
        self.write(repeated(opening, piece, RANDOM_SIZE))
        costs = least_costs(self.programs, [], self.path, self.times)
        if highest_ratio(costs) > RATIO_TO_REPEAT:
            costs = least_costs(self.programs, [], self.path, 3 * self.times)
        return highest_ratio(costs), f"{opening!r} {piece!r}", self.path.stat().st_size, costs


# The tables by their names.
TABLES = {
    "texts": Bench.texts,
    "growth": Bench.growth,
    "hostile": Bench.hostile,
    "commands": Bench.commands,
    "hostile_commands": Bench.hostile_commands,
    "random": Bench.random,
}


def random_texts(seed, count):
    """The openings and the pieces of so many texts. The same seed gives the same texts."""
    chance = random.Random(seed)
    for _ in range(count):
        length = chance.randint(1, LONGEST_PIECE)
        yield chance.choice(OPENINGS), "".join(chance.choice(ITEMS) for _ in range(length))


def repeated_statements(folder):
    """A file with statements.sql, repeated up to 10 MB."""
    path = pathlib.Path(folder) / "statements.sql"
    statements = (HERE / "statements.sql").read_bytes()
    with open(path, "wb") as file:
        for _ in range(10 * MB // len(statements)):
            file.write(statements)
    return path


def main():
    parser = argparse.ArgumentParser(description=__doc__, formatter_class=argparse.RawDescriptionHelpFormatter)
    parser.add_argument("files", metavar="FILE", nargs="*", type=pathlib.Path)
    parser.add_argument("--times", metavar="N", type=int, default=5)
    parser.add_argument("--program", metavar="PROGRAM")
    parser.add_argument("--other", metavar="PROGRAM")
    parser.add_argument("--tables", metavar="NAMES", default=",".join(name for name in TABLES if name != "random"))
    parser.add_argument("--seed", metavar="N", type=int, default=1)
    parser.add_argument("--count", metavar="N", type=int, default=100)
    words = parser.parse_args()
    tables = words.tables.split(",")
    for table in tables:
        if table not in TABLES:
            parser.error(f"no table {table}")
    if "random" in tables and words.other is None:
        parser.error("random needs --other")
    if words.program is None:
        subprocess.run([HERE.parent / "run", "make", "1"], stdout=subprocess.DEVNULL, check=True)
    programs = [words.program or str(BUILT)] + ([words.other] if words.other else [])
    with tempfile.TemporaryDirectory() as folder:
        files = words.files or [repeated_statements(folder)]
        bench = Bench(programs, words.times, folder, list(random_texts(words.seed, words.count)))
        for table in tables:
            print(f"\n{table}")
            TABLES[table](bench, files)


if __name__ == "__main__":
    main()
