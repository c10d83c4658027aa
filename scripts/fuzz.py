#!/usr/bin/env python3
"""Makes texts from a seed, runs the program on them, and checks what needs no model.

Use: fuzz.py [--cases N] [--minutes M] [--seed S] [--jobs J] [--commands NAMES] [--program PROGRAM]

A case is one text, of pieces that are tokens of every form, cut and glued. The script ends after N cases or M minutes,
whichever comes first; after 1000 cases if neither is given. Case K of a seed is the same in every run. J programs run
at once, 1 if nothing is said. The program is the one that ./run builds, which is built first if need be; PROGRAM is any
other. NAMES are the commands, with commas between them: `report` (no arguments), `replay`, `split`, `quote`, `squeeze`
and `clauses`; all of them if nothing is said.

For each text, in one of the readings that the program's options choose:
  tree      the leaves tile the text, nodes nest and begin and end with a leaf that is no trivia, a leaf that prints as
            a word or punctuation is that word, each error lies in a leaf, and the errors are in the order of the leaves
  parts     the lines and errors of two parts of the text, cut at the end of a closed statement, are those of the text
  replay    a script of edits that make the text ends with its report, and begins as its first records alone do; the
            counts of an edit add up to the tokens and children of the text after it, and what it keeps is in both texts
  split     the pieces tile the text; up to COPY data they are the children of the root, and those from an offset on
            are the pieces of the rest of the text; COPY data stands after some statements, and ends at its first end
  quote     each of the three lines has the text as its value and is one leaf in its report, and the delimiter of the
            dollar-quoted string is the shortest that fits
  squeeze   the squeezed text is no longer, has the same leaves besides trivia, one character where it has trivia, and
            stays the same when it is squeezed again
  clauses   the report is the one without the command but for clause nodes, which are in `select` statements alone, and
            in each with the word outside parentheses
  refusals  bytes that are not UTF-8 end with status 4 and the right offset; a broken script with status 8 at an offset
            up to which it is a script, or with 9, or with 0; nothing was written to standard output but with 0
  time      the processor time is below 0.1 s and 1 microsecond for each byte and edit; each 200th text is repeated up
            to 100 KB

A text that fails a check is cut down while it fails, and printed with its case. The last line has the numbers of cases,
runs of the program, bytes and failures. The status is 0 without a failure, else 1. It needs Linux.
"""
import argparse
import itertools
import multiprocessing
import os
import pathlib
import random
import re
import signal
import subprocess
import sys
import time

# The modules beside this script leave no compiled files there.
sys.dont_write_bytecode = True
from fuzz_forms import check_clauses, check_quote, check_split, check_squeeze
from fuzz_report import BOM, Report, Wrong, check, check_kept
from fuzz_texts import random_range, random_text, script

TOP = pathlib.Path(__file__).resolve().parent.parent
BUILT = TOP / "crates/squawk_show/out/squawk_show"

# The options that stand before a command, one entry for each reading.
READINGS = [], ["--backslash"], ["--grouped"], ["--backslash", "--grouped"]
# The commands that write a form of the text.
FORMS = "split", "quote", "squeeze", "clauses"
COMMANDS = {"report": [], "replay": ["replay"]} | {name: [name] for name in FORMS}

# The bound of the processor time in seconds: of each run, and of each byte and edit. A longer run is killed.
START_TIME, BYTE_TIME, LONGEST = 0.1, 1e-6, 30
# Each of these cases has a long text, of at least so many bytes.
LONG_EVERY, LONG = 200, 100000
# After so many failures it gives up.
MOST_FAILURES = 10

EDIT = re.compile(r"edit (\d+): tokens (\d+)\+(\d+)\+(\d+) children (\d+)\+(\d+)\+(\d+)")
BAD_SCRIPT = re.compile(r"bad script at (\d+)\n")
BAD_BYTES = b"\xff", b"\x80", b"\xc3", b"\xed\xa0\x80", b"\xf4\x90\x80\x80", b"\xc0\x80", b"\xe2\x82", b"\xf0\x9d"


class Program:
    """The program. Its streams are files in memory, which all its runs share."""

    def __init__(self, path):
        self.path = path
        self.streams = [os.memfd_create(name) for name in ("input", "output", "errors")]
        self.actions = [(os.POSIX_SPAWN_DUP2, stream, number) for number, stream in enumerate(self.streams)]
        self.runs = self.bytes = 0

    def run(self, words, data, edits=0):
        """Runs the program on bytes, checks its time, and returns the status, the output and the error line."""
        for stream, start in zip(self.streams, (data, b"", b"")):
            os.ftruncate(stream, 0)
            os.pwrite(stream, start, 0)
            os.lseek(stream, 0, os.SEEK_SET)
        process = os.posix_spawn(self.path, [self.path, *words], {}, file_actions=self.actions)
        signal.signal(signal.SIGALRM, lambda *_: os.kill(process, signal.SIGKILL))
        signal.alarm(LONGEST)
        _, status, usage = os.wait4(process, 0)
        signal.alarm(0)
        self.runs += 1
        self.bytes += len(data)
        spent, bound = usage.ru_utime + usage.ru_stime, START_TIME + BYTE_TIME * len(data) * (edits + 1)
        check(spent <= bound, f"time: {words} took {spent:.3f} s for {len(data)} bytes and {edits} edits")
        output, line = (os.pread(stream, os.fstat(stream).st_size, 0) for stream in self.streams[1:])
        return os.waitstatus_to_exitcode(status), output, line.decode("ascii", "replace")

    def report(self, words, data, edits=0):
        """The lines that the program writes on bytes with which it must end well."""
        status, output, line = self.run(words, data, edits)
        check((status, line) == (0, ""), f"status: {words} ended with {status}, {line!r}")
        check(output.endswith(b"\n"), f"output: {words} ended without a line end")
        return output.decode("ascii", "replace").splitlines()


def check_parts(program, words, data, report, rng):
    """The text is cut at the end of a closed statement, if that can be."""
    ends = [end for end in report.closed_ends() if not data[end:].startswith(BOM)]
    if not ends:
        return
    end = rng.choice(ends)
    first, second = (Report(program.report(words, part)) for part in (data[:end], data[end:]))
    sums = [a + b for a, b in zip(first.shifted(0), second.shifted(end))]
    check(sums == list(report.shifted(0)), f"parts: the text cut at {end}")


def edit_counts(lines):
    """The six counts of each edit, by its line."""
    counts = []
    for number, line in enumerate(lines, 1):
        match = EDIT.fullmatch(line)
        check(match and int(match[1]) == number, f"replay: the line of edit {number}")
        counts.append([int(group) for group in match.groups()[1:]])
    return counts


def check_replay(program, words, data, lines, rng):
    """A script that makes the text ends with its report, and begins as its first records alone. Returns the script."""
    records = script(data.decode(), rng)
    whole = b"".join(records)
    written = program.report(words, whole, len(records))
    check(written[len(records):] == lines, "replay: the report of the last text")
    counts = edit_counts(written[:len(records)])
    first = rng.randrange(len(records))
    reports = []
    for count in first, first + 1:
        first_lines = program.report(words, b"".join(records[:count]), count)
        check(first_lines[:count] == written[:count], f"replay: the lines of the first {count} edits")
        reports.append(Report(first_lines[count:]))
    before, after = reports
    sums = [sum(counts[first][:3]), sum(counts[first][3:])]
    check(sums == [len(after.leaves), len(after.children())], f"replay: the counts of edit {first + 1}")
    kept = counts[first][0] + counts[first][2], counts[first][3] + counts[first][5]
    check(kept[0] <= len(before.leaves) and kept[1] <= len(before.children()), f"replay: edit {first + 1} keeps more")
    check_kept(before, after, counts[first])
    return whole


def check_script(program, words, data, rng):
    """A script of which a part is left out or doubled ends with a documented status."""
    text = data.decode()
    start, end = random_range(text, rng)
    broken = (text[:start] + text[end:] if rng.random() < 0.5 else text[:end] + text[start:]).encode()
    status, output, line = program.run(words, broken, len(broken) // 8)
    bad = BAD_SCRIPT.fullmatch(line)
    lines = {0: line == "", 8: bad, 9: line == "bad range\n"}
    check(lines.get(status) and (status == 0) == (output != b""), f"refusals: status {status}, {line!r}")
    if bad:
        check(int(bad[1]) < len(broken), "refusals: the offset is past the end")
        status, *_ = program.run(words, broken[:int(bad[1])], len(broken) // 8)
        check(status in (0, 9), f"refusals: up to {bad[1]} it is no script: {broken!r}")


def check_not_utf8(program, words, data, rng):
    """Bytes that are not UTF-8, made from the text, have the right refusal."""
    offset = rng.randint(0, len(data))
    data = data[:offset] + rng.choice(BAD_BYTES) + data[offset + rng.randint(0, 1):]
    try:
        data.decode()
    except UnicodeDecodeError as error:
        ended = program.run(words, data)
        check(ended == (4, b"", f"not UTF-8 at {error.start}\n"), f"refusals: {data!r} ends with {ended}")


def check_forms(program, commands, reading, data, report, rng):
    """The commands that write a form of the text."""
    if "split" in commands:
        check_split(program, reading, data, report, rng)
    if "quote" in commands:
        check_quote(program, reading, data)
    if "squeeze" in commands:
        check_squeeze(program, reading, data, report)
    if "clauses" in commands:
        check_clauses(program, reading, data, report)
    for name in FORMS:
        if name in commands:
            check_not_utf8(program, [*reading, name], data, rng)


def check_text(program, commands, text, rng):
    """All checks of a text, in one of the readings."""
    data = text.encode()
    reading = rng.choice(READINGS)
    lines = program.report([*reading, *COMMANDS["report"]], data)
    report = Report(lines)
    report.check_tree(data)
    report.check_errors()
    check_parts(program, reading, data, report, rng)
    check_not_utf8(program, reading, data, rng)
    if "replay" in commands:
        words = [*reading, *COMMANDS["replay"]]
        whole = check_replay(program, words, data, lines, rng)
        check_script(program, words, whole, rng)
        check_not_utf8(program, words, whole, rng)
    check_forms(program, commands, reading, data, report, rng)


def failure(program, commands, text, key):
    """What is wrong with a text, or None. The key of the random numbers makes the same edits each time."""
    try:
        check_text(program, commands, text, random.Random(key))
    except Wrong as wrong:
        return str(wrong)
    return None


def shrink(program, commands, text, key):
    """A short text that fails, made from one that fails by leaving parts out, as long as there is time."""
    size = len(text) // 2
    until = time.time() + LONGEST
    while size and time.time() < until:
        for start in range(0, len(text), size):
            shorter = text[:start] + text[start + size:]
            if len(shorter) < len(text) and failure(program, commands, shorter, key):
                text = shorter
                break
        else:
            size //= 2
    return text


def run_cases(options, part):
    """Runs each J-th case from this part on. Returns the numbers of cases, runs, bytes and failures."""
    program = Program(options.program)
    cases = failures = 0
    for number in itertools.count(part, options.jobs):
        if number >= options.cases or time.time() > options.deadline or failures >= MOST_FAILURES:
            break
        key = f"{options.seed} {number}"
        rng = random.Random(key)
        text = random_text(rng, rng.choice((1, 3, 8, 20)))
        if number % LONG_EVERY == LONG_EVERY - 1 and text:
            text *= LONG // len(text.encode()) + 1
        what = failure(program, options.commands, text, key)
        cases += 1
        if what:
            failures += 1
            short = shrink(program, options.commands, text, key)
            again = failure(program, options.commands, short, key)
            print(f"fuzz: seed {options.seed} case {number}: {what}; of {short[:200]!r}: {again}", file=sys.stderr)
    return cases, program.runs, program.bytes, failures


def main():
    parser = argparse.ArgumentParser(description=__doc__, formatter_class=argparse.RawDescriptionHelpFormatter)
    parser.add_argument("--cases", metavar="N", type=int)
    parser.add_argument("--minutes", metavar="M", type=float)
    parser.add_argument("--seed", metavar="S", type=int, default=1)
    parser.add_argument("--jobs", metavar="J", type=int, default=1)
    parser.add_argument("--commands", metavar="NAMES", default=",".join(COMMANDS))
    parser.add_argument("--program", metavar="PROGRAM")
    options = parser.parse_args()
    options.commands = options.commands.split(",")
    for name in options.commands:
        if name not in COMMANDS:
            parser.error(f"no command {name}")
    if options.program is None:
        subprocess.run([TOP / "run", "make", "1"], stdout=subprocess.DEVNULL, check=True)
        options.program = BUILT
    start = time.time()
    options.deadline = start + (options.minutes * 60 if options.minutes else float("inf"))
    options.cases = options.cases or (float("inf") if options.minutes else 1000)
    with multiprocessing.Pool(options.jobs) as pool:
        totals = pool.starmap(run_cases, [(options, part) for part in range(options.jobs)])
    cases, runs, size, failures = map(sum, zip(*totals))
    hours = (time.time() - start) / 3600
    print(f"fuzz: {cases} cases, {runs} runs, {size} bytes, {failures} failures, {cases / hours:.0f} cases an hour")
    sys.exit(1 if failures or not cases else 0)


if __name__ == "__main__":
    main()
