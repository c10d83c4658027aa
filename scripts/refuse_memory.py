#!/usr/bin/env python3
"""Refuses each growth of the program's memory in turn, and checks how the program ends.

Use: refuse_memory.py [--program PROGRAM] [--runs NAMES]
     refuse_memory.py --program TESTS --test NAME

The program is the one that ./run builds, which is built first if need be; PROGRAM is any other. NAMES are one or more
of these, with commas between them; all of them if nothing is said:
  select      the report of one statement
  migration   the report of a migration of five statements
  make        `make 4`
  edit        `replay` of a document of three statements and an edit of it
  replay      `replay` of two edits of one statement
  document    `replay` of a document of 1000 tokens and edits at its start, in the middle and at its end
  backslash, grouped, both
              the report of a statement with the option `--backslash`, with `--grouped` and with both
  backslash_replay, grouped_replay, both_replay
              `replay` of an edit, with these options
  both_make   `make 4` with both options
  split, quote, squeeze, clauses
              these commands on a script of statements, COPY data, comments and psql commands
  backslash_split, grouped_split, both_split, backslash_squeeze, grouped_clauses, both_clauses
              these commands on the text of `both`, with these options
  long_quote  `quote` of a text with 40 delimiters of dollar-quoted strings
  long_split, long_squeeze, long_clauses
              these commands on a text of 400 statements
  unchanged   a test of squawk_document: after an edit without memory a document is the same as before

A growth is a call of malloc, calloc, realloc, posix_memalign, aligned_alloc or mmap. The script compiles a library
with `cc` that is loaded before the C library and refuses such calls. It starts the program with the first call refused,
then the second, and so on, until a run meets no refusal. Each is refused twice: together with all after it, and alone.

- With all after it refused, the status must be 6, standard output empty, and the error line `out of memory`. There is
  no error line while the words of the command line are made: these growths come first, and a run with words that name
  no command has at least as many.
- Refused alone, the run must end in the same way, or with status 0 and the same output as without the library: the
  program can do without room that it reserves in advance.

Each run has a line: its name, the number of growths, and how many of these are for the words and how many the program
can do without. A test must pass whichever of its growths are refused. The one of `unchanged` is in the program that
`rt test` leaves in crates/squawk_document; if it is not there, `rt test` runs first. With --test, TESTS is such a
program, `out/CRATE_tests` of any crate, and NAME the full name of a test in it. The last line has the sums. The status
is 0 if all is as it must be, else 1. It needs Linux with the GNU C library, and a C compiler `cc`.
"""
import argparse
import os
import pathlib
import subprocess
import sys
import tempfile

TOP = pathlib.Path(__file__).resolve().parent.parent
BUILT = TOP / "crates/squawk_show/out/squawk_show"
TESTS = TOP / "crates/squawk_document/out/squawk_document_tests"

# The status and the error line after a refused growth.
STATUS = 6
LINE = b"out of memory\n"

# A run longer than this many seconds has failed.
SECONDS = 60

# The library. REFUSE_FIRST is the number of the first refused call, from 1; REFUSE_LAST that of the last. At a refusal
# a byte goes to the file descriptor REFUSE_REPORT.
LIBRARY = r"""
#define _GNU_SOURCE
#include <errno.h>
#include <stdlib.h>
#include <sys/mman.h>
#include <sys/syscall.h>
#include <unistd.h>

void *__libc_malloc(size_t);
void *__libc_calloc(size_t, size_t);
void *__libc_realloc(void *, size_t);
void *__libc_memalign(size_t, size_t);

static long calls, first, last;
static int report = -1;

static long number(const char *name) {
    const char *value = getenv(name);
    return value ? atol(value) : -1;
}

__attribute__((constructor)) static void begin(void) {
    first = number("REFUSE_FIRST");
    last = number("REFUSE_LAST");
    report = number("REFUSE_REPORT");
}

static int refused(void) {
    if (report < 0) return 0;
    calls++;
    if (calls < first || calls > last) return 0;
    if (write(report, "r", 1) != 1) abort();
    errno = ENOMEM;
    return 1;
}

void *malloc(size_t size) { return refused() ? NULL : __libc_malloc(size); }
void *calloc(size_t count, size_t size) { return refused() ? NULL : __libc_calloc(count, size); }
void *realloc(void *old, size_t size) { return refused() ? NULL : __libc_realloc(old, size); }
void *aligned_alloc(size_t align, size_t size) { return refused() ? NULL : __libc_memalign(align, size); }

int posix_memalign(void **result, size_t align, size_t size) {
    if (refused()) return ENOMEM;
    *result = __libc_memalign(align, size);
    return *result ? 0 : ENOMEM;
}

void *mmap(void *address, size_t size, int protection, int flags, int file, off_t offset) {
    if (refused()) return MAP_FAILED;
    return (void *)syscall(SYS_mmap, address, size, protection, flags, file, offset);
}
"""

MIGRATION = r"""BEGIN;
create table if not exists t (id bigint primary key, "Name" text default E'a\'b');
create unique index concurrently i on t (id);
create or replace function f() returns int language sql as $body$ select 1; select 2; $body$;
COMMIT;
"""

# Both options read this text in another way: a backslash escapes a quote, and a semicolon stands in parentheses.
BOTH = r"select (1; '\'); select 2; '); select 3;"

# A script with a piece of each kind: gaps, statements, a psql command and COPY data.
SCRIPT = r"""-- It's a script.
\echo start
create table t (a text);
copy t (a) from stdin;
it's
\.
select a  /* all */  from t where (a <> '') group by a limit 1 \g
"""

# A text with 40 delimiters of dollar-quoted strings, none of which fits.
DELIMITERS = "".join(f"${'q' * count}$ " for count in range(40))

# A text of 400 statements, with comments.
LONG = "select a from t;  -- a\n" * 400


def record(start, end, new):
    """A record of a script of edits: the range from start to end is replaced by the text `new`."""
    return f"@{start} {end} {len(new.encode())}\n{new}\n"


def document():
    """A script that makes a document of 1000 tokens, and edits it."""
    text = "select a;\n" * 200
    middle = len(text) // 2
    return (record(0, 0, text) + record(middle, middle + 6, "delete") + record(0, 0, "/*") + record(0, 2, "")
            + record(len(text), len(text), "'") + record(0, len(text) + 1, ""))


def both_replay():
    """A script that makes a text that both options read in another way, and edits it."""
    return record(0, 0, BOTH) + record(BOTH.index("1"), BOTH.index("1") + 1, "22")


# The runs: the words and the standard input of each.
RUNS = {
    "select": ([], "select 1;"),
    "migration": ([], MIGRATION),
    "make": (["make", "4"], ""),
    "edit": (["replay"], record(0, 0, "select 1; select 2; select 3;") + record(17, 18, "22")),
    "replay": (["replay"], record(0, 0, "select 1;") + record(7, 8, "2")),
    "document": (["replay"], document()),
    "backslash": (["--backslash"], BOTH),
    "grouped": (["--grouped"], BOTH),
    "both": (["--backslash", "--grouped"], BOTH),
    "backslash_replay": (["--backslash", "replay"], both_replay()),
    "grouped_replay": (["--grouped", "replay"], both_replay()),
    "both_replay": (["--backslash", "--grouped", "replay"], both_replay()),
    "both_make": (["--backslash", "--grouped", "make", "4"], ""),
    "split": (["split"], SCRIPT),
    "quote": (["quote"], SCRIPT),
    "squeeze": (["squeeze"], SCRIPT),
    "clauses": (["clauses"], SCRIPT),
    "backslash_split": (["--backslash", "split"], BOTH),
    "grouped_split": (["--grouped", "split"], BOTH),
    "both_split": (["--backslash", "--grouped", "split"], BOTH),
    "backslash_squeeze": (["--backslash", "squeeze"], BOTH),
    "grouped_clauses": (["--grouped", "clauses"], BOTH),
    "both_clauses": (["--backslash", "--grouped", "clauses"], BOTH),
    "long_quote": (["quote"], DELIMITERS),
    "long_split": (["split"], LONG),
    "long_squeeze": (["squeeze"], LONG),
    "long_clauses": (["clauses"], LONG),
}

# The runs of a test, whose program is that of TESTS.
TEST_RUNS = {"unchanged": "tests::memory::refused_edits_change_nothing"}

# The last call that is refused, if all after the first are.
ALL = 10**9


class Refusals:
    """Runs the program with refused growths, and counts the runs that did not end as they must."""

    def __init__(self, program, library):
        self.program = program
        self.library = library
        self.failures = 0

    def end(self, words, text, first, last):
        """Runs the program, and returns whether a growth was refused, the status, the output and the error line."""
        reader, writer = os.pipe()
        numbers = {"REFUSE_FIRST": first, "REFUSE_LAST": last, "REFUSE_REPORT": writer}
        environment = {name: str(value) for name, value in numbers.items()} | {"LD_PRELOAD": self.library}
        with open(reader, "rb") as report:
            try:
                done = subprocess.run([self.program, *words], input=text, capture_output=True, env=environment,
                                      pass_fds=[writer], timeout=SECONDS, check=False)
            finally:
                os.close(writer)
            return report.read() != b"", done.returncode, done.stdout, done.stderr

    def wrong(self, name, first, last, ended):
        """Counts a run that did not end as it must, and prints a line for it."""
        self.failures += 1
        which = "" if first == 0 else f"growth {first}" + (" and all after it" if last == ALL else " alone")
        refused, status, output, line = ended
        print(f"refuse_memory: {name} {which}: {'refused' if refused else 'nothing refused'}, status {status},"
              f" {len(output)} bytes of output, error line {line!r}", file=sys.stderr)

    def silent_bound(self, words):
        """A bound of the growths of a run for its words: those of a run whose words name no command."""
        words = [words[0][::-1], *words[1:]] if words else ["x"]
        growths = 0
        while (ended := self.end(words, b"", growths + 1, ALL))[0]:
            growths += 1
        if ended != (False, 2, b"", b"bad words\n"):
            self.wrong(" ".join(words), 0, 0, ended)
        return growths

    def refuse(self, name, words, text):
        """Refuses each growth of a run, prints its line, and returns the number of growths."""
        done = subprocess.run([self.program, *words], input=text, capture_output=True, timeout=SECONDS, check=False)
        whole = (0, done.stdout, b"")
        if (done.returncode, done.stdout, done.stderr) != whole:
            self.wrong(name, 0, 0, (False, done.returncode, done.stdout, done.stderr))
            return 0
        bound = self.silent_bound(words)
        growths = silent = spared = 0
        while (ended := self.end(words, text, growths + 1, ALL))[0]:
            growths += 1
            alone = self.end(words, text, growths, growths)
            silent += silent == growths - 1 < bound and ended[3] == b""
            refusal = (STATUS, b"", b"" if silent == growths else LINE)
            spared += alone == (True, *whole)
            if ended != (True, *refusal):
                self.wrong(name, growths, ALL, ended)
            if alone not in ((True, *refusal), (True, *whole)):
                self.wrong(name, growths, growths, alone)
        if ended != (False, *whole):
            self.wrong(name, 0, 0, ended)
        print(f"{name:17} {growths:6} growths refused, {silent} for the words, {spared} that it can do without")
        return growths

    def refuse_test(self, name, test):
        """Refuses each growth of a test, which must pass, prints its line, and returns the number of growths."""
        growths = 0
        while (ended := self.end([test], b"", growths + 1, ALL))[0]:
            growths += 1
            for last, done in (ALL, ended), (growths, self.end([test], b"", growths, growths)):
                if done[:2] != (True, 0):
                    self.wrong(name, growths, last, done)
        if ended[1] != 0:
            self.wrong(name, 0, 0, ended)
        print(f"{name:17} {growths:6} growths refused, in a test")
        return growths


def compile_library(folder):
    """Compiles the library in a folder, and returns its path."""
    source, library = folder / "refuse.c", folder / "refuse.so"
    source.write_text(LIBRARY)
    subprocess.run(["cc", "-O1", "-shared", "-fPIC", "-o", library, source], check=True)
    return str(library)


def refuse_runs(names, program, library):
    """Refuses each growth of the runs with these names. Returns the numbers of growths and of wrong ends."""
    refusals = Refusals(program, library)
    total = sum(refusals.refuse(name, RUNS[name][0], RUNS[name][1].encode()) for name in names if name in RUNS)
    tests = Refusals(str(TESTS), library)
    total += sum(tests.refuse_test(name, TEST_RUNS[name]) for name in names if name in TEST_RUNS)
    return total, refusals.failures + tests.failures


def build(names, program):
    """Builds what the runs need, if need be, and returns the path of the program."""
    if program is None and any(name in RUNS for name in names):
        subprocess.run([TOP / "run", "make", "1"], stdout=subprocess.DEVNULL, check=True)
    if any(name in TEST_RUNS for name in names) and not TESTS.exists():
        subprocess.run(["rt", "test"], cwd=TESTS.parent.parent, stdout=subprocess.DEVNULL, check=True)
    return program or str(BUILT)


def main():
    runs = [*RUNS, *TEST_RUNS]
    parser = argparse.ArgumentParser(description=__doc__, formatter_class=argparse.RawDescriptionHelpFormatter)
    parser.add_argument("--program", metavar="PROGRAM")
    parser.add_argument("--runs", metavar="NAMES", default=",".join(runs))
    parser.add_argument("--test", metavar="NAME")
    options = parser.parse_args()
    names = [options.test] if options.test else options.runs.split(",")
    for name in names:
        if not options.test and name not in runs:
            parser.error(f"no run {name}")
    if options.test and not options.program:
        parser.error("--test needs --program")
    with tempfile.TemporaryDirectory() as folder:
        library = compile_library(pathlib.Path(folder))
        if options.test:
            refusals = Refusals(options.program, library)
            total, failures = refusals.refuse_test("test", options.test), refusals.failures
        else:
            total, failures = refuse_runs(names, build(names, options.program), library)
    print(f"refuse_memory: {len(names)} runs, {total} growths refused, each alone and with all after it,"
          f" {failures} wrong ends")
    sys.exit(1 if failures or not total else 0)


if __name__ == "__main__":
    main()
