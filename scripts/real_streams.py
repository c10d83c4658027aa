#!/usr/bin/env python3
"""Runs the program with streams, words and limits of the system that are bad, and compares its ends with the docs.

Use: real_streams.py [--program PROGRAM] [--huge]

The program is the one that ./run builds, which is built first if need be; PROGRAM is any other. For each case the
script prints the status, the error line and how much of the output was written: all of it, a part from its beginning,
or none. The cases and their ends are those of the table in docs/RUN.md, "Real streams". The last line has the
numbers of cases and of wrong ends. The status is 0 if there are no wrong ends, and the table and the script have the
same cases, else 1.

With --huge it also runs the cases of 4 GiB, which need 6 GB of memory and half a minute. Where memory is short they may
end with status 6. It needs Linux.
"""
import argparse
import contextlib
import os
import pathlib
import re
import resource
import signal
import subprocess
import sys
import tempfile
import threading
import time

TOP = pathlib.Path(__file__).resolve().parent.parent
BUILT = TOP / "crates/squawk_show/out/squawk_show"
PAGE = TOP / "docs/RUN.md"

MB = 1000000

# The longest text in bytes.
LIMIT = 4294967295

# The seconds after which a run has failed.
SECONDS = 60
HUGE_SECONDS = 900

SHORT = b"select 1;"
# A text whose report is longer than a pipe takes.
LONG = b"select a, b from t;\n" * 4000
NOT_UTF8 = b"s\xff"
DEEP = b"select " + b"(" * 100000
# A text of 32 MB, which does not fit into 64 MB together with its tree.
LARGE = b"select 1;\n" * 3200000
# The reports of texts of spaces alone, by their lengths.
SPACES = {LIMIT: "0 N source file 0..{0}\n1 T whitespace 0..{0}\n".format(LIMIT).encode(), LIMIT + 1: b""}
# The end of a run that finds too little memory.
WITHOUT_MEMORY = ("6", "`out of memory`", "none")

BAD_WORDS = ("nothing",)
MAKE = ("make", "4")

# Limits of the system: the kind, and the value twice.
MEMORY = (resource.RLIMIT_AS, (64 << 20, 64 << 20))
STACK = (resource.RLIMIT_STACK, (64 << 10, 64 << 10))
FILE_SIZE = (resource.RLIMIT_FSIZE, (4096, 4096))

# The cases by their names in the docs: words, text, standard input, standard output, standard error and a limit, where
# each differs from no words, the text SHORT, files and no limit.
CASES = {
    "the input is empty": {"text": b""},
    "the input comes byte by byte": {"source": "byte by byte"},
    "the program is stopped and continued while it reads": {"source": "stopped"},
    "the input is closed": {"source": "closed"},
    "the input is open for writing only": {"source": "write only"},
    "the input is a folder": {"source": "folder"},
    "the input is not there yet, and does not block": {"source": "not ready"},
    "the input is not UTF-8": {"text": NOT_UTF8},
    "the input is closed, `make 4`": {"words": MAKE, "source": "closed"},
    "the input is closed, words that name no command": {"words": BAD_WORDS, "source": "closed"},
    "a word is not UTF-8": {"words": (b"\xff",)},
    "a word is empty": {"words": ("",)},
    "the output is a full device": {"sink": "full"},
    "the output is closed": {"sink": "closed"},
    "the output is open for reading only": {"sink": "read only"},
    "the output is a pipe without a reader": {"sink": "no reader"},
    "the output is a pipe whose reader stops": {"text": LONG, "sink": "stops"},
    "the output is a pipe whose reader is slow": {"text": LONG, "sink": "slow"},
    "the output is a pipe that is full, and does not block": {"text": LONG, "sink": "not ready"},
    "the output is closed, the input is not UTF-8": {"text": NOT_UTF8, "sink": "closed"},
    "the error stream is closed": {"errors": "closed"},
    "the error stream is closed, words that name no command": {"words": BAD_WORDS, "errors": "closed"},
    "the error stream is a full device, words that name no command": {"words": BAD_WORDS, "errors": "full"},
    "all three streams are closed": {"source": "closed", "sink": "closed", "errors": "closed"},
    "64 MB of address space, 32 MB of input": {"text": LARGE, "limit": MEMORY},
    "64 KB of stack, 100000 open parentheses": {"text": DEEP, "limit": STACK},
    "4 KB as the largest size of a file, a longer output": {"text": LONG, "limit": FILE_SIZE},
    "4294967295 spaces": {"text": LIMIT, "source": "spaces"},
    "4294967296 spaces": {"text": LIMIT + 1, "source": "spaces"},
}

# The kinds of streams that are files or nothing, each with its path and mode. Those that are closed are closed by the
# new process.
OPENED = {
    "closed": (os.devnull, os.O_RDWR),
    "folder": (os.curdir, os.O_RDONLY),
    "full": ("/dev/full", os.O_WRONLY),
    "read only": (os.devnull, os.O_RDONLY),
    "write only": (os.devnull, os.O_WRONLY),
}


def feed(process, kind, text, end):
    """Writes the input of a process into the end of a pipe, in the way that the kind names, and closes it."""
    if kind == "not ready":
        process.wait()
    if kind == "stopped":
        time.sleep(0.05)
        process.send_signal(signal.SIGSTOP)
        time.sleep(0.05)
        process.send_signal(signal.SIGCONT)
    with contextlib.suppress(BrokenPipeError), open(end, "wb", buffering=0) as file:
        if kind == "spaces":
            for size in range(text, 0, -MB):
                file.write(b" " * min(size, MB))
        elif kind != "not ready":
            for byte in text:
                file.write(bytes([byte]))


def drain(process, kind, end, taken):
    """Reads the output of a process from the end of a pipe, in the way that the kind names, and closes it."""
    if kind == "not ready":
        process.wait()
    with open(end, "rb", buffering=0) as file:
        while piece := file.read(4096):
            taken.append(piece)
            if kind == "stops":
                break
            time.sleep(0.0005)


class Run:
    """One run of the program with its three streams."""

    def __init__(self, program, words=(), text=SHORT, source="file", sink="file", errors="file", limit=None):
        self.command = [program, *words]
        self.text = text
        self.kinds = [source, sink, errors]
        self.limit = limit
        self.pipes = [None, None, None]
        self.files = {}

    def stream(self, number, stack):
        """Opens the stream of a number, and keeps the other end of a pipe. Returns its file descriptor."""
        kind = self.kinds[number]
        if kind in OPENED:
            theirs = os.open(*OPENED[kind])
        elif kind == "file":
            file = self.files[number] = stack.enter_context(tempfile.TemporaryFile(buffering=0))
            if number == 0:
                file.write(self.text)
                file.seek(0)
            theirs = os.dup(file.fileno())
        else:
            theirs, self.pipes[number] = os.pipe() if number == 0 else reversed(os.pipe())
            os.set_blocking(theirs, kind != "not ready")
        if kind == "no reader":
            os.close(self.pipes[number])
        return theirs

    def prepare(self):
        """Closes streams and sets the limit, in the new process."""
        for number, kind in enumerate(self.kinds):
            if kind == "closed":
                os.close(number)
        if self.limit:
            resource.setrlimit(*self.limit)

    def threads(self, process, taken):
        """The threads that write the input and read the output, where these are pipes."""
        source, sink, _ = self.kinds
        if self.pipes[0] is not None:
            yield threading.Thread(target=feed, args=(process, source, self.text, self.pipes[0]))
        if self.pipes[1] is not None and sink != "no reader":
            yield threading.Thread(target=drain, args=(process, sink, self.pipes[1], taken))

    def written(self, number):
        """What the program wrote to the stream of a number, if that is a file."""
        if number not in self.files:
            return b""
        self.files[number].seek(0)
        return self.files[number].read()

    def end(self):
        """The status, the error line and the output."""
        taken = []
        with contextlib.ExitStack() as stack:
            streams = [self.stream(number, stack) for number in range(3)]
            process = subprocess.Popen(self.command, stdin=streams[0], stdout=streams[1], stderr=streams[2],
                                       preexec_fn=self.prepare)
            for stream in streams:
                os.close(stream)
            threads = list(self.threads(process, taken))
            for thread in threads:
                thread.start()
            try:
                status = process.wait(HUGE_SECONDS if self.kinds[0] == "spaces" else SECONDS)
            finally:
                process.kill()
            for thread in threads:
                thread.join()
            return status, self.written(2).decode(), b"".join(taken) or self.written(1)

    def amount(self, output):
        """How much an output is of the whole one, which a run with files for streams writes."""
        if output == b"":
            return "none"
        if self.kinds[0] == "spaces":
            whole = SPACES[self.text]
        else:
            whole = subprocess.run(self.command, input=self.text, stdout=subprocess.PIPE, check=True).stdout
        return "all" if output == whole else "part" if whole.startswith(output) else "wrong"

    def row(self):
        """The end as a row of the table in the docs, without the name."""
        status, line, output = self.end()
        status = f"signal {signal.Signals(-status).name}" if status < 0 else str(status)
        line = f"`{line[:-1]}`" if line.endswith("\n") else line or "none"
        return status, line, self.amount(output)


def table():
    """The rows of the docs by their names."""
    section = PAGE.read_text(encoding="utf-8").split("\n## Real streams\n")[1].split("\n## ")[0]
    rows = [re.split(r" *\| *", line.strip("| ")) for line in section.splitlines() if line.startswith("| ")]
    return {name: tuple(end) for name, *end in rows[1:]}


def main():
    parser = argparse.ArgumentParser(description=__doc__, formatter_class=argparse.RawDescriptionHelpFormatter)
    parser.add_argument("--program", metavar="PROGRAM")
    parser.add_argument("--huge", action="store_true")
    options = parser.parse_args()
    if options.program is None:
        subprocess.run([TOP / "run", "make", "1"], stdout=subprocess.DEVNULL, check=True)
    program = str(pathlib.Path(options.program or BUILT).resolve())
    rows = table()
    wrong = len(rows.keys() ^ CASES.keys())
    for name in rows.keys() ^ CASES.keys():
        print(f"real_streams: only the docs or only this script has: {name}", file=sys.stderr)
    count = 0
    for name, case in CASES.items():
        if case.get("source") == "spaces" and not options.huge:
            continue
        count += 1
        row = Run(program, **case).row()
        print(f"{name:62} | {' | '.join(row)}", flush=True)
        allowed = [rows.get(name)] + ([WITHOUT_MEMORY] if case.get("source") == "spaces" else [])
        if row not in allowed:
            wrong += 1
            print(f"real_streams: {name}: the docs have {rows.get(name)}", file=sys.stderr)
    print(f"real_streams: {count} cases, {wrong} wrong")
    sys.exit(1 if wrong else 0)


if __name__ == "__main__":
    main()
