#!/usr/bin/env python3
"""Reads a script on standard input, and prints the report of the program, or its tokens.

Use: report.py [--backslash] [--grouped] [tokens] < FILE

A line of `tokens` is KIND FLAGS START LEN JUNK, in numbers. The status is 4 if the input is not
UTF-8, 5 if it is too long, 6 if memory runs out, and 1 for any other failure.
"""
import sys
from typing import Iterator, List

import squawk


def token_lines(text: squawk.Text, backslash: bool) -> Iterator[str]:
    """Yields the line of each token."""
    for t in text.tokens(backslash=backslash):
        yield f"{int(t.kind)} {t.flags} {t.start} {t.end - t.start} {t.junk}"


def report_lines(text: squawk.Text, backslash: bool, grouped: bool) -> Iterator[str]:
    """Yields the lines of the report."""
    parse = text.parse(backslash=backslash, grouped=grouped)
    depth = 0
    for step in parse.steps:
        if step.action is squawk.StepAction.EXIT:
            depth -= 1
            continue
        is_node = step.action is squawk.StepAction.ENTER
        yield f"{depth} {'N' if is_node else 'T'} {step.name} {step.start}..{step.end}"
        depth += is_node
    for error in parse.errors:
        yield f"E {error.start}..{error.end} {error.message}"


def main(words: List[str]) -> int:
    """Runs the command, and returns the status."""
    options = []
    for option in ("--backslash", "--grouped"):
        options.append(words[:1] == [option])
        words = words[options[-1] :]
    backslash, grouped = options
    if words not in ([], ["tokens"]):
        print("report: bad words", file=sys.stderr)
        return 1
    try:
        text = squawk.Text(sys.stdin.buffer.read().decode("utf-8"))
        lines = token_lines(text, backslash) if words else report_lines(text, backslash, grouped)
        for line in lines:
            print(line)
    except UnicodeDecodeError as error:
        print(f"report: {error}", file=sys.stderr)
        return 4
    except squawk.TooLong:
        print("report: too long", file=sys.stderr)
        return 5
    except MemoryError:
        print("report: out of memory", file=sys.stderr)
        return 6
    return 0


if __name__ == "__main__":
    sys.exit(main(sys.argv[1:]))
