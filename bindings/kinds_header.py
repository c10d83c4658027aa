#!/usr/bin/env python3
"""Prints the numbers of the kinds of leaves and nodes, for C or for Python.

Use: kinds_header.py > bindings/c/include/squawk_kinds.h
     kinds_header.py --python > bindings/python/squawk_kinds.py

The numbers are read from `squawk_kinds/src/numbers.rt`. A name with leading underscores, which no
leaf or node has as its kind, is left out: C++ keeps names with two underscores for itself.
"""
import os
import re
import sys

NUMBERS = os.path.join(
    os.path.dirname(os.path.abspath(__file__)), "../crates/squawk_kinds/src/numbers.rt"
)

C_HEAD = """\
/* The numbers of the kinds of leaves and nodes. Printed by bindings/kinds_header.py. */
#ifndef SQUAWK_KINDS_H
#define SQUAWK_KINDS_H

enum {\
"""

PYTHON_HEAD = '''\
"""The numbers of the kinds of leaves and nodes. Printed by bindings/kinds_header.py --python."""
'''


def read_rows():
    """Returns the name and the number of each kind that the files get, and the number of all."""
    with open(NUMBERS, encoding="utf-8") as file:
        rows = re.findall(r"^    pub const (\w+): u16 = (\d+);", file.read(), re.MULTILINE)
    if [int(number) for _, number in rows] != list(range(len(rows))):
        raise SystemExit("kinds_header: the kinds are not in the order of their numbers")
    return [row for row in rows if not row[0].startswith("_")], len(rows)


def c_header():
    """Returns the header."""
    rows, count = read_rows()
    lines = [f"  SQUAWK_KIND_{name} = {number},\n" for name, number in rows]
    return f"{C_HEAD}\n{''.join(lines)}  SQUAWK_KIND_COUNT = {count}\n}};\n\n#endif\n"


def python_module():
    """Returns the module."""
    rows, _ = read_rows()
    return PYTHON_HEAD + "\n" + "".join(f"{name} = {number}\n" for name, number in rows)


def main(words):
    """Prints one of them, and returns the status."""
    if words not in ([], ["--python"]):
        print("kinds_header: bad words", file=sys.stderr)
        return 1
    sys.stdout.write(python_module() if words else c_header())
    return 0


if __name__ == "__main__":
    sys.exit(main(sys.argv[1:]))
