#!/usr/bin/env python3
"""Finds a perfect hash of the keywords and of the contextual keywords, and prints `squawk_words/src/slots.rt`.

Use: find_slots.py > crates/squawk_words/src/slots.rt

The words are read from `squawk_words/src/tables.rt`. HEAD below, which becomes the head of the file, says by which rule
a word has its slot. The factors of the four letters are the first, in the order of `itertools.product`, by which no two
words of the same length and first letter have the same sum. The starts are then found cell by cell, the fullest first:
each cell has the lowest start from SPAN on at which its words fall on free slots.
"""
import itertools
import os
import re
from collections import defaultdict

TABLES = os.path.join(os.path.dirname(os.path.abspath(__file__)), "../crates/squawk_words/src/tables.rt")
LETTERS = 32
SPAN = 128

HEAD = """\
//! The slots of the words, which a perfect hash of the length and five letters finds.
//!
//! A letter counts as its place in the alphabet, in uppercase and lowercase alike, and `_` as 31.
//! The slot of a word is its start plus `({sum}) % {span}`,
//! where the middle letter is at half of the length, rounded down, and the start is that of the
//! length and the first letter. Each slot has the index of its word in the table of words. A slot
//! without a word has the number of words, which is no index; so have the first {span} slots, where
//! a length and first letter without words start.
//!
//! `scripts/find_slots.py` finds these numbers and prints this file. That the slot of each word has
//! its index is proved by computation (`proofs/HashTests.antt`). PostgreSQL too looks its keywords
//! up by a perfect hash (`src/tools/PerfectHash.pm`).
"""


def words_of(name):
    """The words of a text of tables.rt, in order."""
    with open(TABLES, encoding="utf-8") as file:
        return re.search(rf'const {name}: &str = "\\\n(.*?)";', file.read(), re.DOTALL)[1].split()


def letter(byte):
    return ord(byte) % LETTERS


def sum_of(factors, word):
    letters = (word[1], word[len(word) // 2], word[-2], word[-1])
    return sum(factor * letter(byte) for factor, byte in zip(factors, letters)) % SPAN


def tell_apart(factors, words):
    keys = {(len(word), letter(word[0]), sum_of(factors, word)) for word in words}
    return len(keys) == len(words)


def fill(factors, words):
    """The starts and the slots of the words."""
    cells = defaultdict(dict)
    for index, word in enumerate(words):
        cells[len(word) * LETTERS + letter(word[0])][sum_of(factors, word)] = index
    starts = [0] * ((max(map(len, words)) + 1) * LETTERS)
    taken = {}
    for cell in sorted(cells, key=lambda cell: (-len(cells[cell]), cell)):
        start = SPAN
        while any(start + number in taken for number in cells[cell]):
            start += 1
        starts[cell] = start
        taken.update((start + number, index) for number, index in cells[cell].items())
    return starts, [taken.get(slot, len(words)) for slot in range(max(starts) + SPAN)]


def print_array(comment, name, numbers, columns):
    print(f"\n// {comment}\n#[rattlefmt::skip]")
    print(f"pub(crate) static {name}: [u16; {len(numbers)}] = [")
    for at in range(0, len(numbers), columns):
        print("    " + ", ".join(map(str, numbers[at : at + columns])) + ",")
    print("];")


def main():
    tables = {
        "KEYWORD": ("keywords", words_of("KEYWORD_TEXT")),
        "CONTEXTUAL": ("contextual keywords", words_of("CONTEXTUAL_TEXT")),
    }
    factors = next(
        factors
        for factors in itertools.product(range(1, 10), repeat=4)
        if all(tell_apart(factors, words) for _, words in tables.values())
    )
    names = ("second", "middle", "before_last", "last")
    terms = (name if factor == 1 else f"{factor} * {name}" for factor, name in zip(factors, names))
    print(HEAD.format(sum=" + ".join(terms), span=SPAN), end="")
    for name, (title, words) in tables.items():
        starts, slots = fill(factors, words)
        rows = f"The starts of the {title}: {LETTERS} for each length from 0 on, by the first letter."
        print_array(rows, f"{name}_SLOT_STARTS", starts, LETTERS // 2)
        print_array(f"The index in each slot of the {title}.", f"{name}_SLOTS", slots, 18)


main()
