#!/usr/bin/env python3
"""Compares the tables in the source with a file of tables, and prints two lines that sum it up.

Use: compare_tables.py TABLES_JSON

TABLES_JSON has under `kinds` a list of [number, name, printed text] in the order of the kinds, under `keywords` and
`contextual_keywords` lists of [word, name of its kind] by length and then by bytes, and under `sets` the names of the
members of each set, by the set's name. Compared with it are
    squawk_names: the count, the printed texts and where each begins
    squawk_kinds: the numbers, the constants, the list of kinds and the order in which each constant's number is proved
    squawk_words: both lists of words, the kinds in both tables and where each length begins, the members of each set,
    its constant, its bit and the flags of all kinds

Compared with each other are code and definition of
    squawk_statements: the rows of the opening table, in order, and the modifiers after CREATE
    squawk_lexed: the leaf kind of each token kind
and the definitions with TABLES_JSON too where it has them: `openings`, a list of [names of kinds, name of the node];
`modifiers`, a list of names; `leaf_kinds`, a list of [token kind, name of the leaf kind], in which a command that ends
the query is `PsqlCommand true`, any other `PsqlCommand false`, and `Ident` is a word that is no keyword. The order of
these three does not matter.

Each difference is printed on a line, up to twenty of a table. The status is 0 without a difference, 1 with one, 2 for
wrong words.
"""
import json
import os
import re
import sys

CRATES = os.path.join(os.path.dirname(os.path.abspath(__file__)), os.pardir, "crates")
SHOWN = 20


def source(*parts):
    """The text of a file of the crates."""
    with open(os.path.join(CRATES, *parts), encoding="utf-8") as file:
        return file.read()


def printed_texts():
    """The lines of `TEXTS`."""
    text = source("squawk_names", "src", "texts.rt")
    body = re.search(r'const TEXTS: &str = "\\\n(.*)\n";', text, re.S).group(1)
    return body.split("\n")


def starts():
    """The numbers of `STARTS`."""
    text = source("squawk_names", "src", "starts.rt")
    body = re.search(r"static STARTS: [^=]*= \[(.*)\];", text, re.S).group(1)
    return [int(number) for number in re.findall(r"\d+", body)]


def count():
    """The number of kinds that the source states."""
    return int(re.search(r"pub const COUNT: u16 = (\d+);", source("squawk_names", "src", "lib.rt")).group(1))


def numbers():
    """Number and name of each line of `Number`."""
    text = source("squawk_kinds", "src", "numbers.rt")
    return [(int(number), name) for name, number in re.findall(r"pub const (\w+): u16 = (\d+);", text)]


def constants():
    """Each constant of `SyntaxKind`, and the name of the number that it holds."""
    text = source("squawk_kinds", "src", "constants.rt")
    return re.findall(r"pub const (\w+): SyntaxKind = SyntaxKind \{ number: Number::(\w+) \};", text)


def listed():
    """The names in the list of kinds."""
    return re.findall(r"\bkind\.(\w+) ∷", source("squawk_kinds", "specs", "Kinds.antt"))


def in_order():
    """The names in the table of the constants' numbers."""
    text = source("squawk_kinds", "src", "order.rt")
    body = re.search(r"numbers_of!\[(.*)\];", text, re.S).group(1)
    return re.findall(r"\w+", re.sub(r"//.*", "", body))


def definition(text, name):
    """What a definition of a file of specs/ says, from its own name to the next empty line."""
    return re.search(r"^%s =(.*?)(?:\n\n|\Z)" % name, text, re.S | re.M).group(1)


def table(text, name):
    """What stands between the brackets of a table, without comments."""
    return re.sub(r"//.*", "", re.search(r"static %s: [^=]*= [^\[]*\[(.*?)\];" % name, text, re.S).group(1))


def word_pairs(name):
    """The pairs of word and kind in a list of words."""
    text = source("squawk_words", "specs", "Words.antt")
    return re.findall(r'\(codes "(\w+)", kind\.(\w+)\) ∷', definition(text, name))


def word_kinds(name):
    """The names in a table of words."""
    return re.findall(r"\w+", table(source("squawk_words", "src", "tables.rt"), name))


def word_starts(name):
    """The numbers of a table of where each length begins."""
    return [int(number) for number in word_kinds(name)]


def members(name):
    """The names in the list of a set."""
    text = source("squawk_words", "specs", "Sets.antt") + "\n" + source("squawk_words", "specs", "KeywordSets.antt")
    return re.findall(r"\bkind\.(\w+) ∷", definition(text, name.lower()))


def flags():
    """The flags of the kinds."""
    text = source("squawk_words", "src", "flags.rt")
    return [int(number, 16) for number in re.findall(r"0x\w+", table(text, "FLAGS"))]


def set_constants():
    """Each public constant of a set, and the name that it holds, as a constant would be named."""
    text = source("squawk_words", "src", "sets.rt")
    pairs = re.findall(r"pub const (\w+): KindSet = KindSet \{\s*set: Set::(\w+),", text)
    return [(constant, re.sub(r"(?<!^)(?=[A-Z])", "_", name).upper()) for constant, name in pairs]


def set_bits():
    """The names of the sets in the order of their bits."""
    text = definition(source("squawk_words", "specs", "Flags.antt"), "bit_of Punctuation")
    lines = re.findall(r"^bit_of (\w+) = (\d+)", "bit_of Punctuation =" + text, re.M)
    return [re.sub(r"(?<!^)(?=[A-Z])", "_", name).upper() for name, _ in sorted(lines, key=lambda line: int(line[1]))]


def row_kinds(text, expression):
    """The names of the kinds in a row of the definition, with the two lists that it may use written out."""
    expression = expression.replace("foreign_data_wrapper", definition(text, "foreign_data_wrapper"))
    search = definition(text, "text_search object")
    expression = re.sub(r"text_search (kind\.\w+)", lambda match: search.replace("object", match.group(1)), expression)
    return tuple(re.findall(r"kind\.(\w+)", expression))


def openings_in_definition():
    """The rows of the opening table: the names of the kinds that a statement begins with, and its node."""
    text = source("squawk_statements", "specs", "Opening.antt")
    rows = re.findall(r"^    \((.*), kind\.(\w+)\) ∷$", text, re.M)
    return [(row_kinds(text, kinds), node) for kinds, node in rows]


def openings_in_code():
    """The same rows, as the code has them."""
    text = source("squawk_statements", "src", "rows.rt")
    rows = re.findall(r"^    ([A-Z_ ]+) => ([A-Z_]+);$", text, re.M)
    return [(tuple(kinds.split()), node) for kinds, node in rows]


def modifiers_in_definition():
    """The names of the modifiers."""
    return re.findall(r"kind\.(\w+)", definition(source("squawk_statements", "specs", "Opening.antt"), "modifiers"))


def modifiers_in_code():
    """The same names, as the code has them."""
    text = source("squawk_statements", "src", "node.rt")
    body = re.search(r"^fn is_modifier\(.*?matches!\((.*?)\n    \)", text, re.S | re.M).group(1)
    return re.findall(r"SyntaxKind::(\w+)", body)


def leaf_kinds_in_definition():
    """Each token kind with its leaf kind."""
    text = source("squawk_lexed", "specs", "Leaf.antt")
    clause = r"^(?:leaf|literal)_kind \(?(?:token\.)?(\w+(?: true| false)?)[^=]* = kind\.(\w+)$"
    word = re.search(r"^word_kind word = unwrap_or \(keyword_of word\) kind\.(\w+)$", text, re.M).group(1)
    return [("Ident", word)] + re.findall(clause, text, re.M)


def leaf_kinds_in_code():
    """The same pairs, as the code has them."""
    text = source("squawk_lexed", "src", "kind.rt")
    pairs = [("Ident", re.search(r"^        None => SyntaxKind::(\w+),$", text, re.M).group(1))]
    for patterns, kind in re.findall(r"^        (.*) => SyntaxKind::(\w+),$", text, re.M):
        for name, ends_query in re.findall(r"(?:Token|Literal)Kind::(\w+)(?: \{ ends_query: (\w+) \})?", patterns):
            pairs.append((" ".join(filter(None, (name, ends_query))), kind))
    return pairs


def pairs_of(facts):
    """A list of pairs from the file, as tuples."""
    return [(tuple(first) if isinstance(first, list) else first, second) for first, second in facts]


def lengths_of(words):
    """How many words are shorter than each length, from 0 to one more than the longest."""
    return [sum(len(word) < size for word in words) for size in range(max(map(len, words)) + 2)]


def flags_of(sets, numbers, bits):
    """The flags that the sets give to the kinds up to the last member."""
    made = [0] * (1 + max(numbers[name] for names in sets.values() for name in names))
    for bit, name in enumerate(bits):
        for member in sets[name]:
            made[numbers[member]] |= 1 << bit
    return made


def word_differences(facts):
    """How many differences there are in the tables of words."""
    found = 0
    for name, starts_name in (("keywords", "KEYWORD_STARTS"), ("contextual_keywords", "CONTEXTUAL_STARTS")):
        pairs = [tuple(pair) for pair in facts[name]]
        found += differences("pair of %s" % name, word_pairs(name), pairs)
        found += differences("kind of %s" % name, word_kinds(name.upper()), [kind for _, kind in pairs])
        found += differences("start of %s" % name, word_starts(starts_name), lengths_of([word for word, _ in pairs]))
    return found


def set_differences(facts, numbers):
    """How many differences there are in the sets."""
    sets = facts["sets"]
    bits = set_bits()
    found = differences("set", sorted(bits), sorted(sets))
    found += differences("constant of a set", sorted(set_constants()), sorted((name, name) for name in sets))
    for name in sorted(sets):
        found += differences("member of %s" % name, members(name), sets[name])
    if not found:
        found += differences("flags", flags(), flags_of(sets, numbers, bits))
    return found


def statement_differences(facts):
    """How many differences there are in the opening table, the modifiers and the leaf kinds."""
    openings, modifiers, leaves = openings_in_definition(), modifiers_in_definition(), leaf_kinds_in_definition()
    found = differences("row of the code", openings_in_code(), openings)
    found += differences("modifier of the code", modifiers_in_code(), modifiers)
    found += differences("leaf kind of the code", sorted(leaf_kinds_in_code()), sorted(leaves))
    if "openings" in facts:
        found += differences("row", sorted(openings), sorted(pairs_of(facts["openings"])))
    if "modifiers" in facts:
        found += differences("modifier", sorted(modifiers), sorted(facts["modifiers"]))
    if "leaf_kinds" in facts:
        found += differences("leaf kind", sorted(leaves), sorted(pairs_of(facts["leaf_kinds"])))
    given = [name for name in ("openings", "modifiers", "leaf_kinds") if name in facts]
    line = "%d rows, %d modifiers and %d leaf kinds of code and definition compared, %d differences; in the file: %s"
    print(line % (
        len(openings), len(modifiers), len(leaves), found, ", ".join(given) or "none of them"))
    return found


def starts_of(texts):
    """Where each text begins when they stand one a line, and where the last line ends."""
    offsets = [0]
    for text in texts:
        offsets.append(offsets[-1] + len(text.encode()) + 1)
    return offsets


def differences(what, ours, theirs):
    """Prints the elements in which two lists differ, and returns their number."""
    indexes = [i for i in range(max(len(ours), len(theirs))) if ours[i:i + 1] != theirs[i:i + 1]]
    for i in indexes[:SHOWN]:
        print("%s %d: %r, to be %r" % (what, i, ours[i:i + 1], theirs[i:i + 1]))
    return len(indexes)


def main():
    if len(sys.argv) != 2:
        print("use: compare_tables.py TABLES_JSON", file=sys.stderr)
        return 2
    with open(sys.argv[1], encoding="utf-8") as file:
        facts = json.load(file)
    kinds = facts["kinds"]
    names = [name for _, name, _ in kinds]
    texts = [text for _, _, text in kinds]
    found = sum([
        differences("count", [count()], [len(kinds)]),
        differences("text", printed_texts(), texts),
        differences("start", starts(), starts_of(texts)),
        differences("number", numbers(), [(number, name) for number, name, _ in kinds]),
        differences("constant", constants(), [(name, name) for name in names]),
        differences("listed kind", listed(), names),
        differences("ordered constant", in_order(), names),
        word_differences(facts),
        set_differences(facts, {name: number for number, name, _ in kinds}),
    ])
    words = len(facts["keywords"]) + len(facts["contextual_keywords"])
    print("%d kinds, %d words and %d sets compared, %d differences" % (len(kinds), words, len(facts["sets"]), found))
    found += statement_differences(facts)
    return 1 if found else 0


if __name__ == "__main__":
    sys.exit(main())
