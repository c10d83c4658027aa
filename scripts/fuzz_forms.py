"""What holds of the outputs of `split`, `quote`, `squeeze` and `clauses`, for every text."""
import re

from fuzz_report import BOM, TRIVIA, Report, check

PIECE = re.compile(r"([GSCD]) (\d+)\.\.(\d+)")
CLAUSES = {f"{name} clause" for name in "select,from,where,group by,having,order by,limit,offset".split(",")}

# Some statements that COPY data follows.
COPY = re.compile(rb"copy t( \(a\))? from stdin( csv)?;", re.IGNORECASE)

# The ends of COPY data that are not the end of the text.
DATA_ENDS = b"\n\\.\n", b"\n\\.\r\n"

# The kinds of the leaves that the three lines of `quote` are.
QUOTED_KINDS = "string literal", "dollar-quoted string literal", "identifier"


def output_of(program, words, data):
    """What the program writes on bytes with which it must end well."""
    status, output, line = program.run(words, data)
    check((status, line) == (0, ""), f"status: {words} ended with {status}, {line!r}")
    return output


def pieces_of(program, words, data):
    """The pieces of a script: their letters and ranges."""
    output = output_of(program, words, data)
    check(output == b"" or output.endswith(b"\n"), "split: the output ends without a line end")
    parsed = [PIECE.fullmatch(line) for line in output.decode("ascii", "replace").splitlines()]
    check(all(parsed), "split: a line has no form")
    return [(m[1], int(m[2]), int(m[3])) for m in parsed]


def piece_of(child):
    """The piece that a child of the root is, by the lines of its report."""
    _, letter, kind, start, end = child[0]
    return "G" if letter == "T" else "C" if kind == "psql command" else "S", start, end


def check_data(data, before, start, end):
    """A piece of COPY data stands after a statement, and its end is the first that it can have."""
    check(before == "S", f"split: the data at {start} is not after a statement")
    ends = [found + len(line) for line in DATA_ENDS if (found := data.find(line, start)) >= 0]
    check(end == min(ends, default=len(data)), f"split: the end of the data at {start}")


def check_ranges(data, pieces):
    """The pieces tile the text, and COPY data stands after statements that it follows, some of which are known."""
    offset, before, copies = 0, "", None
    for letter, start, end in pieces:
        check(start == offset < end, f"split: the range at {offset}")
        check(letter == "D" or not copies, f"split: no data at {offset}")
        if letter == "D":
            check_data(data, before, start, end)
        copies = letter == "S" and COPY.fullmatch(data[start:end])
        offset, before = end, letter
    check(offset == len(data), "split: the end of the last piece")


def check_split(program, reading, data, report, rng):
    """Up to COPY data the pieces are children of the root, and those from an offset on are those of the rest."""
    words = [*reading, "split"]
    pieces = pieces_of(program, words, data)
    check_ranges(data, pieces)
    children = [piece_of(child) for child in report.children()]
    first = next((index for index, piece in enumerate(pieces) if piece[0] == "D"), len(pieces))
    check(pieces[:first] == children[:first], "split: the pieces before COPY data are no children of the root")
    check(first < len(pieces) or len(pieces) == len(children), "split: there are other children of the root")
    rests = [piece for piece in pieces if piece[0] != "D" and not data[piece[1]:].startswith(BOM)]
    if rests:
        _, start, _ = rng.choice(rests)
        rest = pieces_of(program, words, data[start:])
        moved = [(letter, left + start, right + start) for letter, left, right in rest]
        check(moved == [piece for piece in pieces if piece[1] >= start], f"split: the rest from {start} on")


def quoted(data, quote):
    """The bytes between quotes, with each quote doubled."""
    return quote + data.replace(quote, quote * 2) + quote


def check_delimiter(data, line):
    """A line is the bytes between two delimiters, and the delimiter is the shortest that fits."""
    width = (len(line) - len(data)) // 2
    delimiters = [b"$" + b"q" * count + b"$" for count in range(width - 1)]
    check(width >= 2 and line == delimiters[-1] + data + delimiters[-1], "quote: the dollar-quoted string")
    fits = [(data + delimiter).find(delimiter) == len(data) for delimiter in delimiters]
    check(fits == [False] * (width - 2) + [True], "quote: the delimiter")


def check_quote(program, reading, data):
    """The three lines have the text as their value, and each is one leaf in its report."""
    output = output_of(program, [*reading, "quote"], data)
    string, identifier = quoted(data, b"'"), quoted(data, b'"')
    head, tail = string + b"\n", b"\n" + identifier + b"\n"
    check(len(output) >= len(head + tail) and output.startswith(head) and output.endswith(tail), "quote: the output")
    dollar = output[len(head):len(output) - len(tail)]
    check_delimiter(data, dollar)
    for kind, text in zip(QUOTED_KINDS, (string, dollar, identifier)):
        report = Report(program.report([], text))
        check(report.lines[2:] == [(2, "T", kind, 0, len(text))], f"quote: the leaf of the {kind}")
        check(len(report.errors) == 1, f"quote: the errors of the {kind}")


def tokens(data, report):
    """The kinds and bytes of the leaves that are no trivia."""
    return [(kind, data[start:end]) for _, _, kind, start, end in report.leaves if kind not in TRIVIA]


def messages(report):
    """The messages of the errors that are not of trivia."""
    return [message for *_, message in report.errors if message != "unterminated block comment"]


def check_squeeze(program, reading, data, report):
    """The squeezed text is no longer, has the same tokens besides trivia, and stays when it is squeezed again."""
    words = [*reading, "squeeze"]
    squeezed = output_of(program, words, data)
    check(len(squeezed) <= len(data), "squeeze: the squeezed text is longer")
    check(output_of(program, words, squeezed) == squeezed, "squeeze: twice is not once")
    again = Report(program.report(reading, squeezed))
    check(tokens(squeezed, again) == tokens(data, report), "squeeze: the tokens")
    check(messages(again) == messages(report), "squeeze: the errors")
    trivia = [(start, end) for _, _, kind, start, end in again.leaves if kind in TRIVIA]
    check(all(squeezed[start:end] in (b" ", b"\n") for start, end in trivia), "squeeze: the trivia")
    check(all(end != start for (_, end), (start, _) in zip(trivia, trivia[1:])), "squeeze: two trivia in a row")


def without_clauses(lines):
    """The lines of a report without its clause nodes."""
    inside = False
    for depth, letter, kind, start, end in lines:
        inside = inside and depth > 2
        if (depth, letter) == (2, "N") and kind in CLAUSES:
            inside = True
        else:
            yield depth - inside, letter, kind, start, end


def check_clauses(program, reading, data, report):
    """Without its clause nodes the report is the one without the command; they are in `select` statements alone."""
    clauses = Report(program.report([*reading, "clauses"], data))
    clauses.check_tree(data)
    check(list(without_clauses(clauses.lines)) == report.lines, "clauses: the lines without clause nodes")
    check(clauses.errors == report.errors, "clauses: the errors")
    for child in clauses.children():
        words = [line[2] for line in child if line[:2] == (2, "T")]
        check(child[0][2] != "select" or "`select`" not in words, f"clauses: none at {child[0][3]}")
        nodes = [line for line in child if line[1] == "N" and line[2] in CLAUSES]
        check(not nodes or child[0][2] == "select", f"clauses: a clause in the statement at {child[0][3]}")
        check(all(line[0] == 2 for line in nodes), f"clauses: the depth of a clause in the statement at {child[0][3]}")
