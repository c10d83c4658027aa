"""What holds of each report of the program, for every text."""
import re

LINE = re.compile(r"(\d+) ([NT]) (.*) (\d+)\.\.(\d+)")
ERROR = re.compile(r"E (\d+)\.\.(\d+) (.*)")
TRIVIA = "whitespace", "comment"
CLOSING = "`;`", "psql terminator"
BOM = "\ufeff".encode()
UNKNOWN = "unknown statement"
MESSAGES = {
    UNKNOWN, "unknown character", "unterminated block comment", "unterminated string",
    "unterminated quoted identifier", "missing digits after base prefix", "missing digits in exponent",
    "trailing junk after number", "missing digits in parameter", "trailing junk after parameter",
}


class Wrong(Exception):
    """A check that failed."""


def check(holds, what):
    """Says what is wrong, unless it holds."""
    if not holds:
        raise Wrong(what)


class Report:
    """A report: its lines for nodes and leaves, as depth, letter, kind and range, and its errors."""

    def __init__(self, lines):
        parsed = [(LINE.fullmatch(line), ERROR.fullmatch(line)) for line in lines]
        check(all(line or error for line, error in parsed), "report: a line has no form")
        count = next((index for index, (line, _) in enumerate(parsed) if not line), len(parsed))
        check(not any(line for line, _ in parsed[count:]), "report: an error stands before a node or leaf")
        self.lines = [(int(m[1]), m[2], m[3], int(m[4]), int(m[5])) for m, _ in parsed[:count]]
        self.errors = [(int(m[1]), int(m[2]), m[3]) for _, m in parsed[count:]]
        self.leaves = [line for line in self.lines if line[1] == "T"]

    def check_tree(self, data):
        """The leaves tile the text, and the nodes nest."""
        check(self.lines[:1] == [(0, "N", "source file", 0, len(data))], "tree: the root")
        offset, open_nodes, after_node, trivial = 0, [len(data)], False, False
        for depth, letter, kind, start, end in self.lines[1:] + [(1, "N", "", len(data), len(data))]:
            check(1 <= depth <= len(open_nodes), f"tree: the depth at {offset}")
            closed, open_nodes = open_nodes[depth:], open_nodes[:depth]
            check(all(node == offset for node in closed), f"tree: the end of a node at {offset}")
            check(not (closed and trivial), f"tree: trivia ends a node at {offset}")
            check(start == offset and end <= open_nodes[-1], f"tree: the range at {offset}")
            if letter == "N":
                check(start < end or kind == "", f"tree: an empty node at {offset}")
                open_nodes.append(end)
                after_node = True
                continue
            trivial = kind in TRIVIA
            check(start < end and not (after_node and trivial), f"tree: the leaf at {offset}")
            check_leaf(kind, start, data[start:end])
            offset, after_node = end, False

    def check_errors(self):
        """Each error lies in a leaf, the errors are in order, and each unknown statement has one."""
        check(all(message in MESSAGES for *_, message in self.errors), "errors: a message")
        leaves = iter(self.leaves)
        leaf = next(leaves, None)
        for start, end, _ in self.errors:
            while leaf and leaf[4] <= start:
                leaf = next(leaves, None)
            check(leaf and leaf[3] <= start < end <= leaf[4], f"errors: the range of the error at {start}")
        unknown = [start for start, _, message in self.errors if message == UNKNOWN]
        nodes = [line[3] for line in self.lines if line[:3] == (1, "N", "error")]
        check(unknown == nodes, "errors: the unknown statements")

    def children(self):
        """The lines of each child of the root."""
        starts = [index for index, line in enumerate(self.lines) if line[0] == 1]
        return [self.lines[start:end] for start, end in zip(starts, starts[1:] + [len(self.lines)])]

    def closed_ends(self):
        """The ends of the children that are closed: their last leaf is a semicolon or a psql command."""
        for index, (depth, letter, kind, _, end) in enumerate(self.lines):
            last = index + 1 == len(self.lines) or self.lines[index + 1][0] == 1
            if last and (depth, letter) == (2, "T"):
                if kind in CLOSING or self.lines[index - 1][2] == "psql command":
                    yield end

    def shifted(self, by):
        """The lines without the root, and the errors, moved by an offset."""
        errors = [(start + by, end + by, message) for start, end, message in self.errors]
        return [moved(line, by) for line in self.lines[1:]], errors


def check_leaf(kind, start, token):
    """The kind of a leaf fits its bytes, as far as its name says."""
    fits = True
    if kind == "whitespace":
        fits = token.strip(b" \t\n\v\f\r") == b"" or (start == 0 and token == BOM)
    elif kind == "comment":
        fits = token.startswith((b"--", b"/*"))
    elif kind.startswith("`"):
        fits = kind[1:-1].encode() in (token.lower(), token.removeprefix(b"\\"))
    check(fits, f"tree: the kind {kind} of {token!r}")


def moved(line, by):
    """A line, moved by an offset."""
    depth, letter, kind, start, end = line
    return depth, letter, kind, start + by, end + by


def check_kept(before, after, counts):
    """The leaves and children that an edit keeps, by the counts of its line, are in the reports before and after it."""
    by = after.lines[0][4] - before.lines[0][4]
    front_leaves, _, back_leaves, front, _, back = counts
    leaves = [[(0, *line[1:]) for line in report.leaves] for report in (before, after)]
    check(leaves[0][:front_leaves] == leaves[1][:front_leaves], "kept: the leaves before the edit")
    last = [moved(line, by) for line in leaves[0][len(leaves[0]) - back_leaves:]]
    check(last == leaves[1][len(leaves[1]) - back_leaves:], "kept: the leaves after the edit")
    old, new = before.children(), after.children()
    check(old[:front] == new[:front], "kept: the children before the edit")
    last = [[moved(line, by) for line in child] for child in old[len(old) - back:]]
    check(last == new[len(new) - back:], "kept: the children after the edit")
