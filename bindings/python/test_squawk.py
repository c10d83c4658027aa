"""Worked examples of each call, and the declarations against the header.

Use: python3 -m unittest discover bindings/python
"""
import doctest
import os
import re
import subprocess
import sys
import time
import unittest

import squawk
from squawk import Span, StepAction, Text, TokenFlag, TokenKind, kinds

HERE = os.path.dirname(os.path.abspath(__file__))


def enumerators(prefix):
    """Returns the numbers of the enumerators of the header with this prefix, by their names."""
    with open(os.path.join(HERE, "../c/include/squawk.h"), encoding="utf-8") as file:
        rows = re.findall(rf"\b{prefix}(\w+) = (\d+)", file.read())
    return {name: int(number) for name, number in rows}


def load_tests(_loader, tests, _pattern):
    """Adds the examples in the module's docstring."""
    tests.addTests(doctest.DocTestSuite(squawk))
    return tests


class Declarations(unittest.TestCase):
    def test_enums_are_those_of_the_header(self):
        for prefix, enum in [
            ("SQUAWK_TOKEN_", TokenKind),
            ("SQUAWK_FLAG_", TokenFlag),
            ("SQUAWK_STEP_", StepAction),
        ]:
            with self.subTest(prefix):
                numbers = {member.name: member.value for member in enum}
                self.assertEqual(numbers, enumerators(prefix))

    def test_kinds_are_what_the_script_prints(self):
        script = os.path.join(HERE, "../kinds_header.py")
        command = [sys.executable, script, "--python"]
        printed = subprocess.run(command, check=True, capture_output=True).stdout
        with open(kinds.__file__, "rb") as file:
            self.assertEqual(file.read(), printed)

    def test_kinds_are_those_of_the_library(self):
        numbers = [number for name, number in vars(kinds).items() if name.isupper()]
        self.assertEqual(numbers, list(range(len(numbers))))
        self.assertTrue(all(squawk.kind_name(number) for number in numbers))
        self.assertEqual(squawk.kind_name(kinds.SEMICOLON), "`;`")
        children = Text("select 1; ").parse().children()
        self.assertEqual([child.kind for child in children], [kinds.SELECT, kinds.WHITESPACE])

    def test_version_is_known(self):
        self.assertEqual(squawk.version(), (1, 0))


class Tokens(unittest.TestCase):
    def pairs(self, text, **options):
        text = Text(text)
        return [(t.kind, text.slice(t)) for t in text.tokens(**options)]

    def test_tokens_have_kinds_and_texts(self):
        self.assertEqual(
            self.pairs("select é, 'a';"),
            [
                (TokenKind.IDENT, "select"),
                (TokenKind.WHITESPACE, " "),
                (TokenKind.IDENT, "é"),
                (TokenKind.COMMA, ","),
                (TokenKind.WHITESPACE, " "),
                (TokenKind.STR, "'a'"),
                (TokenKind.SEMI, ";"),
            ],
        )
        self.assertEqual(self.pairs(""), [])
        self.assertEqual(self.pairs("\0")[0][0], TokenKind.UNKNOWN)

    def test_many_tokens_are_cut_in_portions(self):
        tokens = list(Text("x " * 5000).tokens())
        self.assertEqual([t.start for t in tokens], list(range(10000)))

    def test_tokens_have_flags(self):
        tokens = [t for t in Text("0x 1e 12ab $1 'open").tokens() if t.kind != 10]
        self.assertEqual([t.base for t in tokens], [16, None, 10, None, None])
        self.assertEqual([t.junk for t in tokens], [2, 2, 2, 2, 0])
        self.assertTrue(tokens[0].has(TokenFlag.EMPTY_INT))
        self.assertTrue(tokens[1].has(TokenFlag.EMPTY_EXPONENT))
        self.assertFalse(tokens[4].has(TokenFlag.TERMINATED))

    def test_tokens_with_an_end_say_whether_it_was_found(self):
        rows = [
            ("'a'", True),
            ("'a", False),
            ('"a"', True),
            ("/* a", False),
            ("$$a$$", True),
            ("a", None),
            ("-- a", None),
        ]
        for text, expected in rows:
            with self.subTest(text):
                self.assertIs(next(Text(text).tokens()).is_terminated, expected)

    def test_backslash_chooses_the_reading(self):
        self.assertEqual(len(self.pairs(r"'a\' y'", backslash=True)), 1)
        self.assertEqual(len(self.pairs(r"'a\' y'")), 4)

    def test_options_are_taken_for_true_or_false(self):
        self.assertEqual(len(self.pairs(r"'a\' y'", backslash="yes")), 1)
        self.assertEqual(len(self.pairs(r"'a\' y'", backslash=None)), 4)
        self.assertEqual(len(list(Text("(;);").parse(backslash=4, grouped=[1]).children())), 1)


class LongText(bytes):
    """Bytes that claim to be too many."""

    def __len__(self):
        return 2**32


class OddText(str):
    """Characters with other bytes, and with other characters."""

    def encode(self, *_args):
        return b"\xf0"

    def __str__(self):
        return "odd"

    def __len__(self):
        return 7


class Texts(unittest.TestCase):
    def test_a_lone_surrogate_is_refused(self):
        with self.assertRaises(UnicodeEncodeError):
            Text("\ud800")

    def test_bytes_are_those_of_the_characters(self):
        text = Text(OddText("é;"))
        self.assertEqual((text.text, text.data), ("é;", b"\xc3\xa9;"))
        self.assertIs(type(text.text), str)
        self.assertEqual([token.end for token in text.tokens()], [2, 3])
        self.assertEqual(text.byte_offset(2), 3)
        for other in (b"\xf0", 5, None):
            with self.subTest(other=other), self.assertRaises(TypeError):
                Text(other)

    def test_bytes_and_characters_cannot_be_set(self):
        text = Text("é")
        for name, value in [("data", b"\xf0"), ("text", "e")]:
            with self.subTest(name), self.assertRaises(AttributeError):
                setattr(text, name, value)

    def test_long_texts_are_refused_before_arrays_are_made(self):
        text = Text("")
        text._data = LongText()
        for call in (text.tokens, text.parse):
            with self.subTest(call=call), self.assertRaises(squawk.TooLong):
                call()
        squawk._check_length(2**32 - 1)


class Trees(unittest.TestCase):
    def test_steps_walk_the_tree(self):
        steps = Text("select 1;").parse().steps
        self.assertEqual([int(s.action) for s in steps], [0, 0, 1, 1, 1, 1, 2, 2])
        self.assertEqual([(s.start, s.end) for s in steps[1:3]], [(0, 9), (0, 6)])
        self.assertEqual(steps[1].name, "select")
        self.assertIsNone(steps[7].name)

    def test_children_are_slices_of_steps(self):
        text = Text("select (1); ;")
        children = list(text.parse().children())
        self.assertEqual([text.slice(c) for c in children], ["select (1);", " ", ";"])
        self.assertEqual([c.is_node for c in children], [True, False, True])
        self.assertEqual([len(c.steps) for c in children], [10, 1, 3])
        inside = list(children[0].children())
        self.assertEqual([text.slice(c) for c in inside], ["select", " ", "(1)", ";"])
        self.assertEqual([text.slice(c) for c in inside[2].children()], ["(", "1", ")"])
        self.assertEqual(list(inside[0].children()), [])

    def test_deep_trees_are_walked_in_linear_time(self):
        parse = Text("(" * 8000).parse()
        begin = time.process_time()
        leaf_count = depth = 0
        open_nodes = [parse.children()]
        while open_nodes:
            child = next(open_nodes[-1], None)
            if child is None:
                open_nodes.pop()
            elif child.is_node:
                open_nodes.append(child.children())
                depth = max(depth, len(open_nodes))
            else:
                self.assertEqual((child.kind, len(child.steps)), (kinds.L_PAREN, 1))
                leaf_count += 1
        self.assertEqual(leaf_count, 8000)
        self.assertGreaterEqual(depth, 8000)
        self.assertLess(time.process_time() - begin, 1)

    def test_grouped_chooses_the_division(self):
        text = Text("create rule r as on insert to t do (notify a; notify b);")
        for grouped, count in [(False, 2), (True, 1)]:
            nodes = [c for c in text.parse(grouped=grouped).children() if c.is_node]
            self.assertEqual(len(nodes), count)

    def test_arrays_grow_where_the_first_ones_are_too_small(self):
        self.assertEqual(len(Text(";" * 100).parse().steps), 302)
        errors = Text("comit;" * 100).parse().errors
        self.assertEqual(len(errors), 100)
        self.assertEqual((errors[99].start, errors[99].end), (594, 599))
        self.assertEqual(errors[99].message, "unknown statement")

    def test_errors_come_in_the_order_of_the_tokens(self):
        text = Text("select 0x; 1e_ 'a")
        errors = text.parse().errors
        self.assertEqual(
            [(text.slice(error), error.message) for error in errors],
            [
                ("0x", "missing digits after base prefix"),
                ("1e_", "unknown statement"),
                ("e", "missing digits in exponent"),
                ("_", "trailing junk after number"),
                ("'a", "unterminated string"),
            ],
        )
        self.assertIsInstance(errors[0], squawk.ParseError)
        self.assertNotIsInstance(errors[0], Exception)

    def test_an_empty_text_has_an_empty_tree(self):
        parse = Text("").parse()
        self.assertEqual((len(parse.steps), list(parse.children()), parse.errors), (2, [], []))


class Offsets(unittest.TestCase):
    def test_characters_are_counted_across_blocks(self):
        for unit in ("a", "é", "€", "😀", "aé€😀"):
            text = Text(unit * 5000)
            for chars in (0, 1, 2047, 2048, 4095, 4096, 4097, len(text.text)):
                at = text.byte_offset(chars)
                with self.subTest(unit=unit, chars=chars):
                    self.assertEqual(at, len(text.text[:chars].encode()))
                    self.assertEqual(text.char_offset(at), chars)

    def test_ranges_are_those_of_the_characters(self):
        text = Text("é 'ß'")
        token = list(text.tokens())[2]
        start, end = text.char_range(token)
        self.assertEqual((token.start, token.end), (3, 7))
        self.assertEqual((start, end, text.text[start:end]), (2, 5, "'ß'"))
        self.assertEqual(text.slice(Span(3, 7)), "'ß'")

    def test_lines_and_columns_count_from_one(self):
        text = Text("é\nßx;\n")
        rows = [(0, (1, 1)), (2, (1, 2)), (3, (2, 1)), (5, (2, 2)), (8, (3, 1))]
        for offset, expected in rows:
            self.assertEqual(text.line_column(offset), expected)
        self.assertEqual(Text("").line_column(0), (1, 1))

    def test_lf_alone_ends_a_line(self):
        text = Text("a\r\nb\rc\u2028d\n")
        rows = [(1, (1, 2)), (2, (1, 3)), (3, (2, 1)), (5, (2, 3)), (9, (2, 5)), (11, (3, 1))]
        for offset, expected in rows:
            with self.subTest(offset):
                self.assertEqual(text.line_column(offset), expected)

    def test_offsets_of_a_long_text_are_found_fast(self):
        text = Text("é;\n" * 200000)
        begin = time.process_time()
        for line in range(0, 200000, 20):
            self.assertEqual(text.line_column(4 * line + 2), (line + 1, 2))
            self.assertEqual(text.byte_offset(3 * line), 4 * line)
        self.assertLess(time.process_time() - begin, 1)

    def test_offsets_out_of_range_are_refused(self):
        for text in (Text(""), Text("ab"), Text("éß")):
            for call, end in [
                (text.char_offset, len(text.data)),
                (text.line_column, len(text.data)),
                (text.byte_offset, len(text.text)),
            ]:
                call(end)
                for offset in (-1, end + 1, 2**64):
                    with self.subTest(text=text.text, call=call, offset=offset):
                        self.assertRaises(ValueError, call, offset)

    def test_offsets_inside_a_character_are_refused(self):
        text = Text("a😀é")
        self.assertEqual([text.char_offset(offset) for offset in (0, 1, 5, 7)], [0, 1, 2, 3])
        for offset in (2, 3, 4, 6):
            for call in (text.char_offset, text.line_column):
                with self.subTest(call=call, offset=offset):
                    self.assertRaises(ValueError, call, offset)

    def test_ranges_that_the_text_does_not_have_are_refused(self):
        text = Text("aéb")
        self.assertEqual((text.slice(Span(4, 4)), text.char_range(Span(4, 4))), ("", (3, 3)))
        for start, end in [(-1, 1), (0, 5), (0, 2), (2, 3), (2, 2), (3, 1)]:
            for call in (text.slice, text.char_range):
                with self.subTest(call=call, start=start, end=end):
                    self.assertRaises(ValueError, call, Span(start, end))


class Names(unittest.TestCase):
    def test_numbers_that_nothing_has_are_refused(self):
        for call, numbers in [
            (squawk.kind_name, (-1, 2068, 2**16, 2**32)),
            (squawk.message, (-1, 0, 11, 2**32 + 1)),
        ]:
            for number in numbers:
                with self.subTest(call=call, number=number), self.assertRaises(ValueError):
                    call(number)

    def test_numbers_have_texts(self):
        self.assertEqual(squawk.kind_name(3), "`;`")
        self.assertEqual(squawk.message(3), "unterminated string")


if __name__ == "__main__":
    unittest.main()
