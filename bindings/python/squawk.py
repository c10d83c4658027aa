"""A PostgreSQL lexer and lossless syntax trees, by ctypes over the proved library.

    >>> from squawk import Text
    >>> text = Text("select 'é'; comit;")
    >>> [text.slice(token) for token in text.tokens()][:4]
    ['select', ' ', "'é'", ';']
    >>> tree = text.parse()
    >>> [child.name for child in tree.children()]
    ['select', 'whitespace', 'error']
    >>> [(error.message, text.slice(error), text.char_range(error)) for error in tree.errors]
    [('unknown statement', 'comit', (12, 17))]

The library counts bytes of UTF-8, and Python counts characters. Here an offset in bytes has the
type `ByteOffset`, an offset in characters the type `CharOffset`, and `Text` turns one into the
other. `start` and `end` are always offsets in bytes.

`kinds` has a number for each kind of a leaf or a node, such as `kinds.SELECT`.

`SQUAWK_LIBRARY` in the environment names the shared library, which `bindings/build_libraries.sh`
makes; without it the library is `libsquawk.so` in the folder `bindings/lib`.

`bindings/c/include/squawk.h` says what the library is proved to do. This module is tested only.
"""
import array
import bisect
import ctypes
import enum
import functools
import os
import re
import struct
from typing import (
    Callable,
    Iterator,
    List,
    NamedTuple,
    NewType,
    Optional,
    Protocol,
    Sequence,
    Tuple,
)

import squawk_kinds as kinds

__all__ = [
    "ByteOffset",
    "CallError",
    "CharOffset",
    "Child",
    "HasRange",
    "OutOfMemory",
    "Parse",
    "ParseError",
    "Span",
    "Step",
    "StepAction",
    "Text",
    "Token",
    "TokenFlag",
    "TokenKind",
    "TooLong",
    "kind_name",
    "kinds",
    "message",
    "version",
]

ByteOffset = NewType("ByteOffset", int)
CharOffset = NewType("CharOffset", int)

# The version of the interface that is declared here.
_VERSION = 65536

_OK = 0
_TOO_LONG = 5
_OUT_OF_MEMORY = 6
_ARRAY_TOO_SMALL = 12

# Room for the name of every kind and for every message.
_NAME_ROOM = 40

# The number of tokens that are cut in one call.
_PORTION = 4096

# The records of squawk.h.
_TOKEN = struct.Struct("=HHIII")
_STEP = struct.Struct("=HHII")
_ERROR = struct.Struct("=III")


class CallError(Exception):
    """A call failed. An error in a text is no exception: see `ParseError`."""


class TooLong(CallError, ValueError):
    """The text has more than 4294967295 bytes."""


class OutOfMemory(CallError, MemoryError):
    """There is not enough memory."""


class TokenKind(enum.IntEnum):
    """The kind of a token (`docs/GRAMMAR.md`). No token of a text is an `EOF`."""

    UNKNOWN = 0
    INT = 1
    NUMERIC = 2
    STR = 3
    NATIONAL_STR = 4
    BYTE_STR = 5
    BIT_STR = 6
    DOLLAR_QUOTED_STR = 7
    UNICODE_ESC_STR = 8
    ESC_STR = 9
    WHITESPACE = 10
    IDENT = 11
    PSQL_COMMAND = 12
    SEMI = 13
    EOF = 14
    SLASH = 15
    LINE_COMMENT = 16
    BLOCK_COMMENT = 17
    MINUS = 18
    COLON = 19
    DOT = 20
    DOT_DOT = 21
    EQ = 22
    GT = 23
    AND = 24
    LT = 25
    BANG = 26
    PLUS = 27
    TILDE = 28
    POUND = 29
    QUESTION = 30
    OR = 31
    PERCENT = 32
    CARET = 33
    STAR = 34
    BACKTICK = 35
    AT = 36
    CLOSE_BRACKET = 37
    OPEN_BRACKET = 38
    CLOSE_CURLY = 39
    OPEN_CURLY = 40
    CLOSE_PAREN = 41
    OPEN_PAREN = 42
    COMMA = 43
    POSITIONAL_PARAM = 44
    QUOTED_IDENT = 45


_TOKEN_KINDS = tuple(TokenKind)

_KINDS_WITH_END = frozenset(
    {
        TokenKind.STR,
        TokenKind.NATIONAL_STR,
        TokenKind.BYTE_STR,
        TokenKind.BIT_STR,
        TokenKind.DOLLAR_QUOTED_STR,
        TokenKind.UNICODE_ESC_STR,
        TokenKind.ESC_STR,
        TokenKind.QUOTED_IDENT,
        TokenKind.BLOCK_COMMENT,
    }
)


class TokenFlag(enum.IntFlag):
    """The flags of a token."""

    TERMINATED = 1
    """A string, a quoted identifier or a block comment whose end was found."""
    UESCAPE = 2
    """A quoted identifier that begins with `U&`."""
    ENDS_QUERY = 4
    """A psql command that ends the query before it."""
    EMPTY_INT = 8
    """The prefix of an integer without digits and junk, as `0x`."""
    EMPTY_EXPONENT = 16
    """A number with an exponent without digits, as `1e`."""


class Token(NamedTuple):
    """A token, with its range in bytes."""

    kind: TokenKind
    flags: int
    """A sum of flags; for an integer also 256 times its base."""
    start: ByteOffset
    end: ByteOffset
    junk: int
    """Of a number and a parameter: how many bytes come before its trailing junk; otherwise 0."""

    def has(self, flag: TokenFlag) -> bool:
        """Whether the flag is set."""
        return bool(self.flags & flag)

    @property
    def is_terminated(self) -> Optional[bool]:
        """Of a string, a quoted identifier and a block comment: whether its end was found (if not,
        it extends to the end of the text). `None` for other tokens.
        """
        return self.has(TokenFlag.TERMINATED) if self.kind in _KINDS_WITH_END else None

    @property
    def base(self) -> Optional[int]:
        """The base of an integer: 2, 8, 10 or 16. `None` for other tokens."""
        return self.flags >> 8 or None


class StepAction(enum.IntEnum):
    """What a step of a tree does."""

    ENTER = 0
    LEAF = 1
    EXIT = 2


_STEP_ACTIONS = tuple(StepAction)


class Step(NamedTuple):
    """A step of a tree, with its range in bytes: of a node both where it is entered and left."""

    action: StepAction
    kind: int
    """The number of the kind of the node that is entered, or of the leaf; 0 at an exit."""
    start: ByteOffset
    end: ByteOffset

    @property
    def name(self) -> Optional[str]:
        """The printed text of the kind, or `None` at an exit."""
        return None if self.action is StepAction.EXIT else kind_name(self.kind)


class ParseError(NamedTuple):
    """An error in a text, with its range in bytes. Every text has a tree, so none is raised."""

    start: ByteOffset
    end: ByteOffset
    number: int
    """The number of the message, from 1 to 10."""

    @property
    def message(self) -> str:
        """The message."""
        return message(self.number)


class Child:
    """A child of a node: a leaf, which is one step, or a node, from its enter to its exit."""

    def __init__(self, parse: "Parse", first: int) -> None:
        self._parse = parse
        self._first = first
        self._step = parse.steps[first]

    @property
    def steps(self) -> List[Step]:
        """A copy of the steps of the leaf or the node."""
        return self._parse.steps[self._first : self._parse._last_steps[self._first] + 1]

    @property
    def is_node(self) -> bool:
        """Whether it is a node."""
        return self._step.action is StepAction.ENTER

    @property
    def kind(self) -> int:
        """The number of its kind, as `kinds` has it."""
        return self._step.kind

    @property
    def name(self) -> str:
        """The printed text of its kind."""
        return kind_name(self.kind)

    @property
    def start(self) -> ByteOffset:
        """Its first byte."""
        return self._step.start

    @property
    def end(self) -> ByteOffset:
        """The byte after its last."""
        return self._step.end

    def children(self) -> Iterator["Child"]:
        """Yields its children. A leaf has none. Each takes the same time, however large it is."""
        last_steps = self._parse._last_steps
        first, end = self._first + 1, last_steps[self._first]
        while first < end:
            yield Child(self._parse, first)
            first = last_steps[first] + 1


class Parse:
    """The tree of a text, and its errors."""

    def __init__(self, steps: List[Step], errors: List[ParseError]) -> None:
        self.steps = steps
        """The steps in the order of the text. The first one enters the root."""
        self.errors = errors
        """The errors, in the order of the tokens; at each token first those of the grammar, then
        its faults by number."""

    def children(self) -> Iterator[Child]:
        """Yields the children of the root."""
        return Child(self, 0).children()

    @functools.cached_property
    def _last_steps(self) -> Sequence[int]:
        """The index of the last step of each leaf and node, at the index of its first step."""
        enter, leave = StepAction.ENTER, StepAction.EXIT
        last_steps = array.array("Q", range(len(self.steps)))
        open_nodes: List[int] = []
        for i, step in enumerate(self.steps):
            if step.action is enter:
                open_nodes.append(i)
            elif step.action is leave:
                last_steps[open_nodes.pop()] = i
        return last_steps


class HasRange(Protocol):
    """What has a range of bytes: a token, a step, a child, an error and a `Span`."""

    @property
    def start(self) -> ByteOffset:
        """Its first byte."""

    @property
    def end(self) -> ByteOffset:
        """The byte after its last."""


class Span(NamedTuple):
    """A range of bytes."""

    start: ByteOffset
    end: ByteOffset


class Text:
    """A text: its characters, and their bytes in UTF-8, which the library reads.

    A lone surrogate is not a character, and makes a `UnicodeEncodeError`. An offset that is not in
    the text makes a `ValueError`, and so does an offset in bytes that is inside a character.
    """

    def __init__(self, text: str) -> None:
        # The library trusts that the bytes are UTF-8. A subclass of `str` can have other methods.
        self._text = str.__str__(text)
        self._data = self._text.encode("utf-8")
        self._is_ascii = len(self._data) == len(self._text)

    @property
    def text(self) -> str:
        """The characters."""
        return self._text

    @property
    def data(self) -> bytes:
        """The bytes."""
        return self._data

    def tokens(self, *, backslash: bool = False) -> Iterator[Token]:
        """Returns an iterator over the tokens, which cover the text without a gap.

        With `backslash`, a backslash escapes the next character in a string without a prefix.
        """
        data = self._data
        _check_length(len(data))
        return _cut(data, _options(backslash, False))

    def parse(self, *, backslash: bool = False, grouped: bool = False) -> Parse:
        """Returns the tree and the errors.

        `backslash` is as in `tokens`. With `grouped`, a semicolon in parentheses ends no statement.
        """
        data = self._data
        _check_length(len(data))
        options = _options(backslash, grouped)
        step_count = ctypes.c_size_t(len(data) // 2 + 16)
        error_count = ctypes.c_size_t(16)
        while True:
            step_room, error_room = step_count.value, error_count.value
            steps = (ctypes.c_uint32 * (_STEP.size // 4 * step_room))()
            errors = (ctypes.c_uint32 * (_ERROR.size // 4 * error_room))()
            status = _lib.squawk_parse(
                data,
                len(data),
                options,
                steps,
                step_room,
                step_count,
                errors,
                error_room,
                error_count,
            )
            if status != _ARRAY_TOO_SMALL:
                break
        _check(status)
        return Parse(
            [
                Step(_STEP_ACTIONS[action], kind, start, end)
                for action, kind, start, end in _records(_STEP, steps, step_count.value)
            ],
            [ParseError(*record) for record in _records(_ERROR, errors, error_count.value)],
        )

    def slice(self, span: HasRange) -> str:
        """Returns the characters of a token, a step, a child, an error or a `Span`."""
        self._check_range(span)
        return self._data[span.start : span.end].decode("utf-8")

    def char_offset(self, offset: ByteOffset) -> CharOffset:
        """Returns how many characters come before this byte, or the end of the text."""
        self._check_offset(offset)
        return self._count_before(offset)

    def char_range(self, span: HasRange) -> Tuple[CharOffset, CharOffset]:
        """Returns the range in characters, as `text[start:end]` takes it."""
        self._check_range(span)
        return self._count_before(span.start), self._count_before(span.end)

    def byte_offset(self, offset: CharOffset) -> ByteOffset:
        """Returns how many bytes come before this character, or the end of the text."""
        if not 0 <= offset <= len(self._text):
            raise ValueError(f"the text has no character {offset}")
        if self._is_ascii:
            return ByteOffset(offset)
        block = offset // _BLOCK
        begin = self._text[block * _BLOCK : offset]
        return ByteOffset(self._bytes_before[block] + len(begin.encode("utf-8")))

    def line_column(self, offset: ByteOffset) -> Tuple[int, int]:
        """Returns the line and the column, in characters, of this byte. Both count from 1.

        LF alone ends a line. A CR is a character of its line, and so is the LF at its end.
        """
        self._check_offset(offset)
        line = bisect.bisect_right(self._line_starts, offset)
        line_start = ByteOffset(self._line_starts[line - 1])
        return line, self._count_before(offset) - self._count_before(line_start) + 1

    def _check_offset(self, offset: ByteOffset) -> None:
        """Refuses an offset that is not in the text, or inside a character."""
        if not 0 <= offset <= len(self._data):
            raise ValueError(f"the text has no byte {offset}")
        if offset < len(self._data) and self._data[offset] in _CONTINUATION:
            raise ValueError(f"byte {offset} is inside a character")

    def _check_range(self, span: HasRange) -> None:
        """Refuses a range that is not one of whole characters of the text."""
        self._check_offset(span.start)
        self._check_offset(span.end)
        if span.start > span.end:
            raise ValueError(f"{span.start}..{span.end} is not a range")

    def _count_before(self, offset: ByteOffset) -> CharOffset:
        """Returns how many characters come before an offset that was checked."""
        if self._is_ascii:
            return CharOffset(offset)
        block = offset // _BLOCK
        start = block * _BLOCK
        return CharOffset(self._chars_before[block] + _count_chars(self._data[start:offset]))

    @functools.cached_property
    def _line_starts(self) -> Sequence[int]:
        """The offset of the first byte of each line."""
        line_starts = array.array("Q", [0])
        line_starts.extend(match.end() for match in re.finditer(b"\n", self._data))
        return line_starts

    @functools.cached_property
    def _bytes_before(self) -> List[int]:
        """How many bytes come before each block of characters."""
        counts = [0]
        for start in range(0, len(self._text), _BLOCK):
            counts.append(counts[-1] + len(self._text[start : start + _BLOCK].encode("utf-8")))
        return counts

    @functools.cached_property
    def _chars_before(self) -> List[int]:
        """How many characters begin before each block of bytes."""
        counts = [0]
        for start in range(0, len(self._data), _BLOCK):
            counts.append(counts[-1] + _count_chars(self._data[start : start + _BLOCK]))
        return counts


# The number of bytes, or of characters, of a block. Those in it are counted anew in each call.
_BLOCK = 4096

# The bytes that continue a character.
_CONTINUATION = bytes(range(0x80, 0xC0))


def _count_chars(data: bytes) -> int:
    """Returns how many characters begin in these bytes."""
    return len(data.translate(None, _CONTINUATION))


@functools.lru_cache(maxsize=None)
def kind_name(kind: int) -> str:
    """Returns the printed text of the kind with this number."""
    return _copied(_lib.squawk_kind_name, kind, "kind")


@functools.lru_cache(maxsize=None)
def message(number: int) -> str:
    """Returns the message of an error with this number, from 1 to 10."""
    return _copied(_lib.squawk_message, number, "error")


def version() -> Tuple[int, int]:
    """Returns the version of the library's interface: the major and the minor number."""
    return _lib.squawk_version() >> 16, _lib.squawk_version() & 0xFFFF


def _copied(call: Callable[..., int], number: int, what: str) -> str:
    """Returns the text that a call copies for this number."""
    if not 0 <= number <= 0xFFFFFFFF:
        raise ValueError(f"no {what} has the number {number}")
    room, count = ctypes.create_string_buffer(_NAME_ROOM), ctypes.c_size_t(0)
    if call(number, room, _NAME_ROOM, count) != _OK:
        raise ValueError(f"no {what} has the number {number}")
    return room.raw[: count.value].decode("ascii")


def _cut(data: bytes, options: int) -> Iterator[Token]:
    """Yields the tokens of bytes that are UTF-8 and not too long."""
    at, count = ctypes.c_size_t(0), ctypes.c_size_t(0)
    portion = (ctypes.c_uint32 * (_TOKEN.size // 4 * _PORTION))()
    while at.value < len(data):
        # The bytes are those of a `str`, so they need no check. Nothing can change them.
        _check(
            _lib.squawk_tokens_unchecked(data, len(data), options, at, portion, _PORTION, count)
        )
        for kind, flags, start, length, junk in _records(_TOKEN, portion, count.value):
            yield Token(_TOKEN_KINDS[kind], flags, start, start + length, junk)


def _records(record: struct.Struct, room: ctypes.Array, count: int) -> Iterator[tuple]:
    """Returns the first records of an array of `c_uint32`, without a copy.

    `ctypes.string_at` takes its size as a C `int`, which does not count the bytes of a long text.
    """
    return record.iter_unpack(memoryview(room)[: record.size // 4 * count])


def _options(backslash: bool, grouped: bool) -> int:
    """Returns the options as the library takes them."""
    return int(bool(backslash)) + 2 * int(bool(grouped))


def _check_length(length: int) -> None:
    """Refuses a text of too many bytes. Comes before arrays are made."""
    if length > 0xFFFFFFFF:
        raise TooLong("too long")


def _check(status: int) -> None:
    """Raises what stands for a status."""
    if status == _TOO_LONG:
        raise TooLong("too long")
    if status == _OUT_OF_MEMORY:
        raise OutOfMemory("out of memory")
    if status != _OK:
        raise CallError(f"status {status}")


def _load() -> ctypes.CDLL:
    """Returns the library, with the types of its calls.

    Without `argtypes` ctypes passes an `int` as a C `int`, and cuts a length to 32 bits.
    """
    here = os.path.dirname(os.path.abspath(__file__))
    path = os.environ.get("SQUAWK_LIBRARY") or os.path.join(here, "../lib/libsquawk.so")
    if not os.path.exists(path):
        raise ImportError(f"no {path}: run bindings/build_libraries.sh, or set SQUAWK_LIBRARY")
    lib = ctypes.CDLL(path)
    size, number, room = ctypes.c_size_t, ctypes.c_uint32, ctypes.c_void_p
    count = ctypes.POINTER(ctypes.c_size_t)
    text = ctypes.c_char_p
    lib.squawk_version.argtypes = []
    lib.squawk_tokens_unchecked.argtypes = [text, size, number, count, room, size, count]
    lib.squawk_parse.argtypes = [text, size, number, room, size, count, room, size, count]
    lib.squawk_kind_name.argtypes = [number, text, size, count]
    lib.squawk_message.argtypes = [number, text, size, count]
    for call in (
        lib.squawk_version,
        lib.squawk_tokens_unchecked,
        lib.squawk_parse,
        lib.squawk_kind_name,
        lib.squawk_message,
    ):
        call.restype = number
    if lib.squawk_version() >> 16 != _VERSION >> 16:
        raise ImportError(f"{path} has another version of the interface")
    return lib


_lib = _load()
