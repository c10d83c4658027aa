"""Random texts of pieces that are tokens of every form, cut and glued, and scripts of edits that make them."""

# The pieces of texts, by forms.
FORMS = [
    [" ", "\n", "\t", "\r\n", "\r", "\v", "\f", "  \n "],
    ["-- c\n", "--", "--x;\r", "/* c */", "/*/**/*/", "/*", "*/", "/*/", "/*a/*b*/", "-", "/"],
    r"'a' '' 'it''s' 'a\'b' 'a\' ' E'a\'b' e'\\' E'\ N'n' n' b'01' X'1f' x' U&'d\0061' u&' U&".split(),
    r'"a" "" "q""r" " U&"d\0061" u&" U&x'.split(),
    ["$$ a; b $$", "$f$ $g$ $f$", "$f$;$f$", "$$", "$a$", "$a$a$", "$é$;$é$", "$1$", "$$'$$", "$_1$ /* $_1$"],
    "0 1 12_3 1_ 1. 1.5 .5 1..2 1...2 1e5 1e+ 1e+_2 1.5e-3 1.e 0x 0x1f 0b12 0o7_1 0xg 0x_1f 12abc 1eabc 1f$".split(),
    "$1 $ $1a $1_0 $x 12$1 0xFF$1".split(),
    "; ; , ( ( ) ) [ ] { } @ # ~ ? : = ! < > & | + * ^ % ` - / . .. :: <= ->> :=".split(),
    "a b é été a$1 _x \ufeff \u00a0 \u212a \U0001d4b3 n N1'a' e E u& U".split(),
    ["\0", "\x01", "\x7f", "\x1b", "\x0e"],
    [r"\;", r"\:", r"\\", "\\", r"\g", r"\G", r"\r", r"\gexec", "\\dt\n", "\\gset x_\n", r"\echo `a`", r"\echo 'a\'b"],
    [r"\g |cat ", r"\g (a=')') |cat \x ", r'\g (a ")" | b', r"\w f | g \ ", "\\o | c\n", "\\!ls 'a\n", r"\! ls \dt "],
    [r"\gx (a='\')|", "\\copy t from 'f'\n", r"\h select \\ ", r'\x "y" \\ ', "\\COPY t\r", r"\watch 1 "],
    "select SELECT insert into update set delete from where create or replace temp table view unique index end".split(),
    "begin commit with as values copy stdin explain grant drop alter function constraint recursive group by".split(),
    ["select 1;", "begin;", "(select 1);", "insert into t values (1, 'a;b');", "create or replace view v as table $1;"],
    "select from where group by having order by limit 1 offset union distinct SELECT FROM ;".split(),
    ["copy t from stdin;\r\n'\r\n\\.\r\n", "copy t (a) FROM STDIN csv;\n", "\\.\n", "\n\\.\r\n", "\n\\.", "\\.\r"],
    ["- -", "-/*a*/-", "-\n-", "| /**/|", "/ *", "/ /* */*"],
    ["copy (select 1 from stdin) to stdout;", "(copy t from stdin;", "$q$", "$qq$", "$qqq", "''", '""'],
    ["update t set a = 1;", "delete from t \\g\n", "foo (a;b", "copy t from stdin;\n1\n\\.\n", "with q as (table t) 1"],
]


def random_range(text, rng):
    """The start and the end of a random part of a text."""
    return sorted((rng.randint(0, len(text)), rng.randint(0, len(text))))


def random_piece(rng):
    """A piece of a random form, now and then cut."""
    piece = rng.choice(rng.choice(FORMS))
    if rng.random() < 0.1:
        start, end = random_range(piece, rng)
        piece = piece[start:end]
    return piece + " " * (rng.random() < 0.3)


def random_text(rng, most):
    """A text of at most so many pieces, of which a part may be left out or doubled."""
    text = "".join(random_piece(rng) for _ in range(rng.randint(0, most)))
    start, end = random_range(text, rng)
    return text[:end] + text[start:] if rng.random() < 0.1 else text


def record(start, end, new):
    """A record of a script: the bytes from start to end are replaced by others."""
    return b"@%d %d %d\n%s\n" % (start, end, len(new), new)


def script(text, rng):
    """The records of a script that makes a text out of the empty one, found from the last to the first."""
    records = []
    while text or not records:
        start, end = (0, len(text)) if len(records) > 5 else random_range(text, rng)
        other = random_text(rng, 2) if len(records) < 5 else ""
        at = len(text[:start].encode())
        records.append(record(at, at + len(other.encode()), text[start:end].encode()))
        text = text[:start] + other + text[end:]
    return records[::-1]
