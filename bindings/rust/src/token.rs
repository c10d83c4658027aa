//! The tokens of a text.
use crate::error::check_call;
use crate::{Error, Options, ffi};
use std::iter::FusedIterator;
use std::ops::Range;

/// The kind of a token (`docs/GRAMMAR.md`).
#[derive(Clone, Copy, Debug, PartialEq, Eq, Hash)]
#[repr(u16)]
#[allow(missing_docs)] // the names are those of the lexer, `crates/squawk_lexer/src/token.rt`
pub enum TokenKind {
    Unknown,
    Int,
    Numeric,
    Str,
    NationalStr,
    ByteStr,
    BitStr,
    DollarQuotedStr,
    UnicodeEscStr,
    EscStr,
    Whitespace,
    Ident,
    PsqlCommand,
    Semi,
    Eof,
    Slash,
    LineComment,
    BlockComment,
    Minus,
    Colon,
    Dot,
    DotDot,
    Eq,
    Gt,
    And,
    Lt,
    Bang,
    Plus,
    Tilde,
    Pound,
    Question,
    Or,
    Percent,
    Caret,
    Star,
    Backtick,
    At,
    CloseBracket,
    OpenBracket,
    CloseCurly,
    OpenCurly,
    CloseParen,
    OpenParen,
    Comma,
    PositionalParam,
    QuotedIdent,
}

impl TokenKind {
    /// All kinds, each at the index that is its number.
    #[rustfmt::skip]
    pub const ALL: [TokenKind; 46] = {
        use TokenKind::*;
        [
            Unknown, Int, Numeric, Str, NationalStr, ByteStr, BitStr, DollarQuotedStr,
            UnicodeEscStr, EscStr, Whitespace, Ident, PsqlCommand, Semi, Eof, Slash, LineComment,
            BlockComment, Minus, Colon, Dot, DotDot, Eq, Gt, And, Lt, Bang, Plus, Tilde, Pound,
            Question, Or, Percent, Caret, Star, Backtick, At, CloseBracket, OpenBracket,
            CloseCurly, OpenCurly, CloseParen, OpenParen, Comma, PositionalParam, QuotedIdent,
        ]
    };
}

/// The base of an integer.
#[derive(Clone, Copy, Debug, PartialEq, Eq, PartialOrd, Ord, Hash)]
#[repr(u8)]
pub enum Base {
    /// `0b101`
    Binary = 2,
    /// `0o17`
    Octal = 8,
    /// `17`
    Decimal = 10,
    /// `0xff`
    Hexadecimal = 16,
}

/// A token, with its offset in the text.
#[repr(C)]
#[derive(Clone, Copy, Debug, PartialEq, Eq, Hash)]
pub struct Token {
    kind: u16,
    flags: u16,
    start: u32,
    len: u32,
    junk: u32,
}

const TERMINATED: u16 = 1;
const UESCAPE: u16 = 2;
const ENDS_QUERY: u16 = 4;
const EMPTY_INT: u16 = 8;
const EMPTY_EXPONENT: u16 = 16;

impl Token {
    /// What an array holds before the library writes to it. No token of a text is empty.
    pub(crate) const EMPTY: Self = Token {
        kind: 0,
        flags: 0,
        start: 0,
        len: 0,
        junk: 0,
    };

    /// Returns the kind.
    pub fn kind(&self) -> TokenKind {
        TokenKind::ALL[usize::from(self.kind)]
    }

    /// Returns the range in the text. It is not empty.
    pub fn range(&self) -> Range<usize> {
        self.start as usize..self.start as usize + self.len as usize
    }

    /// Returns the kind and the flags in numbers, as `squawk.h` has them.
    pub fn numbers(&self) -> (u16, u16) {
        (self.kind, self.flags)
    }

    /// Of a string, a quoted identifier and a block comment: returns whether its end was found (if
    /// not, it extends to the end of the text). `None` for other tokens.
    pub fn is_terminated(&self) -> Option<bool> {
        use TokenKind::*;
        let has_end = matches!(
            self.kind(),
            Str | NationalStr
                | ByteStr
                | BitStr
                | DollarQuotedStr
                | UnicodeEscStr
                | EscStr
                | QuotedIdent
                | BlockComment
        );
        has_end.then(|| self.has(TERMINATED))
    }

    /// Whether it is a quoted identifier that begins with `U&`.
    pub fn has_unicode_escapes(&self) -> bool {
        self.has(UESCAPE)
    }

    /// Whether it is a psql command that ends the query before it.
    pub fn ends_query(&self) -> bool {
        self.has(ENDS_QUERY)
    }

    /// Of an integer: its base.
    pub fn base(&self) -> Option<Base> {
        match self.flags >> 8 {
            2 => Some(Base::Binary),
            8 => Some(Base::Octal),
            10 => Some(Base::Decimal),
            16 => Some(Base::Hexadecimal),
            _ => None,
        }
    }

    /// Whether it is the prefix of an integer without digits and junk, as `0x`.
    pub fn is_empty_int(&self) -> bool {
        self.has(EMPTY_INT)
    }

    /// Whether it is a number with an exponent without digits, as `1e`.
    pub fn has_empty_exponent(&self) -> bool {
        self.has(EMPTY_EXPONENT)
    }

    /// Of a number and a parameter: the offset in the token at which trailing junk begins, which
    /// is its length if there is none.
    pub fn trailing_junk_start(&self) -> Option<usize> {
        use TokenKind::{Int, Numeric, PositionalParam};
        matches!(self.kind(), Int | Numeric | PositionalParam).then_some(self.junk as usize)
    }

    fn has(&self, flag: u16) -> bool {
        self.flags & flag != 0
    }
}

/// The number of tokens that are cut in one call.
const PORTION: usize = 256;

/// An iterator over the tokens of a text, made by [`tokenize`]. It allocates nothing.
#[derive(Clone, Debug)]
pub struct Tokens<'t> {
    text: &'t str,
    options: Options,
    at: usize,
    tokens: [Token; PORTION],
    next: usize,
    count: usize,
}

/// Returns the tokens of a text. They cover it without a gap.
pub fn tokenize(text: &str, options: Options) -> Result<Tokens<'_>, Error> {
    check_call(text.len())?;
    Ok(Tokens {
        text,
        options,
        at: 0,
        tokens: [Token::EMPTY; PORTION],
        next: 0,
        count: 0,
    })
}

impl Tokens<'_> {
    /// Cuts the next portion. There is none at the end of the text.
    fn cut(&mut self) {
        self.next = 0;
        self.count = 0;
        // SAFETY: the text is UTF-8. The pointers are those of references that do not overlap, and
        // the lengths are theirs.
        let status = unsafe {
            ffi::squawk_tokens_unchecked(
                self.text.as_ptr(),
                self.text.len(),
                self.options.bits(),
                &mut self.at,
                self.tokens.as_mut_ptr(),
                PORTION,
                &mut self.count,
            )
        };
        // The text is not too long, the options are known, and `at` is where a token ended.
        assert_eq!(status, ffi::OK, "the library refused good arguments");
    }
}

impl Iterator for Tokens<'_> {
    type Item = Token;

    #[inline]
    fn next(&mut self) -> Option<Token> {
        if self.next == self.count {
            self.cut();
        }
        let token = *self.tokens[..self.count].get(self.next)?;
        self.next += 1;
        Some(token)
    }
}

impl FusedIterator for Tokens<'_> {}
