/* A PostgreSQL lexer and lossless syntax trees, written in Rattle: every call of the library is
 * proved to meet what is said of it here under "Proved". docs/BINDINGS.md is the manual.
 *
 * WHAT A CALLER OWES, for every call. Nothing is promised to a caller that does not keep it: the
 * call may then read or write anything.
 *
 *  1. No pointer is NULL, even if its length or capacity is 0. Each is aligned for its type.
 *  2. At a pointer that a length or capacity follows, that many bytes or elements lie in one
 *     object. They are initialized where the pointer is to const, and `*at` is initialized. What is
 *     only written (arrays, counts, `*valid`) need not be.
 *  3. What a call may write overlaps nothing else that is passed to it, and no other thread reads
 *     or writes it during the call. No other thread writes the text during the call.
 *  4. squawk_tokens_unchecked: the text is UTF-8.
 *  5. squawk_parse is not called from a signal handler, nor in the child of a fork of a process
 *     with threads. malloc, realloc and free belong to one allocator.
 *  6. The processor is x86-64 of level v2 (SSE4.2), the system is Linux, and no other object of the
 *     process defines these names or `rattle_alloc`, `rattle_realloc`, `rattle_dealloc`.
 *
 * PROVED, for callers that keep this: each call of the library is safe, returns, and does what the
 * comment at it says, but for what the next paragraph lists. "Tokens" are those of docs/GRAMMAR.md,
 * and "steps" and "errors" are those of the tree of docs/STATEMENTS.md.
 *
 * TESTED OR BY CONSTRUCTION, NOT PROVED:
 *
 *  - Calls keep no pointer and share nothing, so threads may call at the same time.
 *  - Only squawk_parse allocates, and the memory that it takes is freed before it returns.
 *  - Its status 6 comes only if malloc or realloc failed. It may come at any time, and is the only
 *    status for which nothing says when.
 *  - length / 2 + 16 steps are room enough for most texts.
 *  - Names and messages are ASCII without a NUL.
 *
 * TRUSTED: this header and the inline functions at its end (nothing proves that they match the
 * library; scripts/check_bindings.sh tests it), the Rattle toolchain, LLVM and the C library.
 *
 * A text is a pointer and a length in bytes. It is UTF-8 of at most 4294967295 bytes, and may
 * contain NUL. All offsets and lengths count bytes.
 */
#ifndef SQUAWK_H
#define SQUAWK_H

#include <stddef.h>
#include <stdint.h>

#ifdef __cplusplus
extern "C" {
#endif

/* The version of this header: 65536 times the major number, plus the minor one. The version of
 * the library is squawk_version(). A different major number is another interface, and a library
 * with a smaller minor number lacks calls of this header. */
#define SQUAWK_VERSION 65536u

/* Statuses. Where several fit, the first in the order 5, 4, 2, 6 is returned. */
typedef uint32_t squawk_status;
enum {
  SQUAWK_OK = 0,
  SQUAWK_BAD_ARGUMENT = 2,    /* unknown options, an offset that is past the end or inside a
                                 character, or a number that no kind or message has */
  SQUAWK_NOT_UTF8 = 4,
  SQUAWK_TOO_LONG = 5,        /* the text has more than 4294967295 bytes */
  SQUAWK_OUT_OF_MEMORY = 6,
  SQUAWK_ARRAY_TOO_SMALL = 12 /* a count says how much room it takes */
};

/* Options: 0 or a sum of these (docs/READINGS.md). */
enum {
  SQUAWK_OPTION_BACKSLASH = 1, /* a backslash escapes in '..' (standard_conforming_strings = off) */
  SQUAWK_OPTION_GROUPED = 2    /* a semicolon in parentheses ends no statement; no token changes */
};

/* Kinds of tokens. */
enum {
  SQUAWK_TOKEN_UNKNOWN = 0,
  SQUAWK_TOKEN_INT = 1,
  SQUAWK_TOKEN_NUMERIC = 2,
  SQUAWK_TOKEN_STR = 3,
  SQUAWK_TOKEN_NATIONAL_STR = 4,
  SQUAWK_TOKEN_BYTE_STR = 5,
  SQUAWK_TOKEN_BIT_STR = 6,
  SQUAWK_TOKEN_DOLLAR_QUOTED_STR = 7,
  SQUAWK_TOKEN_UNICODE_ESC_STR = 8,
  SQUAWK_TOKEN_ESC_STR = 9,
  SQUAWK_TOKEN_WHITESPACE = 10,
  SQUAWK_TOKEN_IDENT = 11,
  SQUAWK_TOKEN_PSQL_COMMAND = 12,
  SQUAWK_TOKEN_SEMI = 13,
  SQUAWK_TOKEN_EOF = 14, /* no token of a text has this kind */
  SQUAWK_TOKEN_SLASH = 15,
  SQUAWK_TOKEN_LINE_COMMENT = 16,
  SQUAWK_TOKEN_BLOCK_COMMENT = 17,
  SQUAWK_TOKEN_MINUS = 18,
  SQUAWK_TOKEN_COLON = 19,
  SQUAWK_TOKEN_DOT = 20,
  SQUAWK_TOKEN_DOT_DOT = 21,
  SQUAWK_TOKEN_EQ = 22,
  SQUAWK_TOKEN_GT = 23,
  SQUAWK_TOKEN_AND = 24,
  SQUAWK_TOKEN_LT = 25,
  SQUAWK_TOKEN_BANG = 26,
  SQUAWK_TOKEN_PLUS = 27,
  SQUAWK_TOKEN_TILDE = 28,
  SQUAWK_TOKEN_POUND = 29,
  SQUAWK_TOKEN_QUESTION = 30,
  SQUAWK_TOKEN_OR = 31,
  SQUAWK_TOKEN_PERCENT = 32,
  SQUAWK_TOKEN_CARET = 33,
  SQUAWK_TOKEN_STAR = 34,
  SQUAWK_TOKEN_BACKTICK = 35,
  SQUAWK_TOKEN_AT = 36,
  SQUAWK_TOKEN_CLOSE_BRACKET = 37,
  SQUAWK_TOKEN_OPEN_BRACKET = 38,
  SQUAWK_TOKEN_CLOSE_CURLY = 39,
  SQUAWK_TOKEN_OPEN_CURLY = 40,
  SQUAWK_TOKEN_CLOSE_PAREN = 41,
  SQUAWK_TOKEN_OPEN_PAREN = 42,
  SQUAWK_TOKEN_COMMA = 43,
  SQUAWK_TOKEN_POSITIONAL_PARAM = 44,
  SQUAWK_TOKEN_QUOTED_IDENT = 45
};

/* Flags of tokens. */
enum {
  SQUAWK_FLAG_TERMINATED = 1,     /* strings, quoted identifiers, block comments: the closing
                                     delimiter was found */
  SQUAWK_FLAG_UESCAPE = 2,        /* a quoted identifier that begins with U& */
  SQUAWK_FLAG_ENDS_QUERY = 4,     /* a psql command that ends the query before it */
  SQUAWK_FLAG_EMPTY_INT = 8,      /* an integer's prefix without digits and junk, as in 0x */
  SQUAWK_FLAG_EMPTY_EXPONENT = 16 /* a number with an exponent without digits, as in 1e; its
                                     letter is the byte before the junk */
};

/* The base of a SQUAWK_TOKEN_INT with these flags: 2, 8, 10 or 16. */
#define SQUAWK_BASE(flags) ((flags) >> 8)

typedef struct squawk_token {
  uint16_t kind;  /* SQUAWK_TOKEN_.. */
  uint16_t flags; /* a sum of SQUAWK_FLAG_..; of an integer also 256 times its base */
  uint32_t start;
  uint32_t len;   /* at least 1 */
  uint32_t junk;  /* of an integer, a numeric and a parameter: the offset in the token of the
                     trailing junk, which is `len` if there is none; otherwise 0 */
} squawk_token;

/* What a step of a tree does. */
enum { SQUAWK_STEP_ENTER = 0, SQUAWK_STEP_LEAF = 1, SQUAWK_STEP_EXIT = 2 };

/* The steps of a tree walk it in the order of the text: each node is entered before its first
 * child and left after its last one, and the root is the first node. */
typedef struct squawk_step {
  uint16_t step;  /* SQUAWK_STEP_.. */
  uint16_t kind;  /* SQUAWK_KIND_.. of squawk_kinds.h; 0 at an exit */
  uint32_t start; /* of the leaf, or of the whole node both where it is entered and left */
  uint32_t end;   /* the byte after the last */
} squawk_step;

/* An error in a text. */
typedef struct squawk_error {
  uint32_t start;
  uint32_t end;    /* the byte after the last */
  uint32_t number; /* of the message, from 1 to 10 */
} squawk_error;

/* Room for the name of every kind, and for every message. */
enum { SQUAWK_NAME_ROOM = 39, SQUAWK_MESSAGE_ROOM = 40 };

/* Returns the version of the library. */
uint32_t squawk_version(void);

/* Checks that bytes are a text. Status 0, 4 or 5, each exactly if it fits.
 *
 * *valid becomes the length of the longest prefix that is UTF-8; after status 5 it is 0. */
squawk_status squawk_check(const uint8_t *text, size_t length, size_t *valid);

/* Cuts tokens from the offset *at on into the array `tokens`, until it is full or the text ends.
 * Status 0, 2, 4 or 5; 2, 4 and 5 exactly if they fit. Allocates nothing.
 *
 * After status 0 *count is the number of tokens, and *at the offset after the last of them. Call
 * again to go on; the text is done when *at is its length. What is cut in any number of calls,
 * from 0 on, are the tokens of the text. The rest of the array stays as it was.
 *
 * After another status *count is 0, and *at and the array are as they were.
 *
 * Each call checks the whole text: k calls read the text k times. So take this call for a text that
 * is cut at once, with room for `length` tokens, or in few portions. For many portions take a
 * squawk_reader, below, which checks the text once. */
squawk_status squawk_tokens(const uint8_t *text, size_t length, uint32_t options, size_t *at,
                            squawk_token *tokens, size_t capacity, size_t *count);

/* Does the same without the check, for a text that is UTF-8, as one for which squawk_check returned
 * 0 and that did not change since. Status 0, 2 or 5.
 *
 * IF THE TEXT IS NOT UTF-8, nothing is promised: the call may read past its end. */
squawk_status squawk_tokens_unchecked(const uint8_t *text, size_t length, uint32_t options,
                                      size_t *at, squawk_token *tokens, size_t capacity,
                                      size_t *count);

/* Parses a text into statements: the steps of its tree, and its errors in the order of the tokens;
 * at each token first those of the grammar, then its faults by number. Status 0, 2, 4, 5, 6 or 12;
 * 2, 4 and 5 exactly if they fit, 6 only if malloc or realloc failed.
 *
 * After status 0 and 12 the counts are the numbers of the steps and of the errors. An array that
 * has room for all of its own holds them, and what comes after them in it is as it was; the other
 * one is as it was. 0: both hold them. 12: at least one has too little room.
 *
 * After another status the counts are 0, and both arrays are as they were.
 *
 * length / 2 + 16 steps are room enough for most texts. The memory that the call takes is freed
 * before it returns. */
squawk_status squawk_parse(const uint8_t *text, size_t length, uint32_t options,
                           squawk_step *steps, size_t step_capacity, size_t *step_count,
                           squawk_error *errors, size_t error_capacity, size_t *error_count);

/* Writes the printed text of a kind, ASCII without a NUL at the end, and its length to *count.
 * Status 0, 2 (no kind has this number; then *count is 0) or 12. After 2 and 12 `name` is as it
 * was. */
squawk_status squawk_kind_name(uint32_t kind, uint8_t *name, size_t capacity, size_t *count);

/* Writes the message with a number, from 1 to 10, as squawk_kind_name writes a name. */
squawk_status squawk_message(uint32_t number, uint8_t *text, size_t capacity, size_t *count);

/* A text that was checked, and the offset up to which it was cut. Only squawk_reader_open makes
 * one, and only squawk_reader_next changes it: a caller that writes its fields owes what
 * squawk_tokens_unchecked is owed. The text stays as it is while the reader is used. */
typedef struct squawk_reader {
  const uint8_t *text;
  size_t length;
  size_t at;
  uint32_t options;
} squawk_reader;

/* Checks a text, and makes a reader of its tokens. The status is that of squawk_check. After one
 * that is not 0 the reader is at the end of an empty text, so that it has no tokens. */
static inline squawk_status squawk_reader_open(squawk_reader *reader, const uint8_t *text,
                                               size_t length, uint32_t options) {
  size_t valid = 0;
  squawk_status status = squawk_check(text, length, &valid);
  reader->text = text;
  reader->length = status == SQUAWK_OK ? length : 0;
  reader->at = 0;
  reader->options = options;
  return status;
}

/* Cuts the next tokens, until the array is full or the text ends. Status 0, or 2 for unknown
 * options. *count is 0 only if the text is done, the array has no room or the status is 2. */
static inline squawk_status squawk_reader_next(squawk_reader *reader, squawk_token *tokens,
                                               size_t capacity, size_t *count) {
  return squawk_tokens_unchecked(reader->text, reader->length, reader->options, &reader->at,
                                 tokens, capacity, count);
}

#ifdef __cplusplus
}
#endif

#endif
