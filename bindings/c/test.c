/* Tests each call of squawk.h: its statuses, that it writes what it says and nothing else, and that
 * it reads nothing before or past a text.
 *
 * Use: test      The status is 0 if all holds. Otherwise it is 1, and the first check that does not
 *                hold is printed; a signal ends the test where memory is touched that may not be.
 *
 * Each text and each array lies between two pages that may not be touched: once right after the
 * first, and once right before the second. Status 6 is not tested. */
#define _DEFAULT_SOURCE
#include "squawk.h"
#include "squawk_kinds.h"

#include <stdio.h>
#include <stdlib.h>
#include <string.h>
#include <sys/mman.h>
#include <unistd.h>

/* The number of readings: each sum of the options. */
enum { READINGS = 4 };

/* The number of bytes between the pages, and what they are filled with. */
enum { ROOM = 8192, FILL = 0xa5 };

/* What a count is before a call. */
enum { NO_COUNT = 77 };

static void check(int holds, int line, const char *condition) {
  if (holds) return;
  printf("test.c:%d: not %s\n", line, condition);
  exit(1);
}

#define CHECK(condition) check((condition), __LINE__, #condition)

/* Where the texts and arrays lie. `other` is for a second array of the same type. */
static uint8_t *text_room, *array_room, *other_room;

/* Returns ROOM bytes between two pages that may not be touched. */
static uint8_t *new_room(void) {
  size_t page = (size_t)sysconf(_SC_PAGESIZE);
  size_t rooms = (ROOM + page - 1) / page * page;
  uint8_t *all = mmap(NULL, rooms + 2 * page, PROT_NONE, MAP_PRIVATE | MAP_ANONYMOUS, -1, 0);
  CHECK(rooms == ROOM && all != MAP_FAILED);
  CHECK(mprotect(all + page, ROOM, PROT_READ | PROT_WRITE) == 0);
  return all + page;
}

/* Fills a room, and returns `size` bytes of it: the last ones or the first ones. */
static void *array_in(uint8_t *room, size_t size, int is_last) {
  CHECK(size <= ROOM);
  memset(room, FILL, ROOM);
  return is_last ? room + ROOM - size : room;
}

/* Returns a copy of a text. */
static const uint8_t *text_in(uint8_t *room, const char *text, size_t length, int is_last) {
  uint8_t *copy = array_in(room, length, is_last);
  memcpy(copy, text, length);
  return copy;
}

/* Whether a room is as it was filled, other than `size` bytes at `written`. */
static int is_as_it_was(const uint8_t *room, const void *written, size_t size) {
  size_t start = (size_t)((const uint8_t *)written - room);
  for (size_t i = 0; i < ROOM; i++) {
    if ((i < start || i >= start + size) && room[i] != FILL) return 0;
  }
  return 1;
}

/* Whether an array holds these bytes, and the rest of its room is as it was. */
static int holds_only(const uint8_t *room, const void *array, const void *bytes, size_t size) {
  return memcmp(array, bytes, size) == 0 && is_as_it_was(room, array, size);
}

struct text {
  const char *bytes;
  size_t length;
};

#define TEXT(literal) { literal, sizeof literal - 1 }

/* Texts that are UTF-8. Most end where a token could go on. */
static const struct text GOOD[] = {
    TEXT(""),
    TEXT("a"),
    TEXT("'"),
    TEXT("$a"),
    TEXT("$a$"),
    TEXT("--"),
    TEXT("/*"),
    TEXT("/* /* */"),
    TEXT("\"q"),
    TEXT("1e"),
    TEXT("1e+"),
    TEXT("0x"),
    TEXT("$1a"),
    TEXT("\\"),
    TEXT("\\g"),
    TEXT("U&"),
    TEXT("U&'"),
    TEXT("U&\"d"),
    TEXT("E'\\"),
    TEXT("'a\\' b'"),
    TEXT("a\0b;"),
    TEXT("(;1e"),
    TEXT("(((("),
    TEXT("\xc3\xa9"),
    TEXT("'\xe2\x82\xac"),
    TEXT("\xf0\x9f\x98\x80"),
    TEXT("\xef\xbb\xbf"),
    TEXT("x'1 '1e+ 0x \"q\"\\g\n"),
    TEXT("select 1; comit;"),
    TEXT("                                x"),
    TEXT("aaaaaaaaaaaaaaaaaaaaaaaaaaaaaaaaa"),
    TEXT("'aaaaaaaaaaaaaaaaaaaaaaaaaaaaaaaa"),
};

/* A text that is not UTF-8, and its longest prefix that is. Most end inside a character. */
static const struct bad_text {
  struct text text;
  size_t valid;
} BAD[] = {
    {TEXT("\xff"), 0},
    {TEXT("a\0\xff;"), 2},
    {TEXT("\xed\xa0\x80"), 0},
    {TEXT("\xc0\x80"), 0},
    {TEXT("\xf4\x90\x80\x80"), 0},
    {TEXT("\xc3"), 0},
    {TEXT("\xf0"), 0},
    {TEXT("a\xe2"), 1},
    {TEXT("'\xf0"), 1},
    {TEXT("\"\xc3"), 1},
    {TEXT("$\xc3"), 1},
    {TEXT("$a\xf0"), 2},
    {TEXT("--\xf0"), 2},
    {TEXT("/*\xe2\x82"), 2},
    {TEXT("1\xf0\x9f"), 1},
    {TEXT("E'\\\xe2"), 3},
    {TEXT("U&'\xf0\x9f\x98"), 3},
    {TEXT("\\g\xc3"), 2},
};

#define COUNT_OF(table) (sizeof(table) / sizeof *(table))

/* Worked by hand: the nine tokens of a text, and those of one that the options change. */
static void test_rows_of_tokens(void) {
  static const char text[] = "x'1 '1e+ 0x \"q\"\\g\n";
  static const squawk_token all[] = {
      {SQUAWK_TOKEN_BYTE_STR, SQUAWK_FLAG_TERMINATED, 0, 5, 0},     /* x'1 ' */
      {SQUAWK_TOKEN_NUMERIC, SQUAWK_FLAG_EMPTY_EXPONENT, 5, 2, 2},  /* 1e */
      {SQUAWK_TOKEN_PLUS, 0, 7, 1, 0},                              /* + */
      {SQUAWK_TOKEN_WHITESPACE, 0, 8, 1, 0},                        /* a space */
      {SQUAWK_TOKEN_INT, 16 * 256 + SQUAWK_FLAG_EMPTY_INT, 9, 2, 2}, /* 0x */
      {SQUAWK_TOKEN_WHITESPACE, 0, 11, 1, 0},                       /* a space */
      {SQUAWK_TOKEN_QUOTED_IDENT, SQUAWK_FLAG_TERMINATED, 12, 3, 0}, /* "q" */
      {SQUAWK_TOKEN_PSQL_COMMAND, SQUAWK_FLAG_ENDS_QUERY, 15, 2, 0}, /* \g */
      {SQUAWK_TOKEN_WHITESPACE, 0, 17, 1, 0},                       /* LF */
  };
  squawk_token tokens[10];
  size_t at = 0, count = NO_COUNT;
  CHECK(squawk_tokens((const uint8_t *)text, 18, 0, &at, tokens, 10, &count) == SQUAWK_OK);
  CHECK(at == 18 && count == 9 && memcmp(tokens, all, sizeof all) == 0);
  CHECK(SQUAWK_BASE(tokens[4].flags) == 16);

  /* The backslash escapes the apostrophe or not. */
  static const uint32_t lengths[READINGS] = {4, 7, 4, 7};
  for (uint32_t options = 0; options < READINGS; options++) {
    squawk_token first = {SQUAWK_TOKEN_STR, SQUAWK_FLAG_TERMINATED, 0, lengths[options], 0};
    at = 0;
    CHECK(squawk_tokens((const uint8_t *)"'a\\' b'", 7, options, &at, tokens, 1, &count) == 0);
    CHECK(at == first.len && count == 1 && memcmp(tokens, &first, sizeof first) == 0);
  }
}

/* Worked by hand: the steps and the errors of two texts. */
static void test_rows_of_trees(void) {
  static const squawk_step all[] = {
      {SQUAWK_STEP_ENTER, SQUAWK_KIND_SOURCE_FILE, 0, 10},
      {SQUAWK_STEP_ENTER, SQUAWK_KIND_SELECT, 0, 10},
      {SQUAWK_STEP_LEAF, SQUAWK_KIND_SELECT_KW, 0, 6},
      {SQUAWK_STEP_LEAF, SQUAWK_KIND_WHITESPACE, 6, 7},
      {SQUAWK_STEP_LEAF, SQUAWK_KIND_NUMERIC_NUMBER, 7, 9},
      {SQUAWK_STEP_LEAF, SQUAWK_KIND_SEMICOLON, 9, 10},
      {SQUAWK_STEP_EXIT, 0, 0, 10},
      {SQUAWK_STEP_EXIT, 0, 0, 10},
  };
  static const squawk_error empty_exponent = {8, 9, 6};
  squawk_step steps[16];
  squawk_error errors[4];
  size_t step_count = NO_COUNT, error_count = NO_COUNT;
  CHECK(squawk_parse((const uint8_t *)"select 1e;", 10, 0, steps, 16, &step_count, errors, 4,
                     &error_count) == SQUAWK_OK);
  CHECK(step_count == 8 && memcmp(steps, all, sizeof all) == 0);
  CHECK(error_count == 1 && memcmp(errors, &empty_exponent, sizeof empty_exponent) == 0);

  /* The error of the grammar at a token comes before the fault of the token. */
  static const squawk_error both[] = {{0, 2, 10}, {1, 2, 6}};
  CHECK(squawk_parse((const uint8_t *)"1e", 2, 0, steps, 16, &step_count, errors, 4,
                     &error_count) == SQUAWK_OK);
  CHECK(error_count == 2 && memcmp(errors, both, sizeof both) == 0);

  /* A semicolon in parentheses ends a statement or not. */
  static const size_t counts[READINGS][2] = {{11, 2}, {11, 2}, {9, 1}, {9, 1}};
  for (uint32_t options = 0; options < READINGS; options++) {
    CHECK(squawk_parse((const uint8_t *)"(;1e", 4, options, steps, 16, &step_count, errors, 4,
                       &error_count) == SQUAWK_OK);
    CHECK(step_count == counts[options][0] && error_count == counts[options][1]);
  }
}

static void test_check(int is_last) {
  for (size_t i = 0; i < COUNT_OF(GOOD); i++) {
    size_t length = GOOD[i].length, valid = NO_COUNT;
    const uint8_t *text = text_in(text_room, GOOD[i].bytes, length, is_last);
    CHECK(squawk_check(text, length, &valid) == SQUAWK_OK && valid == length);
  }
  for (size_t i = 0; i < COUNT_OF(BAD); i++) {
    size_t length = BAD[i].text.length, valid = NO_COUNT;
    const uint8_t *text = text_in(text_room, BAD[i].text.bytes, length, is_last);
    CHECK(squawk_check(text, length, &valid) == SQUAWK_NOT_UTF8 && valid == BAD[i].valid);
  }
}

/* Both calls and a reader cut the same tokens, in portions of each capacity. `all` are the `total`
 * tokens of the text. */
static void test_portions(const uint8_t *text, size_t length, uint32_t options, size_t capacity,
                          const squawk_token *all, size_t total, int is_last) {
  size_t size = capacity * sizeof(squawk_token), done = 0, at = 0, count = NO_COUNT;
  squawk_reader reader;
  CHECK(squawk_reader_open(&reader, text, length, options) == SQUAWK_OK);
  do {
    size_t before = at, wanted = total - done < capacity ? total - done : capacity;
    size_t written = wanted * sizeof(squawk_token);
    size_t end = wanted > 0 ? all[done + wanted - 1].start + all[done + wanted - 1].len : before;

    squawk_token *array = array_in(array_room, size, is_last);
    count = NO_COUNT;
    CHECK(squawk_tokens(text, length, options, &at, array, capacity, &count) == SQUAWK_OK);
    CHECK(count == wanted && at == end && holds_only(array_room, array, all + done, written));

    squawk_token *other = array_in(other_room, size, is_last);
    size_t other_at = before;
    count = NO_COUNT;
    CHECK(squawk_tokens_unchecked(text, length, options, &other_at, other, capacity, &count) ==
          SQUAWK_OK);
    CHECK(count == wanted && other_at == end && memcmp(array, other, written) == 0);
    CHECK(is_as_it_was(other_room, other, written));

    other = array_in(other_room, size, is_last);
    count = NO_COUNT;
    CHECK(squawk_reader_next(&reader, other, capacity, &count) == SQUAWK_OK);
    CHECK(count == wanted && reader.at == end);
    CHECK(holds_only(other_room, other, all + done, written));
    done += wanted;
  } while (count > 0);
  CHECK(done == total || capacity == 0);
}

static void test_tokens(int is_last) {
  static squawk_token all[64];
  for (size_t i = 0; i < COUNT_OF(GOOD); i++) {
    size_t length = GOOD[i].length;
    const uint8_t *text = text_in(text_room, GOOD[i].bytes, length, is_last);
    for (uint32_t options = 0; options < READINGS; options++) {
      size_t at = 0, total = NO_COUNT, end = 0;
      CHECK(squawk_tokens(text, length, options, &at, all, COUNT_OF(all), &total) == SQUAWK_OK);
      CHECK(total <= length && at == length);
      for (size_t k = 0; k < total; k++) {
        CHECK(all[k].start == end && all[k].len > 0);
        end += all[k].len;
      }
      CHECK(end == length);
      for (size_t capacity = 0; capacity <= total + 1; capacity++) {
        test_portions(text, length, options, capacity, all, total, is_last);
      }
    }
  }
}

/* Each array is written exactly if it has room, whatever room the other one has. */
static void test_parse(int is_last) {
  static squawk_step all[256];
  static squawk_error all_errors[64];
  for (size_t i = 0; i < COUNT_OF(GOOD); i++) {
    size_t length = GOOD[i].length;
    const uint8_t *text = text_in(text_room, GOOD[i].bytes, length, is_last);
    for (uint32_t options = 0; options < READINGS; options++) {
      size_t steps = NO_COUNT, errors = NO_COUNT;
      CHECK(squawk_parse(text, length, options, all, COUNT_OF(all), &steps, all_errors,
                         COUNT_OF(all_errors), &errors) == SQUAWK_OK);
      CHECK(steps >= 2 && all[0].start == 0 && all[0].end == length);
      for (size_t room = 0; room <= steps + 1; room++) {
        for (size_t error_room = 0; error_room <= errors + 1; error_room++) {
          squawk_step *array = array_in(array_room, room * sizeof *array, is_last);
          squawk_error *other = array_in(other_room, error_room * sizeof *other, is_last);
          size_t step_count = NO_COUNT, error_count = NO_COUNT;
          int both = room >= steps && error_room >= errors;
          CHECK(squawk_parse(text, length, options, array, room, &step_count, other, error_room,
                             &error_count) == (both ? SQUAWK_OK : SQUAWK_ARRAY_TOO_SMALL));
          CHECK(step_count == steps && error_count == errors);
          CHECK(holds_only(array_room, array, all, room >= steps ? steps * sizeof *array : 0));
          CHECK(holds_only(other_room, other, all_errors,
                           error_room >= errors ? errors * sizeof *other : 0));
        }
      }
    }
  }
}

/* The three calls that take options refuse with this status, and write nothing. `is_utf8` says
 * whether squawk_tokens_unchecked may be called. */
static void test_refusal(const uint8_t *text, size_t length, uint32_t options, size_t offset,
                         squawk_status status, int is_utf8) {
  squawk_token *tokens = array_in(array_room, 4 * sizeof *tokens, 1);
  size_t at = offset, count = NO_COUNT;
  CHECK(squawk_tokens(text, length, options, &at, tokens, 4, &count) == status);
  CHECK(at == offset && count == 0 && is_as_it_was(array_room, tokens, 0));
  if (is_utf8) {
    count = NO_COUNT;
    CHECK(squawk_tokens_unchecked(text, length, options, &at, tokens, 4, &count) == status);
    CHECK(at == offset && count == 0 && is_as_it_was(array_room, tokens, 0));
  }
  if (offset > 0) return;
  squawk_step *steps = array_in(array_room, 4 * sizeof *steps, 1);
  squawk_error *errors = array_in(other_room, 4 * sizeof *errors, 1);
  size_t error_count = NO_COUNT;
  count = NO_COUNT;
  CHECK(squawk_parse(text, length, options, steps, 4, &count, errors, 4, &error_count) == status);
  CHECK(count == 0 && error_count == 0);
  CHECK(is_as_it_was(array_room, steps, 0) && is_as_it_was(other_room, errors, 0));
}

/* A reader is not made: the status is this one, and it has no tokens. */
static void test_no_reader(const uint8_t *text, size_t length, squawk_status status) {
  squawk_reader reader;
  squawk_token token;
  size_t count = NO_COUNT;
  CHECK(squawk_reader_open(&reader, text, length, 0) == status);
  CHECK(squawk_reader_next(&reader, &token, 1, &count) == SQUAWK_OK && count == 0);
}

static void test_refusals(int is_last) {
  const uint8_t *text = text_in(text_room, "\xc3\xa9", 2, is_last);
  test_refusal(text, 2, 0, 1, SQUAWK_BAD_ARGUMENT, 1);
  test_refusal(text, 2, 0, 3, SQUAWK_BAD_ARGUMENT, 1);
  test_refusal(text, 2, 0, SIZE_MAX, SQUAWK_BAD_ARGUMENT, 1);
  test_refusal(text, 2, 4, 0, SQUAWK_BAD_ARGUMENT, 1);
  test_refusal(text, 2, UINT32_MAX, 0, SQUAWK_BAD_ARGUMENT, 1);
  for (size_t i = 0; i < COUNT_OF(BAD); i++) {
    size_t length = BAD[i].text.length;
    text = text_in(text_room, BAD[i].text.bytes, length, is_last);
    for (uint32_t options = 0; options <= READINGS; options++) {
      test_refusal(text, length, options, 0, SQUAWK_NOT_UTF8, 0);
    }
    test_no_reader(text, length, SQUAWK_NOT_UTF8);
  }
}

/* The text is too long by one byte. It takes addresses, and no memory. */
static void test_too_long(void) {
  size_t length = (size_t)UINT32_MAX + 1, valid = NO_COUNT;
  const uint8_t *text = mmap(NULL, length, PROT_READ,
                             MAP_PRIVATE | MAP_ANONYMOUS | MAP_NORESERVE, -1, 0);
  if (text == MAP_FAILED) {
    puts("test: no addresses for a text of 4 GiB, so status 5 is left out");
    return;
  }
  CHECK(squawk_check(text, length, &valid) == SQUAWK_TOO_LONG && valid == 0);
  test_refusal(text, length, 0, 0, SQUAWK_TOO_LONG, 1);
  test_refusal(text, length, 4, 0, SQUAWK_TOO_LONG, 1);
  test_refusal(text, length, 0, length + 1, SQUAWK_TOO_LONG, 1);
  test_no_reader(text, length, SQUAWK_TOO_LONG);
  CHECK(munmap((void *)text, length) == 0);
}

typedef squawk_status text_call(uint32_t number, uint8_t *text, size_t capacity, size_t *count);

/* Checks the text with a number in each capacity. Returns whether there is one. */
static int test_text(text_call *call, uint32_t number, size_t most) {
  static uint8_t all[64];
  size_t length = NO_COUNT, count = NO_COUNT;
  if (call(number, all, sizeof all, &length) == SQUAWK_BAD_ARGUMENT) {
    CHECK(length == 0);
    uint8_t *text = array_in(array_room, most, 1);
    CHECK(call(number, text, most, &count) == SQUAWK_BAD_ARGUMENT);
    CHECK(count == 0 && is_as_it_was(array_room, text, 0));
    return 0;
  }
  CHECK(length > 0 && length <= most);
  for (size_t i = 0; i < length; i++) CHECK(all[i] >= ' ' && all[i] <= '~');
  for (size_t capacity = 0; capacity <= length + 1; capacity++) {
    uint8_t *text = array_in(array_room, capacity, capacity % 2 == length % 2);
    count = NO_COUNT;
    CHECK(call(number, text, capacity, &count) ==
          (capacity >= length ? SQUAWK_OK : SQUAWK_ARRAY_TOO_SMALL));
    CHECK(count == length);
    CHECK(holds_only(array_room, text, all, capacity >= length ? length : 0));
  }
  return 1;
}

static void test_texts(void) {
  uint8_t text[SQUAWK_MESSAGE_ROOM];
  size_t count = NO_COUNT;
  for (uint32_t kind = 0; kind < SQUAWK_KIND_COUNT; kind++) {
    CHECK(test_text(squawk_kind_name, kind, SQUAWK_NAME_ROOM));
  }
  CHECK(!test_text(squawk_kind_name, SQUAWK_KIND_COUNT, SQUAWK_NAME_ROOM));
  CHECK(!test_text(squawk_kind_name, 65536 + SQUAWK_KIND_DOLLAR, SQUAWK_NAME_ROOM));
  CHECK(!test_text(squawk_kind_name, UINT32_MAX, SQUAWK_NAME_ROOM));
  CHECK(squawk_kind_name(SQUAWK_KIND_DOLLAR, text, sizeof text, &count) == SQUAWK_OK);
  CHECK(count == 3 && memcmp(text, "`$`", 3) == 0);

  for (uint32_t number = 1; number <= 10; number++) {
    CHECK(test_text(squawk_message, number, SQUAWK_MESSAGE_ROOM));
  }
  CHECK(!test_text(squawk_message, 0, SQUAWK_MESSAGE_ROOM));
  CHECK(!test_text(squawk_message, 11, SQUAWK_MESSAGE_ROOM));
  CHECK(!test_text(squawk_message, 256 + 1, SQUAWK_MESSAGE_ROOM));
  CHECK(squawk_message(10, text, sizeof text, &count) == SQUAWK_OK);
  CHECK(count == 17 && memcmp(text, "unknown statement", 17) == 0);
}

int main(void) {
  text_room = new_room();
  array_room = new_room();
  other_room = new_room();
  CHECK(squawk_version() == SQUAWK_VERSION);
  test_rows_of_tokens();
  test_rows_of_trees();
  for (int is_last = 0; is_last < 2; is_last++) {
    test_check(is_last);
    test_tokens(is_last);
    test_parse(is_last);
    test_refusals(is_last);
  }
  test_too_long();
  test_texts();
  return 0;
}
