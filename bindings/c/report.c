/* Reads a script on standard input, and prints the report of the program, or its tokens.
 *
 * Use: report [--backslash] [--grouped] [tokens] < FILE
 *
 * A line of `tokens` is KIND FLAGS START LEN JUNK, in numbers. The status is that of the library's
 * call, and 1 if the words are wrong or standard input and output fail. */
#include "squawk.h"

#include <stdio.h>
#include <stdlib.h>
#include <string.h>

_Static_assert(sizeof(squawk_token) == 16, "a token has no padding");
_Static_assert(sizeof(squawk_step) == 12, "a step has no padding");
_Static_assert(sizeof(squawk_error) == 12, "an error has no padding");

/* Ends the program with this status. */
static void fail(int status, const char *message) {
  fprintf(stderr, "report: %s\n", message);
  exit(status);
}

/* Returns memory for `count` elements of `size` bytes. Their number may be 0. */
static void *room_for(size_t count, size_t size) {
  void *room = calloc(count > 0 ? count : 1, size);
  if (room == NULL) fail(SQUAWK_OUT_OF_MEMORY, "out of memory");
  return room;
}

/* Whether the library has all calls of the header: it has the same major number, and no smaller
 * minor one. */
static int is_new_enough(void) {
  uint32_t version = squawk_version();
  return version >> 16 == SQUAWK_VERSION >> 16 && version >= SQUAWK_VERSION;
}

/* Returns all of standard input. */
static uint8_t *read_all(size_t *length) {
  size_t room = 1 << 16, got;
  uint8_t *text = room_for(room, 1);
  *length = 0;
  while ((got = fread(text + *length, 1, room - *length, stdin)) > 0) {
    *length += got;
    if (*length == room) {
      room *= 2;
      text = realloc(text, room);
      if (text == NULL) fail(SQUAWK_OUT_OF_MEMORY, "out of memory");
    }
  }
  if (ferror(stdin)) fail(1, "cannot read the input");
  return text;
}

/* Prints the line of each token, which are cut 100 at a time. */
static squawk_status print_tokens(const uint8_t *text, size_t length, uint32_t options) {
  squawk_reader reader;
  squawk_token tokens[100];
  size_t count = 0;
  squawk_status status = squawk_reader_open(&reader, text, length, options);
  while (status == SQUAWK_OK) {
    status = squawk_reader_next(&reader, tokens, 100, &count);
    if (count == 0) break;
    for (size_t i = 0; i < count; i++) {
      squawk_token t = tokens[i];
      printf("%u %u %u %u %u\n", t.kind, t.flags, t.start, t.len, t.junk);
    }
  }
  return status;
}

/* Prints the line of each node and leaf. */
static void print_steps(const squawk_step *steps, size_t count) {
  uint8_t name[SQUAWK_NAME_ROOM];
  size_t depth = 0, length = 0;
  for (size_t i = 0; i < count; i++) {
    squawk_step s = steps[i];
    if (s.step == SQUAWK_STEP_EXIT) {
      depth--;
      continue;
    }
    if (squawk_kind_name(s.kind, name, sizeof name, &length) != SQUAWK_OK) fail(1, "no name");
    printf("%zu %c %.*s %u..%u\n", depth, s.step == SQUAWK_STEP_ENTER ? 'N' : 'T', (int)length,
           (const char *)name, s.start, s.end);
    if (s.step == SQUAWK_STEP_ENTER) depth++;
  }
}

/* Prints the line of each error. */
static void print_errors(const squawk_error *errors, size_t count) {
  uint8_t message[SQUAWK_MESSAGE_ROOM];
  size_t length = 0;
  for (size_t i = 0; i < count; i++) {
    squawk_error e = errors[i];
    if (squawk_message(e.number, message, sizeof message, &length) != SQUAWK_OK) {
      fail(1, "no message");
    }
    printf("E %u..%u %.*s\n", e.start, e.end, (int)length, (const char *)message);
  }
}

/* Prints the report. A text that is refused is refused before there are arrays. They are made anew
 * if they turn out to be too small. */
static squawk_status print_report(const uint8_t *text, size_t length, uint32_t options) {
  size_t valid = 0;
  squawk_status checked = squawk_check(text, length, &valid);
  if (checked != SQUAWK_OK) return checked;
  size_t step_room = length / 2 + 16, error_room = 16, step_count = 0, error_count = 0;
  for (;;) {
    squawk_step *steps = room_for(step_room, sizeof *steps);
    squawk_error *errors = room_for(error_room, sizeof *errors);
    squawk_status status = squawk_parse(text, length, options, steps, step_room, &step_count,
                                        errors, error_room, &error_count);
    if (status == SQUAWK_OK) {
      print_steps(steps, step_count);
      print_errors(errors, error_count);
    }
    free(steps);
    free(errors);
    if (status != SQUAWK_ARRAY_TOO_SMALL) return status;
    step_room = step_count;
    error_room = error_count;
  }
}

int main(int argc, char **argv) {
  uint32_t options = 0;
  int word = 1;
  if (word < argc && strcmp(argv[word], "--backslash") == 0) {
    options += SQUAWK_OPTION_BACKSLASH;
    word++;
  }
  if (word < argc && strcmp(argv[word], "--grouped") == 0) {
    options += SQUAWK_OPTION_GROUPED;
    word++;
  }
  int wants_tokens = word < argc && strcmp(argv[word], "tokens") == 0;
  if (word + wants_tokens != argc) fail(1, "bad words");
  if (!is_new_enough()) fail(1, "the library does not fit the header");
  size_t length = 0;
  uint8_t *text = read_all(&length);
  squawk_status status = wants_tokens ? print_tokens(text, length, options)
                                      : print_report(text, length, options);
  free(text);
  if (fflush(stdout) != 0 || ferror(stdout)) fail(1, "cannot write the output");
  return (int)status;
}
