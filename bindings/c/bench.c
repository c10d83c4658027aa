/* Measures the calls on a text: MB/s of processor time, the best of some rounds.
 *
 * Use: bench FILE [ROUNDS]      ROUNDS is 10 without an argument
 *
 * The status is that of the first call that fails, and 1 if the file cannot be read. */
#define _POSIX_C_SOURCE 200809L
#include "squawk.h"

#include <stdio.h>
#include <stdlib.h>
#include <time.h>

enum { PORTION = 4096 };

static double seconds(void) {
  struct timespec t;
  clock_gettime(CLOCK_PROCESS_CPUTIME_ID, &t);
  return (double)t.tv_sec + 1e-9 * (double)t.tv_nsec;
}

/* A text, and room for its tokens, steps and errors. */
struct work {
  uint8_t *text;
  size_t length;
  squawk_token *tokens;
  size_t token_count;
  squawk_step *steps;
  size_t step_room;
  squawk_error *errors;
  size_t error_room;
};

static squawk_status check(struct work *w) {
  size_t valid;
  return squawk_check(w->text, w->length, &valid);
}

static squawk_status tokens_at_once(struct work *w) {
  size_t at = 0;
  return squawk_tokens(w->text, w->length, 0, &at, w->tokens, w->length, &w->token_count);
}

static squawk_status tokens_in_portions(struct work *w) {
  size_t count;
  squawk_reader reader;
  squawk_status status = squawk_reader_open(&reader, w->text, w->length, 0);
  for (w->token_count = 0; status == SQUAWK_OK; w->token_count += count) {
    status = squawk_reader_next(&reader, w->tokens, PORTION, &count);
    if (count == 0) break;
  }
  return status;
}

static squawk_status parse(struct work *w) {
  size_t step_count, error_count;
  return squawk_parse(w->text, w->length, 0, w->steps, w->step_room, &step_count, w->errors,
                      w->error_room, &error_count);
}

/* Sets the room for steps and errors to what the text takes. */
static squawk_status count_steps(struct work *w) {
  squawk_step no_step;
  squawk_error no_error;
  return squawk_parse(w->text, w->length, 0, &no_step, 0, &w->step_room, &no_error, 0,
                      &w->error_room);
}

/* Prints the speed of a call, and ends the program if the call fails. */
static void measure(struct work *w, const char *name, squawk_status (*call)(struct work *),
                    int rounds) {
  double best = 1e9;
  for (int i = 0; i < rounds; i++) {
    double start = seconds();
    squawk_status status = call(w);
    double taken = seconds() - start;
    if (status != SQUAWK_OK) {
      printf("%-20s status %u\n", name, status);
      exit((int)status);
    }
    if (taken < best) best = taken;
  }
  printf("%-20s %8.1f MB/s\n", name, (double)w->length / 1e6 / best);
}

int main(int argc, char **argv) {
  FILE *in = argc > 1 ? fopen(argv[1], "rb") : NULL;
  if (in == NULL || fseek(in, 0, SEEK_END) != 0) return 1;
  struct work w = {.length = (size_t)ftell(in)};
  rewind(in);
  w.text = malloc(w.length + 1);
  if (!w.text) return SQUAWK_OUT_OF_MEMORY;
  if (fread(w.text, 1, w.length, in) != w.length) return 1;
  squawk_status counted = count_steps(&w);
  if (counted != SQUAWK_ARRAY_TOO_SMALL) return (int)counted;
  w.tokens = malloc((w.length + PORTION) * sizeof *w.tokens);
  w.steps = malloc(w.step_room * sizeof *w.steps);
  w.errors = malloc((w.error_room + 1) * sizeof *w.errors);
  if (!w.tokens || !w.steps || !w.errors) return SQUAWK_OUT_OF_MEMORY;
  int rounds = argc > 2 ? atoi(argv[2]) : 10;
  measure(&w, "check", check, rounds);
  measure(&w, "tokens at once", tokens_at_once, rounds);
  measure(&w, "tokens by a reader", tokens_in_portions, rounds);
  measure(&w, "parse", parse, rounds);
  printf("%zu bytes, %zu tokens\n", w.length, w.token_count);
  free(w.text);
  free(w.tokens);
  free(w.steps);
  free(w.errors);
  return fclose(in) == 0 ? 0 : 1;
}
