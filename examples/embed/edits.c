/* Edits, each followed by a question: in a module of many operations an operand is set and set back, again and again,
   and each time the analysis of dead operations is asked what there is. Once by lines, once by numbers.

   usage: edits [EDITS [OPERATIONS]]     10,000 edits of 10,000 operations where nothing is said */
#include "mlir_work.h"

#include <stdio.h>
#include <stdlib.h>
#include <string.h>
#include <time.h>

/* The text of a module of so many operations: two of which nothing is known, and sums, each of the two values before
   it; the last is used. */
static char *module_of(unsigned long count, size_t *length) {
  char *text = malloc(128 * (count + 4)), *end = text;
  if (!text)
    return NULL;
  for (unsigned long i = 0; i + 1 < count; i++)
    if (i < 2)
      end += sprintf(end, "%%%lu = \"test.source\"() : () -> i32\n", i);
    else
      end += sprintf(end, "%%%lu = \"arith.addi\"(%%%lu, %%%lu) <{overflowFlags = #arith.overflow<none>}> : "
                          "(i32, i32) -> i32\n", i, i - 1, i - 2);
  end += sprintf(end, "\"test.use\"(%%%lu) : (i32) -> ()\n", count - 2);
  *length = (size_t)(end - text);
  return text;
}

static double seconds(void) {
  struct timespec now;
  clock_gettime(CLOCK_MONOTONIC, &now);
  return (double)now.tv_sec + 1e-9 * (double)now.tv_nsec;
}

/* Makes edit number i: operand 1 of some sum is the first value, or the second. Says whether it was made. */
static int edit(mlir_work_session *session, unsigned long i, unsigned long count, int by_lines) {
  const uint32_t operation = (uint32_t)(3 + i / 2 * 7 % (count - 3)), owner = 1 + i % 2;
  mlir_work_answer answer;
  if (by_lines) {
    char line[64];
    int length = sprintf(line, "set-operand #%u 1 %%v%u.0", operation, owner);
    mlir_work_command(session, (const uint8_t *)line, (size_t)length, &answer);
  } else {
    const mlir_work_value value = {owner, MLIR_WORK_RESULT, 0};
    mlir_work_set_operand(session, operation, 1, &value, &answer);
  }
  return answer.outcome == MLIR_WORK_OK;
}

/* Asks for the rows, and says how many bytes they have. */
static uint64_t asked(mlir_work_session *session) {
  static const uint8_t line[] = "report dead";
  uint8_t piece[256];
  mlir_work_answer answer;
  mlir_work_command(session, line, sizeof line - 1, &answer);
  for (size_t from = 0, some; (some = mlir_work_read(session, from, piece, sizeof piece)) > 0; from += some)
    continue;
  return answer.shown;
}

static int run(unsigned long edits, unsigned long count, int by_lines) {
  mlir_work_session session = MLIR_WORK_CLOSED;
  mlir_work_answer answer;
  size_t length;
  char *text = module_of(count, &length);
  uint64_t rows = 0;
  double began, edited = 0, whole;
  if (!text)
    return 1;
  mlir_work_open(&session, (const uint8_t *)text, length, 1, 1000, &answer);
  free(text);
  if (answer.outcome != MLIR_WORK_OK)
    return 1;
  began = seconds();
  for (unsigned long i = 0; i < edits; i++) {
    double before = seconds();
    if (!edit(&session, i, count, by_lines))
      return 1;
    edited += seconds() - before;
    rows += asked(&session);
  }
  whole = seconds() - began;
  printf("%lu edits of %lu operations, by %s: %.3f s with the questions, %.0f ns an edit, %lu bytes of rows\n", edits,
         count, by_lines ? "lines" : "numbers", whole, edited / (double)edits * 1e9, (unsigned long)rows);
  mlir_work_close(&session);
  return 0;
}

int main(int argc, char **argv) {
  const unsigned long edits = argc > 1 ? strtoul(argv[1], NULL, 10) : 10000;
  const unsigned long count = argc > 2 ? strtoul(argv[2], NULL, 10) : 10000;
  if (mlir_work_version() != MLIR_WORK_VERSION || !edits || count < 8)
    return 2;
  return run(edits, count, 1) || run(edits, count, 0);
}
