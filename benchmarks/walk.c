/* Walks a module of N operations once, 100,000 if no number is given, and reads the name, the operands, the types of
   the results, and all uses of the results of each operation. Prints the seconds of the walk, and what it counted.

   usage: walk [N [records|many|one]]    `records`: by one call for 512 operations, as is done if no word is given;
                                         `many`: by four calls for 512 operations; `one`: by a call for each item */
#include "mlir_work.h"

#include <stdio.h>
#include <stdlib.h>
#include <string.h>
#include <time.h>

enum { PAGE = 512 };

static mlir_work_session s = MLIR_WORK_CLOSED;
static uint64_t names, operands, types, uses;

static double now(void) {
  struct timespec time;
  clock_gettime(CLOCK_MONOTONIC, &time);
  return (double)time.tv_sec + (double)time.tv_nsec / 1e9;
}

/* The module: constants, sums, products and comparisons, which use values that are near. */
static char *module(size_t count) {
  char *text = malloc(count * 120 + 64), *at = text;
  for (size_t k = 0; k + 1 < count; k++)
    if (k < 2 || k % 6 == 0)
      at += sprintf(at, "%%%zu = \"arith.constant\"() <{value = %zu : i32}> : () -> i32\n", k, k % 100);
    else
      at += sprintf(at, "%%%zu = \"arith.%s\"(%%%zu, %%%zu) <{overflowFlags = #arith.overflow<none>}> : %s\n", k,
                    k % 2 ? "addi" : "muli", k - 1, k - 2, "(i32, i32) -> i32");
  return text;
}

/* By a call for each item. */
static void one(const uint32_t *all, size_t count) {
  mlir_work_use use[64];
  for (size_t k = 0; k < count; k++) {
    mlir_work_count counts;
    mlir_work_value value;
    names += mlir_work_name_of(&s, all[k]);
    mlir_work_counts(&s, all[k], &counts);
    for (size_t i = 0; i < counts.operands; i++)
      operands += mlir_work_operand(&s, all[k], i, &value);
    for (uint32_t i = 0; i < counts.results; i++) {
      value = (mlir_work_value){all[k], MLIR_WORK_RESULT, i};
      types += mlir_work_value_type(&s, &value);
      uses += mlir_work_uses(&s, &value, use, 64);
    }
  }
}

/* By calls for pages of operations. */
static void many(const uint32_t *all, size_t count) {
  static mlir_work_head heads[PAGE];
  static mlir_work_value values[4 * PAGE], results[4 * PAGE];
  static uint64_t type[4 * PAGE];
  static mlir_work_value_use use[16 * PAGE];
  for (size_t k = 0; k < count; k += PAGE) {
    const size_t some = count - k < PAGE ? count - k : PAGE;
    size_t made = 0;
    mlir_work_heads(&s, all + k, some, heads, PAGE);
    operands += mlir_work_operands(&s, all + k, some, values, 4 * PAGE);
    for (size_t i = 0; i < some; i++) {
      names += heads[i].name;
      for (uint32_t r = 0; r < heads[i].counts.results; r++)
        results[made++] = (mlir_work_value){all[k + i], MLIR_WORK_RESULT, r};
    }
    mlir_work_types(&s, results, made, type, 4 * PAGE);
    for (size_t i = 0; i < made; i++)
      types += type[i];
    uses += mlir_work_value_uses(&s, results, made, use, 16 * PAGE);
  }
}

/* By one call for pages of operations. */
static void records(const uint32_t *all, size_t count) {
  static mlir_work_item items[16 * PAGE];
  for (size_t k = 0; k < count;) {
    const size_t some = count - k < PAGE ? count - k : PAGE;
    const size_t written = mlir_work_records(&s, all + k, some, items, 16 * PAGE), begun = k;
    const mlir_work_item *item = items, *const last = items + written;
    for (; item != last && (written < 16 * PAGE || mlir_work_record_end(items, written, (size_t)(item - items))); k++) {
      uint32_t results = item->operation.results;
      names += item->operation.name;
      operands += item->operation.operands;
      for (item += 1 + item->operation.operands; results > 0; results--) {
        types += item->result.type;
        uses += item->result.uses;
        item += 1 + item->result.uses;
      }
    }
    if (k == begun)
      exit(1); /* a record is longer than the space for a page */
  }
}

int main(int argc, char **argv) {
  const size_t count = argc > 1 ? strtoul(argv[1], NULL, 10) : 100000;
  mlir_work_answer answer;
  char *text = module(count);
  mlir_work_open(&s, (const uint8_t *)text, strlen(text), 7, 1000, &answer);
  if (answer.outcome != MLIR_WORK_OK)
    return 1;
  uint32_t *all = malloc(count * sizeof *all);
  const double begun = now();
  if (argc < 4) {
    const size_t found = (size_t)mlir_work_operations(&s, all, count);
    const char *how = argc > 2 ? argv[2] : "records";
    (!strcmp(how, "one") ? one : !strcmp(how, "many") ? many : records)(all, found);
  }
  printf("%.4f s, names %llu, operands %llu, types %llu, uses %llu\n", now() - begun, (unsigned long long)names,
         (unsigned long long)operands, (unsigned long long)types, (unsigned long long)uses);
  mlir_work_close(&s);
  free(all);
  free(text);
  return 0;
}
