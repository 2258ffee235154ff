/* Moves invariant operations out of the loops of a module, as `mlir-opt -loop-invariant-code-motion` does. */
#include "mlir_work.h"
#include <stdio.h>
#include <stdlib.h>
#include <string.h>

static mlir_work_session s = MLIR_WORK_CLOSED;
static uint8_t text[1 << 20];
static uint32_t all[1 << 16];

static bool is(uint32_t op, const char *beginning) {
  uint64_t length = mlir_work_name_text(&s, mlir_work_name_of(&s, op), text, sizeof text);
  return strlen(beginning) <= length && !memcmp(text, beginning, strlen(beginning));
}
/* Returns the number of an operand that is a constant, or 0. */
static long long constant(uint32_t op, size_t operand) {
  mlir_work_value value = {0, 0, 0};
  mlir_work_operand(&s, op, operand, &value);
  if (value.region != MLIR_WORK_RESULT || !is(value.operation, "arith.constant"))
    return 0;
  uint64_t key = mlir_work_find_name(&s, (const uint8_t *)"value", 5);
  mlir_work_attribute_text(&s, mlir_work_property_by_key(&s, value.operation, key), text, sizeof text); /* 3 : i32 */
  return strtoll((const char *)text, NULL, 10);
}
/* Returns whether a value is made inside an operation. */
static bool is_inside(const mlir_work_value *value, uint32_t around) {
  uint64_t at = value->region == MLIR_WORK_RESULT ? mlir_work_parent(&s, value->operation) : value->operation;
  for (; at != MLIR_WORK_NONE && at != around; at = mlir_work_parent(&s, at)) {}
  return at != MLIR_WORK_NONE;
}
/* Returns whether an operation in `top` has no effects or undefined behavior, and uses only `top` of the loop. */
static bool is_movable(uint32_t op, uint32_t top, uint32_t loop) {
  bool yes = is(op, "arith.") || is(op, "scf.if") || is(op, "scf.yield") || (is(op, "scf.for") && constant(op, 2) == 1);
  if (is(op, "arith.divui") || is(op, "arith.ceildivui"))
    yes = constant(op, 1) != 0;
  if (is(op, "arith.divsi") || is(op, "arith.ceildivsi") || is(op, "arith.floordivsi"))
    yes = constant(op, 1) != 0 && constant(op, 1) != -1;
  mlir_work_value value;
  for (size_t k = 0; yes && mlir_work_operand(&s, op, k, &value); k++)
    yes = is_inside(&value, top) || !is_inside(&value, loop);
  for (uint64_t at = op; yes && (at = mlir_work_walk_next(&s, at, op)) != MLIR_WORK_NONE;)
    yes = is_movable(at, top, loop);
  return yes;
}
int main(void) {
  mlir_work_answer answer;
  mlir_work_open(&s, text, fread(text, 1, sizeof text, stdin), 7, 1000, &answer);
  for (uint64_t k = mlir_work_operations(&s, all, 1 << 16), next; k-- > 0;) /* inner loops first */
    for (uint32_t region = 0; region < 2 && (is(all[k], "scf.for") || is(all[k], "scf.while")); region++)
      for (uint64_t op = mlir_work_first(&s, all[k], region); op != MLIR_WORK_NONE; op = next) {
        const mlir_work_spot before = {MLIR_WORK_BEFORE, all[k], 0};
        next = mlir_work_next(&s, op); /* the terminator has none */
        if (next != MLIR_WORK_NONE && is_movable(op, op, all[k]))
          mlir_work_move(&s, op, &before, &answer);
      }
  mlir_work_command(&s, (const uint8_t *)"print", 5, &answer);
  fwrite(text, 1, mlir_work_read(&s, 0, text, sizeof text), stdout);
  mlir_work_close(&s);
}
