/* Reads operations, entries, uses and texts by numbers: what is there, what isn't, arrays that are too short, closed
   handles, and numbers after a rollback. It says nothing and ends with 0 if all answers are right. */
#include "mlir_work.h"

#include <stdio.h>
#include <stdlib.h>
#include <string.h>

static int faults;

static void want(bool is_right, const char *what, int line) {
  if (!is_right) {
    printf("line %d: %s\n", line, what);
    faults++;
  }
}

#define WANT(it) want((it), #it, __LINE__)

static const char module[] =
    "\"func.func\"() <{function_type = (i32, i32) -> i32, sym_name = \"f\"}> ({\n"
    "^bb0(%a: i32, %b: i32):\n"
    "  %0 = \"arith.constant\"() <{value = 5 : i32}> {tag = \"t\", zone = 7 : i8} : () -> i32\n"
    "  %1 = \"arith.addi\"(%a, %0) <{overflowFlags = #arith.overflow<none>}> : (i32, i32) -> i32\n"
    "  %2:2 = \"test.pair\"(%1, %1, %0) ({}, {\n"
    "  ^bb0(%c: i64):\n"
    "    \"test.inner\"(%1, %c) : (i32, i64) -> ()\n"
    "  }) : (i32, i32, i32) -> (i1, i64)\n"
    "  \"func.return\"(%1) : (i32) -> ()\n"
    "}) : () -> ()\n";

enum { ROOT, FUNC, CONSTANT, ADD, PAIR, INNER, RETURN, ALL };

static mlir_work_session s = MLIR_WORK_CLOSED;

static mlir_work_value result(uint32_t operation, uint32_t place) {
  mlir_work_value value = {operation, MLIR_WORK_RESULT, place};
  return value;
}

static mlir_work_value argument(uint32_t operation, uint32_t region, uint32_t place) {
  mlir_work_value value = {operation, region, place};
  return value;
}

typedef uint64_t reads(mlir_work_session *, uint32_t, uint8_t *, size_t);

/* Whether a number has this text; a buffer that is too short gets its beginning. */
static bool is_text(reads *read, uint64_t number, const char *wanted) {
  uint8_t all[64], some[4] = {'.', '.', '.', '.'}, none;
  const uint64_t length = strlen(wanted);
  const uint32_t it = (uint32_t)number;
  return number < MLIR_WORK_NO_MEMORY && read(&s, it, all, sizeof all) == length && !memcmp(all, wanted, length) &&
         read(&s, it, some, 2) == length && !memcmp(some, wanted, length < 2 ? length : 2) && some[2] == '.' &&
         read(&s, it, &none, 0) == length;
}

static bool is_type(mlir_work_value value, const char *wanted) {
  return is_text(mlir_work_type_text, mlir_work_value_type(&s, &value), wanted);
}

static uint64_t name(const char *text) { return mlir_work_find_name(&s, (const uint8_t *)text, strlen(text)); }

static void run(const char *line) {
  mlir_work_answer answer;
  mlir_work_command(&s, (const uint8_t *)line, strlen(line), &answer);
  WANT(answer.outcome == MLIR_WORK_OK || answer.outcome == MLIR_WORK_MADE || answer.outcome == MLIR_WORK_CONVERGED);
}

static void open_module(void) {
  mlir_work_answer answer;
  mlir_work_open(&s, (const uint8_t *)module, sizeof module - 1, 7, 1000, &answer);
  WANT(answer.outcome == MLIR_WORK_OK);
}

static void operations(void) {
  uint32_t all[ALL + 1], some[3] = {99, 99, 99};
  uint64_t at = ROOT;
  WANT(mlir_work_operations(&s, all, ALL + 1) == ALL);
  for (uint32_t k = 0; k < ALL; k++) {
    WANT(all[k] == k && at == k);
    at = mlir_work_walk_next(&s, (uint32_t)at, ROOT);
  }
  WANT(at == MLIR_WORK_NONE);
  WANT(mlir_work_operations(&s, some, 2) == ALL && some[0] == 0 && some[1] == 1 && some[2] == 99);
  WANT(mlir_work_operations(&s, some, 0) == ALL && some[0] == 0);
  WANT(mlir_work_walk_next(&s, PAIR, PAIR) == INNER && mlir_work_walk_next(&s, INNER, PAIR) == MLIR_WORK_NONE);
  WANT(mlir_work_walk_next(&s, 99, ROOT) == MLIR_WORK_NONE);
  WANT(mlir_work_region_of(&s, INNER) == 1 && mlir_work_region_of(&s, ADD) == 0);
  WANT(mlir_work_region_of(&s, ROOT) == MLIR_WORK_NONE && mlir_work_region_of(&s, 99) == MLIR_WORK_NONE);
}

static void counts(void) {
  mlir_work_count it = {9, 9, 9, 9, 9};
  WANT(!mlir_work_counts(&s, 99, &it) && it.operands == 9 && it.regions == 9);
  WANT(mlir_work_counts(&s, PAIR, &it));
  WANT(it.operands == 3 && it.results == 2 && it.properties == 0 && it.attributes == 0 && it.regions == 2);
  WANT(mlir_work_counts(&s, CONSTANT, &it));
  WANT(it.operands == 0 && it.results == 1 && it.properties == 1 && it.attributes == 2 && it.regions == 0);
  WANT(mlir_work_argument_count(&s, FUNC, 0) == 2 && mlir_work_argument_count(&s, PAIR, 1) == 1);
  WANT(mlir_work_argument_count(&s, ROOT, 0) == 0);
  WANT(mlir_work_argument_count(&s, PAIR, 0) == MLIR_WORK_NONE); /* it has no block */
  WANT(mlir_work_argument_count(&s, PAIR, 2) == MLIR_WORK_NONE);
  WANT(mlir_work_argument_count(&s, PAIR, UINT32_MAX) == MLIR_WORK_NONE);
  WANT(mlir_work_argument_count(&s, 99, 0) == MLIR_WORK_NONE);
}

static void texts(void) {
  const mlir_work_value missing[] = {{ADD, MLIR_WORK_RESULT, 1}, {99, MLIR_WORK_RESULT, 0}, {FUNC, 0, 2}, {FUNC, 1, 0}};
  uint8_t byte = '.';
  WANT(is_text(mlir_work_name_text, mlir_work_name_of(&s, ADD), "arith.addi"));
  WANT(is_text(mlir_work_name_text, mlir_work_name_of(&s, ROOT), "builtin.module"));
  WANT(mlir_work_name_of(&s, 99) == MLIR_WORK_NONE);
  WANT(name("arith.addi") == mlir_work_name_of(&s, ADD) && name("test.pair") == mlir_work_name_of(&s, PAIR));
  WANT(name("test.inner") != name("test.pair") && name("test.none") == MLIR_WORK_NONE);
  WANT(is_type(result(ADD, 0), "i32") && is_type(result(PAIR, 1), "i64") && is_type(argument(PAIR, 1, 0), "i64"));
  for (size_t k = 0; k < sizeof missing / sizeof *missing; k++)
    WANT(mlir_work_value_type(&s, &missing[k]) == MLIR_WORK_NONE);
  const mlir_work_value one = result(ADD, 0), other = argument(FUNC, 0, 1), wide = result(PAIR, 1);
  WANT(mlir_work_value_type(&s, &one) == mlir_work_value_type(&s, &other));
  WANT(mlir_work_value_type(&s, &one) != mlir_work_value_type(&s, &wide));
  WANT(mlir_work_name_text(&s, UINT32_MAX, &byte, 1) == MLIR_WORK_NONE && byte == '.');
  WANT(mlir_work_type_text(&s, UINT32_MAX, &byte, 1) == MLIR_WORK_NONE && byte == '.');
  WANT(mlir_work_attribute_text(&s, UINT32_MAX, &byte, 1) == MLIR_WORK_NONE && byte == '.');
}

static void entries(void) {
  mlir_work_entry it = {9, 9};
  WANT(!mlir_work_property_at(&s, CONSTANT, 1, &it) && !mlir_work_property_at(&s, 99, 0, &it));
  WANT(!mlir_work_attribute_at(&s, CONSTANT, SIZE_MAX, &it) && it.key == 9 && it.attribute == 9);
  WANT(mlir_work_property_at(&s, CONSTANT, 0, &it) && it.key == name("value"));
  WANT(is_text(mlir_work_attribute_text, it.attribute, "5 : i32"));
  WANT(mlir_work_property_by_key(&s, CONSTANT, it.key) == it.attribute);
  WANT(mlir_work_attribute_by_key(&s, CONSTANT, it.key) == MLIR_WORK_NONE);
  WANT(mlir_work_attribute_at(&s, CONSTANT, 0, &it) && it.key == name("tag"));
  WANT(is_text(mlir_work_attribute_text, it.attribute, "\"t\""));
  WANT(mlir_work_attribute_at(&s, CONSTANT, 1, &it) && it.key == name("zone"));
  WANT(mlir_work_attribute_by_key(&s, CONSTANT, (uint32_t)name("zone")) == it.attribute);
  WANT(mlir_work_property_by_key(&s, CONSTANT, (uint32_t)name("zone")) == MLIR_WORK_NONE);
  WANT(mlir_work_property_by_key(&s, 99, (uint32_t)name("value")) == MLIR_WORK_NONE);
  WANT(mlir_work_property_by_key(&s, CONSTANT, UINT32_MAX) == MLIR_WORK_NONE);
}

static void uses(void) {
  const mlir_work_value sum = result(ADD, 0), unused = result(PAIR, 0), missing = result(99, 0);
  mlir_work_use all[5], some[3] = {{9, 9}, {9, 9}, {9, 9}};
  bool seen[ALL][3] = {{false}};
  WANT(mlir_work_uses(&s, &sum, all, 5) == 4);
  for (size_t k = 0; k < 4; k++)
    seen[all[k].operation][all[k].operand] = true;
  WANT(seen[PAIR][0] && seen[PAIR][1] && seen[INNER][0] && seen[RETURN][0]);
  WANT(mlir_work_uses(&s, &sum, some, 2) == 4 && some[2].operation == 9);
  WANT(!memcmp(all, some, 2 * sizeof *some));
  WANT(mlir_work_uses(&s, &sum, some, 0) == 4 && mlir_work_uses(&s, &unused, some, 3) == 0);
  WANT(mlir_work_uses(&s, &missing, some, 3) == 0);
}

/* Whether a head is what the calls for one operation answer. */
static bool is_head(const mlir_work_head *head, uint32_t operation) {
  mlir_work_count counts = {0, 0, 0, 0, 0};
  mlir_work_counts(&s, operation, &counts);
  return head->name == mlir_work_name_of(&s, operation) && !memcmp(&head->counts, &counts, sizeof counts);
}

/* Many operations by one call: what the calls for one operation answer, in the given order, also twice. */
static void heads(void) {
  const uint32_t asked[] = {PAIR, 99, ADD, PAIR, ROOT};
  mlir_work_head all[6];
  memset(all, '.', sizeof all);
  WANT(mlir_work_heads(&s, asked, 5, all, 6) == 5);
  for (size_t k = 0; k < 5; k++)
    WANT(is_head(&all[k], asked[k]));
  WANT(all[1].name == MLIR_WORK_NONE && all[5].counts.regions == 0x2e2e2e2e2e2e2e2e);
  memset(all, '.', sizeof all);
  WANT(mlir_work_heads(&s, asked, 5, all, 1) == 1 && is_head(&all[0], PAIR) && all[1].name == 0x2e2e2e2e2e2e2e2e);
  WANT(mlir_work_heads(&s, asked, 0, all, 6) == 0 && mlir_work_heads(&s, asked, 5, all, 0) == 0);
}

static void operands(void) {
  const uint32_t asked[] = {ADD, 99, PAIR, CONSTANT, RETURN};
  const mlir_work_value wanted[] = {argument(FUNC, 0, 0), result(CONSTANT, 0), result(ADD, 0), result(ADD, 0),
                                    result(CONSTANT, 0), result(ADD, 0)};
  mlir_work_value all[7];
  for (size_t space = 0; space < 8; space++) {
    const size_t count = space < 6 ? space : 6;
    memset(all, '.', sizeof all);
    WANT(mlir_work_operands(&s, asked, 5, all, space) == count);
    WANT(!memcmp(all, wanted, count * sizeof *all) && (count == 7 || all[count].place == 0x2e2e2e2e));
  }
  WANT(mlir_work_operands(&s, asked, 0, all, 7) == 0);
}

static void types(void) {
  const mlir_work_value asked[] = {result(PAIR, 1), result(99, 0), argument(FUNC, 0, 1), result(PAIR, 2)};
  uint64_t all[5] = {9, 9, 9, 9, 9};
  WANT(mlir_work_types(&s, asked, 4, all, 5) == 4 && all[4] == 9);
  for (size_t k = 0; k < 4; k++)
    WANT(all[k] == mlir_work_value_type(&s, &asked[k]));
  WANT(all[1] == MLIR_WORK_NONE && all[0] != all[2] && all[0] != MLIR_WORK_NONE);
  all[1] = 9;
  WANT(mlir_work_types(&s, asked, 4, all, 1) == 1 && all[1] == 9);
}

static void value_uses(void) {
  const mlir_work_value asked[] = {result(CONSTANT, 0), result(PAIR, 0), result(ADD, 0), result(99, 0),
                                   argument(FUNC, 0, 1), argument(PAIR, 1, 0)};
  mlir_work_value_use all[8], some[8];
  bool seen[6][ALL][3];
  memset(seen, 0, sizeof seen);
  memset(all, '.', sizeof all);
  WANT(mlir_work_value_uses(&s, asked, 6, all, 8) == 7 && all[7].operation == 0x2e2e2e2e);
  for (size_t k = 0; k < 7; k++) {
    WANT(k == 0 || all[k - 1].value <= all[k].value);
    WANT(!seen[all[k].value][all[k].operation][all[k].operand]);
    seen[all[k].value][all[k].operation][all[k].operand] = true;
  }
  WANT(seen[0][ADD][1] && seen[0][PAIR][2] && seen[2][PAIR][0] && seen[2][PAIR][1] && seen[2][INNER][0]);
  WANT(seen[2][RETURN][0] && seen[5][INNER][1]);
  for (size_t space = 0; space < 7; space++) {
    memset(some, '.', sizeof some);
    WANT(mlir_work_value_uses(&s, asked, 6, some, space) == space && some[space].operand == 0x2e2e2e2e);
    WANT(!memcmp(all, some, space * sizeof *some));
  }
}

/* A record has what the calls for one operation answer, and one that doesn't fit is cut off. */
static void record(const mlir_work_item *item, const mlir_work_item *end, uint32_t operation) {
  mlir_work_count counts = {0, 0, 0, 0, 0};
  const bool is_there = mlir_work_counts(&s, operation, &counts);
  WANT(item->operation.name == (is_there ? (uint32_t)mlir_work_name_of(&s, operation) : UINT32_MAX));
  WANT(item->operation.operands == counts.operands && item->operation.results == counts.results);
  item++;
  for (size_t k = 0; k < counts.operands; k++, item++) {
    mlir_work_value value;
    WANT(mlir_work_operand(&s, operation, k, &value) && !memcmp(&item->operand, &value, sizeof value));
  }
  for (uint32_t k = 0; k < counts.results; k++) {
    const mlir_work_value value = result(operation, k);
    mlir_work_use uses[8];
    WANT(item->result.type == mlir_work_value_type(&s, &value) && item->result.unused == 0);
    const size_t count = item->result.uses;
    WANT(count == mlir_work_uses(&s, &value, uses, 8));
    for (size_t j = 0; j < count; j++)
      WANT(!memcmp(&item[1 + j].use, &uses[j], sizeof *uses));
    item += 1 + count;
  }
  WANT(item == end);
}

static void records(void) {
  const uint32_t asked[] = {PAIR, 99, ADD, PAIR, FUNC};
  mlir_work_item all[32], some[32];
  memset(all, '.', sizeof all);
  const size_t count = mlir_work_records(&s, asked, 5, all, 32);
  WANT(count == 6 + 1 + 8 + 6 + 1 && all[count].operand.place == 0x2e2e2e2e);
  size_t at = 0;
  for (size_t k = 0; k < 5; k++) {
    const size_t end = mlir_work_record_end(all, count, at);
    WANT(end > at && end <= count);
    record(all + at, all + end, asked[k]);
    for (size_t cut = at; cut < end; cut++)
      WANT(mlir_work_record_end(all, cut, at) == 0);
    at = end;
  }
  WANT(at == count && mlir_work_record_end(all, count, at) == 0);
  for (size_t space = 0; space < count; space++) {
    memset(some, '.', sizeof some);
    WANT(mlir_work_records(&s, asked, 5, some, space) == space && some[space].operand.place == 0x2e2e2e2e);
    WANT(!memcmp(all, some, space * sizeof *some));
  }
  WANT(mlir_work_records(&s, asked, 0, all, 32) == 0 && mlir_work_records(&s, asked, 5, all, 0) == 0);
}

/* Integers are given with their widths; other attributes and numbers are none. */
static void integers(void) {
  const uint64_t five = mlir_work_property_by_key(&s, CONSTANT, (uint32_t)name("value"));
  const uint64_t tag = mlir_work_attribute_by_key(&s, CONSTANT, (uint32_t)name("tag"));
  const mlir_work_value constant = result(CONSTANT, 0);
  mlir_work_integer_value it = {9, 9, 9, 9};
  WANT(!mlir_work_integer(&s, (uint32_t)tag, &it) && !mlir_work_integer(&s, UINT32_MAX, &it) && it.low == 9);
  WANT(mlir_work_integer(&s, (uint32_t)five, &it) && it.low == 5 && it.high == 0 && it.width == 32);
  WANT(it.type == mlir_work_value_type(&s, &constant));
  const char *const texts[] = {"-1 : i128", "true", "-2 : index", "18446744073709551617 : i65", "255 : i8"};
  const mlir_work_integer_value wanted[] = {{UINT64_MAX, UINT64_MAX, 0, 128}, {1, 0, 0, 1}, {UINT64_MAX - 1, 0, 0, 0},
                                            {1, 1, 0, 65}, {255, 0, 0, 8}};
  for (size_t k = 0; k < 5; k++) {
    mlir_work_answer answer;
    mlir_work_attribute(&s, (const uint8_t *)texts[k], strlen(texts[k]), &answer);
    WANT(answer.outcome == MLIR_WORK_OK && mlir_work_integer(&s, (uint32_t)answer.number, &it));
    WANT(it.low == wanted[k].low && it.high == wanted[k].high && it.width == wanted[k].width);
  }
}

/* A number keeps its meaning through edits and a rollback, also if only the edits that were undone needed it. */
static void numbers(void) {
  const uint64_t addi = mlir_work_name_of(&s, ADD);
  run("begin");
  run("insert before #6 %x = \"test.new\"() {fresh = 77 : i77} : () -> i77");
  const mlir_work_value made = result(7, 0);
  const uint64_t fresh = mlir_work_name_of(&s, 7), type = mlir_work_value_type(&s, &made), key = name("fresh");
  const uint64_t attribute = mlir_work_attribute_by_key(&s, 7, (uint32_t)key);
  run("erase #7");
  run("rollback");
  WANT(mlir_work_name_of(&s, 7) == MLIR_WORK_NONE && mlir_work_name_of(&s, ADD) == addi);
  for (int k = 0; k < 2; k++) {
    WANT(is_text(mlir_work_name_text, fresh, "test.new") && is_text(mlir_work_name_text, key, "fresh"));
    WANT(is_text(mlir_work_type_text, type, "i77") && is_text(mlir_work_attribute_text, attribute, "77 : i77"));
    run(k ? "canon" : "insert before #6 \"test.other\"() {later = 88 : i88} : () -> ()");
  }
}

static void closed(void) {
  mlir_work_count count = {9, 9, 9, 9, 9};
  mlir_work_entry entry = {9, 9};
  mlir_work_use use = {9, 9};
  mlir_work_value value = result(ADD, 0);
  uint32_t operation = 99;
  uint8_t byte = '.';
  WANT(mlir_work_operations(&s, &operation, 1) == MLIR_WORK_NONE && mlir_work_walk_next(&s, 0, 0) == MLIR_WORK_NONE);
  WANT(mlir_work_region_of(&s, ADD) == MLIR_WORK_NONE && mlir_work_name_of(&s, ADD) == MLIR_WORK_NONE);
  WANT(!mlir_work_counts(&s, ADD, &count) && mlir_work_argument_count(&s, FUNC, 0) == MLIR_WORK_NONE);
  WANT(mlir_work_value_type(&s, &value) == MLIR_WORK_NONE && mlir_work_uses(&s, &value, &use, 1) == 0);
  WANT(!mlir_work_property_at(&s, CONSTANT, 0, &entry) && !mlir_work_attribute_at(&s, CONSTANT, 0, &entry));
  WANT(mlir_work_property_by_key(&s, 0, 0) == MLIR_WORK_NONE && mlir_work_attribute_by_key(&s, 0, 0) == MLIR_WORK_NONE);
  WANT(name("arith.addi") == MLIR_WORK_NONE && mlir_work_name_text(&s, 0, &byte, 1) == MLIR_WORK_NONE);
  WANT(mlir_work_type_text(&s, 0, &byte, 1) == MLIR_WORK_NONE);
  WANT(mlir_work_attribute_text(&s, 0, &byte, 1) == MLIR_WORK_NONE);
  mlir_work_head head = {9, {9, 9, 9, 9, 9}};
  mlir_work_value_use value_use = {9, 9, 9};
  mlir_work_integer_value integer = {9, 9, 9, 9};
  uint64_t type = 9;
  WANT(mlir_work_heads(&s, &operation, 1, &head, 1) == 0 && mlir_work_operands(&s, &operation, 1, &value, 1) == 0);
  WANT(mlir_work_types(&s, &value, 1, &type, 1) == 0 && mlir_work_value_uses(&s, &value, 1, &value_use, 1) == 0);
  WANT(mlir_work_records(&s, &operation, 1, (mlir_work_item *)&value, 1) == 0);
  WANT(!mlir_work_integer(&s, 0, &integer) && integer.low == 9 && head.name == 9 && type == 9 && value_use.value == 9);
  WANT(value.operation == ADD);
  WANT(operation == 99 && byte == '.' && count.results == 9 && entry.key == 9 && use.operand == 9);
}

int main(void) {
  closed();
  open_module();
  operations();
  counts();
  texts();
  entries();
  uses();
  heads();
  operands();
  types();
  value_uses();
  records();
  integers();
  numbers();
  mlir_work_close(&s);
  closed();
  return faults != 0;
}
