/* Edits by interned numbers, interning, and report rows as numbers: what is made, what is refused and changes nothing,
   and closed handles. It says nothing and ends with 0 if all answers are right. */
#include "mlir_work.h"

#include <stdio.h>
#include <stdlib.h>
#include <string.h>

static int faults;

static void want(bool is_right, const char *what, int line) {
  if (!is_right) {
    printf("line %d: %s\n", line, what);
    faults++;
  }
}

#define WANT(it) want((it), #it, __LINE__)

static const char module[] =
    "\"func.func\"() <{function_type = (i32, i32) -> i32, sym_name = \"f\"}> ({\n"
    "^bb0(%a: i32, %b: i32):\n"
    "  %0 = \"arith.constant\"() <{value = 5 : i32}> : () -> i32\n"
    "  \"func.return\"(%0) : (i32) -> ()\n"
    "}) : () -> ()\n";

enum { ROOT, FUNC, CONSTANT, RETURN, NEW };

static mlir_work_session s = MLIR_WORK_CLOSED;
static mlir_work_answer answer;

typedef void interns(mlir_work_session *, const uint8_t *, size_t, mlir_work_answer *);

/* The number of a text, or NONE if it is refused. */
static uint32_t number(interns *intern, const char *text) {
  intern(&s, (const uint8_t *)text, strlen(text), &answer);
  return answer.outcome == MLIR_WORK_OK ? (uint32_t)answer.number : UINT32_MAX;
}

static const char *shown(const char *line) {
  static char text[16384];
  mlir_work_command(&s, (const uint8_t *)line, strlen(line), &answer);
  text[mlir_work_read(&s, 0, (uint8_t *)text, sizeof text - 1)] = 0;
  return text;
}

static void interning(void) {
  const uint32_t addi = number(mlir_work_name, "arith.addi"), fresh = number(mlir_work_name, "test.fresh");
  WANT(addi == mlir_work_find_name(&s, (const uint8_t *)"arith.addi", 10) && fresh != addi);
  WANT(fresh == mlir_work_find_name(&s, (const uint8_t *)"test.fresh", 10));
  WANT(number(mlir_work_name, "test.fresh") == fresh);
  const mlir_work_value constant = {CONSTANT, MLIR_WORK_RESULT, 0};
  WANT(number(mlir_work_type, "i32") == mlir_work_value_type(&s, &constant));
  WANT(number(mlir_work_type, "memref<4x?xi7>") == number(mlir_work_type, "memref<4x?xi7>"));
  WANT(number(mlir_work_type, "i7") != number(mlir_work_type, "i32"));
  const uint64_t value = mlir_work_property_by_key(&s, CONSTANT, number(mlir_work_name, "value"));
  WANT(number(mlir_work_attribute, "5 : i32") == value && number(mlir_work_attribute, "5 : i33") != value);
  WANT(number(mlir_work_type, "5 : i32") == UINT32_MAX && answer.refusal == MLIR_WORK_UNEXPECTED);
  WANT(answer.outcome == MLIR_WORK_REFUSED_AT && answer.number == 0);
  WANT(number(mlir_work_type, "what") == UINT32_MAX && answer.outcome == MLIR_WORK_REFUSED_AT);
  WANT(number(mlir_work_attribute, "[1, what]") == UINT32_MAX && answer.number == 4);
  WANT(number(mlir_work_attribute, "") == UINT32_MAX && answer.outcome == MLIR_WORK_REFUSED_AT);
}

static void insert(uint32_t kind, uint32_t operation, uint32_t name, const mlir_work_value *operands,
                   size_t operand_count, const uint32_t *results, size_t result_count,
                   const mlir_work_new_entry *entries, size_t entry_count) {
  const mlir_work_new made = {{kind, operation, 0}, name};
  mlir_work_insert(&s, &made, operands, operand_count, results, result_count, entries, entry_count, &answer);
}

static void inserting(void) {
  const mlir_work_value operands[] = {{CONSTANT, MLIR_WORK_RESULT, 0}, {FUNC, 0, 1}};
  const mlir_work_value late = {RETURN, MLIR_WORK_RESULT, 0}, unseen = {NEW, MLIR_WORK_RESULT, 0};
  const uint32_t i32 = number(mlir_work_type, "i32"), unknown = 4000000000;
  const uint32_t name = number(mlir_work_name, "test.new"), value = number(mlir_work_name, "value");
  const uint32_t tag = number(mlir_work_name, "tag"), five = number(mlir_work_attribute, "5 : i32");
  const mlir_work_new_entry entries[] = {{value, five, 1}, {tag, five, 0}};
  const mlir_work_new_entry strange[] = {{tag, unknown, 0}, {unknown, five, 0}};
  const uint32_t types[] = {i32, i32};
  char before[4096];
  insert(MLIR_WORK_AFTER, CONSTANT, name, operands, 2, types, 2, entries, 2);
  WANT(answer.outcome == MLIR_WORK_MADE && answer.number == NEW);
  WANT(strstr(shown("print"), "%1:2 = \"test.new\"(%0, %arg1) <{value = 5 : i32}> {tag = 5 : i32} : (i32, i32) -> "
                              "(i32, i32)\n"));
  strcpy(before, shown("print"));
  insert(MLIR_WORK_BEFORE, RETURN, unknown, operands, 0, types, 0, entries, 0);
  WANT(answer.outcome == MLIR_WORK_REFUSED && answer.refusal == MLIR_WORK_BAD_COMMAND);
  insert(MLIR_WORK_BEFORE, RETURN, name, operands, 0, &unknown, 1, entries, 0);
  WANT(answer.refusal == MLIR_WORK_BAD_COMMAND);
  for (int k = 0; k < 2; k++) {
    insert(MLIR_WORK_BEFORE, RETURN, name, operands, 0, types, 0, &strange[k], 1);
    WANT(answer.refusal == MLIR_WORK_BAD_COMMAND);
  }
  insert(4, RETURN, name, operands, 0, types, 0, entries, 0);
  WANT(answer.refusal == MLIR_WORK_BAD_COMMAND);
  insert(MLIR_WORK_BEFORE, 99, name, operands, 0, types, 0, entries, 0);
  WANT(answer.refusal == MLIR_WORK_NO_SUCH_OP);
  insert(MLIR_WORK_AFTER, ROOT, name, operands, 0, types, 0, entries, 0);
  WANT(answer.refusal == MLIR_WORK_IS_ROOT);
  insert(MLIR_WORK_END, RETURN, name, operands, 0, types, 0, entries, 0);
  WANT(answer.refusal == MLIR_WORK_NO_SUCH_INDEX);
  insert(MLIR_WORK_START, FUNC, name, &late, 1, types, 0, entries, 0);
  WANT(answer.refusal == MLIR_WORK_NO_SUCH_VALUE);
  insert(MLIR_WORK_START, FUNC, name, &unseen, 1, types, 0, entries, 0);
  WANT(answer.refusal == MLIR_WORK_NOT_VISIBLE);
  WANT(!strcmp(before, shown("print")));
  insert(MLIR_WORK_START, ROOT, name, operands, 0, types, 0, entries, 0);
  WANT(answer.outcome == MLIR_WORK_MADE && answer.number == NEW + 1);
  insert(MLIR_WORK_END, ROOT, name, operands, 0, types, 0, entries, 0);
  WANT(answer.outcome == MLIR_WORK_MADE && mlir_work_last(&s, ROOT, 0) == NEW + 2);
  WANT(mlir_work_first(&s, ROOT, 0) == NEW + 1);
}

/* An entry of an operation that is inserted by a text and by numbers. */
typedef struct written {
  const char *key;
  const char *attribute;
  bool is_property;
} written;

static size_t length_of(const written *entries) {
  size_t count = 0;
  while (entries[count].key)
    count++;
  return count;
}

/* Writes the entries in braces, or writes nothing if there are none. */
static void dictionary(char *text, const written *entries, bool are_properties, const char *open, const char *close) {
  bool is_first = true;
  for (const written *it = entries; it->key; it++)
    if (it->is_property == are_properties) {
      sprintf(text + strlen(text), "%s%s = %s", is_first ? open : ", ", it->key, it->attribute);
      is_first = false;
    }
  strcat(text, is_first ? "" : close);
}

/* Inserts an operation with these entries by a text and by numbers. Returns the refusal of both, and faults if they
   differ, or if the modules differ after it. */
static uint32_t both_ways(const char *name, const written *entries) {
  static mlir_work_new_entry made[600];
  static char text[16384], by_text[16384];
  const uint32_t type = 0;
  const mlir_work_value value = {0, 0, 0};
  sprintf(text, "insert before #%d \"%s\"()", RETURN, name);
  dictionary(text, entries, true, " <{", "}>");
  dictionary(text, entries, false, " {", "}");
  strcat(text, " : () -> ()");
  shown("begin");
  shown(text);
  const mlir_work_answer first = answer;
  strcpy(by_text, shown("print"));
  shown("rollback");
  const size_t count = length_of(entries);
  for (size_t k = 0; k < count; k++)
    made[k] = (mlir_work_new_entry){number(mlir_work_name, entries[k].key),
                                    number(mlir_work_attribute, entries[k].attribute), entries[k].is_property};
  const uint32_t named = number(mlir_work_name, name);
  shown("begin");
  insert(MLIR_WORK_BEFORE, RETURN, named, &value, 0, &type, 0, made, count);
  WANT(answer.refusal == first.refusal);
  WANT(answer.outcome == (first.outcome == MLIR_WORK_REFUSED_AT ? MLIR_WORK_REFUSED : first.outcome));
  WANT(first.outcome == MLIR_WORK_REFUSED_AT || answer.number == first.number);
  WANT(!strcmp(by_text, shown("print")));
  shown("rollback");
  return first.refusal;
}

/* A key that is given twice is refused, and an inherent key is a property, as in a text; the order doesn't matter. */
static void dictionaries(void) {
  const written none[] = {{0}};
  const written reversed[] = {{"c", "1 : i8", false}, {"b", "unit", true}, {"a", "2 : i8", false}, {"aa", "unit", true},
                              {0}};
  const written attributes_twice[] = {{"a", "unit", false}, {"b", "unit", false}, {"a", "2 : i8", false}, {0}};
  const written properties_twice[] = {{"a", "unit", true}, {"a", "unit", true}, {0}};
  const written both_twice[] = {{"a", "unit", false}, {"a", "2 : i8", true}, {0}};
  const written inherent[] = {{"value", "5 : i32", false}, {"tag", "unit", false}, {0}};
  const written inherent_twice[] = {{"value", "5 : i32", false}, {"value", "5 : i32", true}, {0}};
  const written flags[] = {{"overflowFlags", "#arith.overflow<none>", false}, {"a", "unit", true}, {0}};
  WANT(both_ways("test.new", none) == 0);
  WANT(both_ways("test.new", reversed) == 0);
  WANT(both_ways("test.new", inherent) == 0);
  WANT(both_ways("test.new", attributes_twice) == MLIR_WORK_DUPLICATE_KEY);
  WANT(both_ways("test.new", properties_twice) == MLIR_WORK_DUPLICATE_KEY);
  WANT(both_ways("test.new", both_twice) == MLIR_WORK_DUPLICATE_KEY);
  WANT(both_ways("arith.constant", inherent) == 0);
  WANT(both_ways("arith.constant", inherent_twice) == MLIR_WORK_DUPLICATE_KEY);
  WANT(both_ways("arith.addi", flags) == 0);
  static char keys[258][8];
  static written many[259];
  for (int k = 0; k < 258; k++) {
    sprintf(keys[k], "k%03d", 257 - k);
    many[k] = (written){keys[k], "unit", false};
  }
  WANT(both_ways("test.new", many) == MLIR_WORK_TOO_MANY); /* 258 attributes */
  many[0].key = "value";
  many[257].key = NULL;
  WANT(both_ways("test.new", many) == MLIR_WORK_TOO_MANY); /* 257 */
  WANT(both_ways("arith.constant", many) == 0); /* 256, and a property */
  many[1].is_property = many[2].is_property = true;
  WANT(both_ways("test.new", many) == 0);
  many[256].key = "value";
  WANT(both_ways("test.new", many) == MLIR_WORK_DUPLICATE_KEY);
}

/* Entries that are set by numbers are those that `set-attr` sets, and a rollback restores them. */
static void attributes(void) {
  const uint32_t value = number(mlir_work_name, "value"), seven = number(mlir_work_attribute, "7 : i32");
  const uint32_t tag = number(mlir_work_name, "tag"), unknown = 4000000000;
  char before[4096];
  strcpy(before, shown("print"));
  shown("begin");
  mlir_work_set_attribute(&s, CONSTANT, value, seven, &answer);
  WANT(answer.outcome == MLIR_WORK_OK && mlir_work_property_by_key(&s, CONSTANT, value) == seven);
  mlir_work_set_attribute(&s, CONSTANT, tag, seven, &answer);
  WANT(answer.outcome == MLIR_WORK_OK && mlir_work_attribute_by_key(&s, CONSTANT, tag) == seven);
  mlir_work_drop_attribute(&s, CONSTANT, tag, &answer);
  WANT(answer.outcome == MLIR_WORK_OK && mlir_work_attribute_by_key(&s, CONSTANT, tag) == MLIR_WORK_NONE);
  mlir_work_drop_attribute(&s, CONSTANT, tag, &answer);
  WANT(answer.outcome == MLIR_WORK_REFUSED && answer.refusal == MLIR_WORK_NO_SUCH_KEY);
  mlir_work_set_attribute(&s, 99, value, seven, &answer);
  WANT(answer.refusal == MLIR_WORK_NO_SUCH_OP);
  mlir_work_set_attribute(&s, CONSTANT, unknown, seven, &answer);
  WANT(answer.refusal == MLIR_WORK_BAD_COMMAND);
  mlir_work_set_attribute(&s, CONSTANT, value, unknown, &answer);
  WANT(answer.refusal == MLIR_WORK_BAD_COMMAND);
  mlir_work_drop_attribute(&s, CONSTANT, unknown, &answer);
  WANT(answer.refusal == MLIR_WORK_BAD_COMMAND);
  shown("rollback");
  WANT(!strcmp(before, shown("print")));
}

/* The rows as numbers are those of the text; a short array gets the first cells. */
static void reports(void) {
  mlir_work_cell all[64], some[3];
  mlir_work_report(&s, MLIR_WORK_USES, all, 64, &answer);
  const size_t count = (size_t)answer.number;
  char text[4096] = "";
  WANT(answer.outcome == MLIR_WORK_OK && answer.shown == 0 && count % 3 == 0 && count > 3);
  for (size_t k = 0; k + 2 < count; k += 3) {
    const mlir_work_value *value = &all[k].value;
    char *end = text + strlen(text);
    WANT(all[k].kind == MLIR_WORK_CELL_VALUE && all[k].left == 2 && all[k + 1].left == 1 && all[k + 2].left == 0);
    WANT(all[k + 1].kind == MLIR_WORK_CELL_OPERATION && all[k + 2].kind == MLIR_WORK_CELL_NUMBER);
    if (value->region == MLIR_WORK_RESULT)
      sprintf(end, "%%v%u.%u", value->operation, value->place);
    else
      sprintf(end, "%%a%u.%u.%u", value->operation, value->region, value->place);
    sprintf(text + strlen(text), " #%u %u\n", all[k + 1].value.operation, (unsigned)all[k + 2].low);
  }
  WANT(!strcmp(text, shown("report uses")));
  memset(some, '.', sizeof some);
  mlir_work_report(&s, MLIR_WORK_USES, some, 2, &answer);
  WANT(answer.number == count && some[0].left == 2 && some[1].left == 1 && some[2].kind == 0x2e2e2e2e);
  mlir_work_report(&s, MLIR_WORK_CONSTANTS, all, 64, &answer);
  WANT(answer.number == 2 && all[0].value.operation == CONSTANT && all[1].kind == MLIR_WORK_CELL_CONSTANT);
  WANT(all[1].low == 5 && all[1].high == 0 && all[1].value.place == 32);
  mlir_work_report(&s, MLIR_WORK_SYMBOLS, all, 64, &answer);
  WANT(answer.outcome == MLIR_WORK_OK && all[0].kind == MLIR_WORK_CELL_WORD && all[0].low == MLIR_WORK_WORD_DEF);
  WANT(number(mlir_work_name, "f") == all[2].low && all[2].kind == MLIR_WORK_CELL_NAME);
  for (uint32_t kind = 0; kind < 300; kind++) {
    mlir_work_report(&s, kind, all, 64, &answer);
    WANT(kind >= 1 && kind <= 7 ? answer.outcome == MLIR_WORK_OK : answer.refusal == MLIR_WORK_NO_SUCH_KIND);
  }
  shown("print");
  const uint64_t length = answer.shown;
  mlir_work_report(&s, MLIR_WORK_DEAD, all, 64, &answer);
  uint8_t byte;
  WANT(mlir_work_read(&s, (size_t)length - 1, &byte, 1) == 1);
}

/* User patterns are defined from a text, as by `--patterns`. */
static void patterns(void) {
  static const char text[] = "// a comment\n\n  double arith.addi(%a, %a) => arith.shli(%a, 1)\n"
                             "same arith.addi(%a, 0) => %a";
  static const char wrong[] = "other arith.ori(%a, 0) => %a\nwhat\n";
  size_t at = 99;
  mlir_work_patterns(&s, (const uint8_t *)text, sizeof text - 1, &at, &answer);
  WANT(answer.outcome == MLIR_WORK_OK && answer.number == 2 && answer.shown == 0);
  WANT(strstr(shown("patterns"), "double") && strstr(shown("patterns"), "same"));
  mlir_work_patterns(&s, (const uint8_t *)wrong, sizeof wrong - 1, &at, &answer);
  WANT(answer.outcome >= MLIR_WORK_REFUSED && answer.outcome <= MLIR_WORK_REFUSED_AT && at == 29);
  WANT(strstr(shown("patterns"), "other"));
  mlir_work_patterns(&s, (const uint8_t *)"", 0, &at, &answer);
  WANT(answer.outcome == MLIR_WORK_OK && answer.number == 0);
  shown("check same");
  WANT(answer.outcome == MLIR_WORK_HOLDS);
}

static void closed(void) {
  const mlir_work_value value = {0, 0, 0};
  const uint32_t type = 0;
  const mlir_work_new_entry entry = {0, 0, 0};
  size_t at;
  mlir_work_cell cell;
  cell.kind = 9;
  insert(MLIR_WORK_END, ROOT, 0, &value, 0, &type, 0, &entry, 0);
  WANT(answer.outcome == MLIR_WORK_NO_SESSION);
  interns *const all[] = {mlir_work_name, mlir_work_type, mlir_work_attribute};
  for (int k = 0; k < 3; k++)
    WANT(number(all[k], "i32") == UINT32_MAX && answer.outcome == MLIR_WORK_NO_SESSION);
  mlir_work_set_attribute(&s, 0, 0, 0, &answer);
  WANT(answer.outcome == MLIR_WORK_NO_SESSION);
  mlir_work_drop_attribute(&s, 0, 0, &answer);
  WANT(answer.outcome == MLIR_WORK_NO_SESSION);
  mlir_work_report(&s, MLIR_WORK_USES, &cell, 1, &answer);
  WANT(answer.outcome == MLIR_WORK_NO_SESSION && cell.kind == 9);
  mlir_work_patterns(&s, (const uint8_t *)"p", 1, &at, &answer);
  WANT(answer.outcome == MLIR_WORK_NO_SESSION);
}

int main(void) {
  closed();
  mlir_work_open(&s, (const uint8_t *)module, sizeof module - 1, 7, 1000, &answer);
  WANT(answer.outcome == MLIR_WORK_OK);
  interning();
  inserting();
  dictionaries();
  attributes();
  reports();
  patterns();
  mlir_work_close(&s);
  closed();
  return faults != 0;
}
