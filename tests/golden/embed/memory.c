/* Refuses each allocation of a session in turn, once alone and once with all that follow in its call: what is refused
   for want of memory leaves the module as it was, what is said again then goes on as ever, and behind the end nothing
   is left. It says nothing and ends with 0 where that is so. It is linked with
   -Wl,--wrap=malloc,--wrap=realloc,--wrap=free. */
#include "mlir_work.h"

#include <stdio.h>
#include <stdlib.h>
#include <string.h>

void *__real_malloc(size_t size);
void *__real_realloc(void *old, size_t size);
void __real_free(void *old);

/* How many allocations there were, which is refused, whether all behind it are, and how many blocks are held. */
static unsigned long count, refused;
static long held;
static bool all, off = true;

static bool refuse(void) {
  if (off)
    return false;
  count++;
  return refused && (count == refused || (all && count > refused));
}

void *__wrap_malloc(size_t size) {
  void *made = refuse() ? NULL : __real_malloc(size);
  held += made != NULL;
  return made;
}

void *__wrap_realloc(void *old, size_t size) {
  void *made = refuse() ? NULL : __real_realloc(old, size);
  held += made && !old;
  return made;
}

void __wrap_free(void *old) {
  held -= old != NULL;
  __real_free(old);
}

enum { ROOM = 16384 };

/* What a line was answered, and what it showed. */
struct told {
  mlir_work_answer answer;
  char shown[ROOM];
};

static const char module[] =
    "\"func.func\"() <{function_type = (i32) -> i32, sym_name = \"f\", sym_visibility = \"private\"}> ({\n"
    "^bb0(%a: i32):\n"
    "  %0 = \"arith.constant\"() <{value = 0 : i32}> : () -> i32\n"
    "  %1 = \"arith.addi\"(%a, %0) <{overflowFlags = #arith.overflow<none>}> : (i32, i32) -> i32\n"
    "  %2 = \"arith.remsi\"(%1, %a) : (i32, i32) -> i32\n"
    "  %3 = \"arith.constant\"() <{value = 1 : i32}> : () -> i32\n"
    "  %4 = \"arith.muli\"(%a, %3) <{overflowFlags = #arith.overflow<none>}> : (i32, i32) -> i32\n"
    "  \"test.use\"(%4) : (i32) -> ()\n"
    "  \"func.return\"(%2) : (i32) -> ()\n"
    "}) : () -> ()\n"
    "%t = \"test.pair\"() : () -> i32\n";

static const char *const lines[] = {
    "report uses", "report symbols", "report diagnostics", "report effects", "report dead", "report constants",
    "report unreached", "begin", "set-operand #3 1 %a1.0.0", "replace %v2.0 %a1.0.0", "erase #2",
    "insert before #3 \"test.new\"() ({ \"test.inner\"() {k = \"text\"} : () -> () }) {l = @f} : () -> ()",
    "set-attr #3 key [1, \"two\", @f::@g]", "drop-attr #3 key", "move #9 end #0 0", "report uses", "report symbols",
    "commit", "begin", "apply erase-dead #3", "apply 1 #5", "canon", "convert partial illegal arith.remsi rules 27",
    "print", "rollback", "print", "sweep", "report unreached", "resync dead", "report dead", "detach uses",
    "report uses", "attach uses", "report uses", "print", "print ids", "erase #99", "expect 20 erase #99"};

enum { LINES = sizeof lines / sizeof *lines };
static struct told wanted[LINES];

static void say(mlir_work_session *session, const char *line, struct told *told) {
  mlir_work_command(session, (const uint8_t *)line, strlen(line), &told->answer);
  memset(told->shown, 0, sizeof told->shown);
  if (told->answer.shown < ROOM)
    mlir_work_read(session, 0, (uint8_t *)told->shown, ROOM - 1);
}

/* The same, while no allocation is refused. */
static void say_surely(mlir_work_session *session, const char *line, struct told *told) {
  off = true;
  say(session, line, told);
  off = false;
}

static bool is_same(const struct told *one, const struct told *other) {
  return !memcmp(&one->answer, &other->answer, sizeof one->answer) && !strcmp(one->shown, other->shown);
}

/* An analysis may have given up where memory was refused while it was told of an edit, and then it says so. */
static void resume(mlir_work_session *session, const char *line, struct told *told) {
  struct told ignored;
  char text[64];
  if (strncmp(line, "report ", 7) || told->answer.refusal != MLIR_WORK_STALE)
    return;
  snprintf(text, sizeof text, "resync %s", line + 7);
  say_surely(session, text, &ignored);
  say_surely(session, line, told);
}

static int fault(unsigned long number, const char *line, const struct told *told, const struct told *other) {
  fprintf(stderr, "allocation %lu, `%s`: outcome %u, refusal %u, number %lu:\n%s\nand not %u, %u, %lu:\n%s\n", number,
          line, told->answer.outcome, told->answer.refusal, (unsigned long)told->answer.number, told->shown,
          other->answer.outcome, other->answer.refusal, (unsigned long)other->answer.number, other->shown);
  return 1;
}

/* Says a line while allocations may be refused; where it is, the module has to be as it was, and it is said again. */
static int step(mlir_work_session *session, const char *line, const struct told *want) {
  static struct told before, told, behind;
  say_surely(session, "print", &before);
  say(session, line, &told);
  if (count >= refused)
    refused = 0;
  if (told.answer.refusal == MLIR_WORK_MEMORY) {
    say_surely(session, "print", &behind);
    if (!is_same(&before, &behind))
      return fault(count, line, &behind, &before);
    say_surely(session, line, &told);
  }
  resume(session, line, &told);
  return is_same(&told, want) ? 0 : fault(count, line, &told, want);
}

static void open_one(mlir_work_session *session, mlir_work_answer *answer) {
  mlir_work_open(session, (const uint8_t *)module, strlen(module), 7, 1000, answer);
}

/* A whole session, whose allocation `number` is refused; says whether there were so many. */
static int turn(unsigned long number, bool rest, bool *is_over) {
  mlir_work_session session = MLIR_WORK_CLOSED;
  mlir_work_answer answer;
  int wrong = 0;
  count = 0, refused = number, all = rest, off = false;
  open_one(&session, &answer);
  if (count >= refused)
    refused = 0;
  if (answer.outcome != MLIR_WORK_OK) {
    wrong = answer.outcome != MLIR_WORK_REFUSED || answer.refusal != MLIR_WORK_MEMORY;
    if (wrong)
      fprintf(stderr, "allocation %lu: opened with outcome %u, refusal %u\n", number, answer.outcome, answer.refusal);
    mlir_work_command(&session, (const uint8_t *)"print", 5, &answer);
    if (answer.outcome != MLIR_WORK_NO_SESSION)
      wrong = fprintf(stderr, "allocation %lu: it is open all the same\n", number);
    off = true;
    open_one(&session, &answer);
    off = false;
  }
  for (size_t i = 0; i < LINES && !wrong; i++)
    wrong = step(&session, lines[i], &wanted[i]);
  *is_over = refused != 0;
  off = true;
  mlir_work_close(&session);
  if (held && !wrong)
    wrong = fprintf(stderr, "allocation %lu: %ld blocks are left\n", number, held);
  return wrong;
}

/* A read whose memory is refused says so and writes nothing, and the next one is answered. */
static int reads(void) {
  mlir_work_session session = MLIR_WORK_CLOSED;
  mlir_work_answer answer;
  uint8_t text[64];
  uint32_t operations[64];
  off = true;
  open_one(&session, &answer);
  const long before = held;
  for (int which = 0; which < 3; which++) {
    uint64_t got = MLIR_WORK_NO_MEMORY;
    for (refused = 1; got == MLIR_WORK_NO_MEMORY; refused++) {
      memset(text, '.', sizeof text);
      memset(operations, '.', sizeof operations);
      count = 0, off = false;
      got = which == 0   ? mlir_work_operations(&session, operations, 64)
            : which == 1 ? mlir_work_type_text(&session, 0, text, sizeof text)
                         : mlir_work_attribute_text(&session, 0, text, sizeof text);
      off = true;
      if (held != before || (got == MLIR_WORK_NO_MEMORY && (text[0] != '.' || operations[0] != 0x2e2e2e2e)))
        return fprintf(stderr, "read %d, allocation %lu: something is left, or was written\n", which, refused);
    }
    if (refused == 2 || got > 64)
      return fprintf(stderr, "read %d: no allocation was refused, or it isn't answered\n", which);
  }
  refused = 0;
  mlir_work_close(&session);
  return held ? fprintf(stderr, "%ld blocks are left by reads\n", held) : 0;
}

/* The calls by numbers that take memory, and whether the turn's call makes an operation. */
static uint32_t name, other, type, attribute;

static void call(mlir_work_session *session, int which, unsigned long turn, mlir_work_answer *answer) {
  static const char *const texts[] = {"test.name%lu", "memref<%lux?xi9>", "[%lu : i9, \"text\", @f]"};
  const mlir_work_value operand = {0, 0, 0};
  const mlir_work_new made = {{MLIR_WORK_END, 0, 0}, name};
  const mlir_work_new_entry entries[] = {{name, attribute, 1}, {other, attribute, 0}};
  mlir_work_cell cells[4];
  char text[64];
  const int length = snprintf(text, sizeof text, texts[which % 3], turn + 1);
  if (which == 0)
    mlir_work_name(session, (const uint8_t *)text, (size_t)length, answer);
  else if (which == 1)
    mlir_work_type(session, (const uint8_t *)text, (size_t)length, answer);
  else if (which == 2)
    mlir_work_attribute(session, (const uint8_t *)text, (size_t)length, answer);
  else if (which == 3)
    mlir_work_insert(session, &made, &operand, 0, &type, 1, entries, 2, answer);
  else if (which == 4)
    mlir_work_set_attribute(session, 2, name, attribute, answer);
  else if (which == 5)
    mlir_work_drop_attribute(session, 2, name, answer);
  else
    mlir_work_report(session, (uint32_t)(which - 5), cells, 4, answer);
}

enum { CALLS = 13 };

/* A call whose memory is refused says so, and leaves the module as it was; then it is accepted. */
static int numbers(void) {
  static struct told before, after;
  for (int which = 0; which < CALLS; which++) {
    unsigned long turns = 0;
    for (bool is_over = false; !is_over; turns++) {
      mlir_work_session session = MLIR_WORK_CLOSED;
      mlir_work_answer answer;
      off = true;
      open_one(&session, &answer);
      mlir_work_name(&session, (const uint8_t *)"test.key", 8, &answer);
      name = (uint32_t)answer.number;
      mlir_work_name(&session, (const uint8_t *)"test.other", 10, &answer);
      other = (uint32_t)answer.number;
      mlir_work_type(&session, (const uint8_t *)"i32", 3, &answer);
      type = (uint32_t)answer.number;
      mlir_work_attribute(&session, (const uint8_t *)"5 : i32", 7, &answer);
      attribute = (uint32_t)answer.number;
      if (which == 5)
        mlir_work_set_attribute(&session, 2, name, attribute, &answer);
      say(&session, "print", &before);
      count = 0, refused = turns + 1, all = turns % 2, off = false;
      call(&session, which, turns, &answer);
      off = true;
      is_over = count < refused;
      if (answer.outcome == MLIR_WORK_REFUSED && answer.refusal == MLIR_WORK_MEMORY) {
        say(&session, "print", &after);
        if (!is_same(&before, &after))
          return fault(turns, "a call by numbers", &after, &before);
        call(&session, which, turns, &answer);
      }
      if (answer.outcome != MLIR_WORK_OK && answer.outcome != MLIR_WORK_MADE && answer.refusal != MLIR_WORK_STALE)
        return fprintf(stderr, "call %d, allocation %lu: outcome %u, refusal %u\n", which, turns + 1, answer.outcome,
                       answer.refusal);
      refused = 0;
      mlir_work_close(&session);
      if (held)
        return fprintf(stderr, "call %d, allocation %lu: %ld blocks are left\n", which, turns + 1, held);
    }
    if (turns < 2 && which != 5 && which < 8) /* a removal takes none, and some of the later reports have no rows */
      return fprintf(stderr, "call %d: no allocation was refused\n", which);
  }
  return 0;
}

int main(int argc, char **argv) {
  mlir_work_session session = MLIR_WORK_CLOSED;
  mlir_work_answer answer;
  unsigned long turns = 0;
  /* (the files of the standard library have blocks of their own, of which none is counted) */
  setvbuf(stdout, NULL, _IONBF, 0);
  setvbuf(stderr, NULL, _IONBF, 0);
  open_one(&session, &answer);
  for (size_t i = 0; i < LINES; i++)
    say(&session, lines[i], &wanted[i]);
  mlir_work_close(&session);
  if (held)
    return fprintf(stderr, "%ld blocks are left where none is refused\n", held) > 0;
  if (reads() || numbers())
    return 1;
  for (int rest = 0; rest < 2; rest++) {
    bool is_over = false;
    for (unsigned long number = 1; !is_over; number++, turns++)
      if (turn(number, rest, &is_over))
        return 1;
  }
  if (argc > 1 && !strcmp(argv[1], "--count"))
    printf("%lu sessions\n", turns);
  return 0;
}
