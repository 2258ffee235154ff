/* What a handle does when it is closed, opened twice, refused and moved, or was never one; and what is done by numbers.
   It says nothing and ends with 0 where all is as mlir_work.h says. */
#include "mlir_work.h"

#include <stdio.h>
#include <string.h>

#define WANT(what) \
  do { \
    if (!(what)) { \
      fprintf(stderr, "line %d: %s\n", __LINE__, #what); \
      return 1; \
    } \
  } while (0)

static const char module[] = "%0 = \"arith.constant\"() <{value = 3 : i32}> : () -> i32\n";

static mlir_work_answer said(mlir_work_session *session, const char *line) {
  mlir_work_answer answer;
  mlir_work_command(session, (const uint8_t *)line, strlen(line), &answer);
  return answer;
}

static mlir_work_answer opened(mlir_work_session *session, const char *text) {
  mlir_work_answer answer;
  mlir_work_open(session, (const uint8_t *)text, strlen(text), 7, 1000, &answer);
  return answer;
}

/* A closed one. */
static int closed(void) {
  mlir_work_session session = MLIR_WORK_CLOSED;
  uint8_t bytes[4] = {1, 2, 3, 4};
  WANT(said(&session, "print").outcome == MLIR_WORK_NO_SESSION);
  WANT(mlir_work_read(&session, 0, bytes, sizeof bytes) == 0);
  WANT(bytes[0] == 1 && bytes[3] == 4);
  mlir_work_close(&session);
  mlir_work_close(&session);
  WANT(said(&session, "print").outcome == MLIR_WORK_NO_SESSION);
  return 0;
}

/* What no call wrote counts as closed. */
static int foreign(void) {
  static const uint64_t words[] = {1, UINT64_MAX, 0x316b727772696c6cu, 0x326b727772696c6du, 0x6d6c697277726b31u};
  uint8_t bytes[4] = {1, 2, 3, 4};
  mlir_work_value value = {7, 8, 9};
  for (size_t i = 0; i < sizeof words / sizeof *words; i++) {
    mlir_work_session session;
    mlir_work_answer answer;
    memset(&session, 0xa5, sizeof session);
    session.word = words[i];
    WANT(said(&session, "print").outcome == MLIR_WORK_NO_SESSION);
    session.word = words[i];
    WANT(mlir_work_read(&session, 0, bytes, sizeof bytes) == 0 && bytes[0] == 1);
    session.word = words[i];
    mlir_work_erase(&session, 1, &answer);
    WANT(answer.outcome == MLIR_WORK_NO_SESSION);
    session.word = words[i];
    WANT(!mlir_work_has(&session, 0) && mlir_work_root(&session) == MLIR_WORK_NONE);
    session.word = words[i];
    WANT(!mlir_work_operand(&session, 1, 0, &value) && value.operation == 7 && value.place == 9);
    session.word = words[i];
    mlir_work_close(&session);
    memset(&session, 0xa5, sizeof session);
    session.word = words[i];
    WANT(opened(&session, module).outcome == MLIR_WORK_OK);
    mlir_work_close(&session);
  }
  return 0;
}

/* A module that is refused closes the handle, and gives up what it held. */
static int refused(void) {
  mlir_work_session session = MLIR_WORK_CLOSED;
  mlir_work_answer answer = opened(&session, module);
  WANT(answer.outcome == MLIR_WORK_OK && answer.refusal == 0 && answer.shown == 0);
  answer = opened(&session, "%0 = what");
  WANT(answer.outcome == MLIR_WORK_REFUSED_AT && answer.refusal >= 1 && answer.refusal <= 14);
  WANT(said(&session, "print").outcome == MLIR_WORK_NO_SESSION);
  mlir_work_close(&session);
  return 0;
}

/* Lines, what they show, and the same handle at another place. */
static int lines(void) {
  mlir_work_session first = MLIR_WORK_CLOSED, second;
  mlir_work_answer answer;
  uint8_t all[256] = {0}, piece[7];
  size_t length = 0, count;
  WANT(opened(&first, module).outcome == MLIR_WORK_OK);
  WANT(said(&first, "").outcome == MLIR_WORK_NOTHING);
  WANT(said(&first, "// a comment\n").outcome == MLIR_WORK_NOTHING);
  answer = said(&first, "print\nprint");
  WANT(answer.outcome == MLIR_WORK_REFUSED && answer.refusal == MLIR_WORK_BAD_COMMAND);
  answer = said(&first, "erase #99");
  WANT(answer.outcome == MLIR_WORK_REFUSED && answer.refusal == MLIR_WORK_NO_SUCH_OP);
  WANT(!strcmp(mlir_work_refusal_word(answer.refusal), "NoSuchOp"));
  answer = said(&first, "print\n");
  WANT(answer.outcome == MLIR_WORK_OK && answer.shown > 0 && answer.shown < sizeof all);
  while ((count = mlir_work_read(&first, length, piece, sizeof piece)) > 0) {
    memcpy(all + length, piece, count);
    length += count;
  }
  WANT(length == answer.shown && strstr((const char *)all, "arith.constant"));
  WANT(mlir_work_read(&first, length, piece, sizeof piece) == 0);
  WANT(mlir_work_read(&first, SIZE_MAX, piece, sizeof piece) == 0);
  WANT(mlir_work_read(&first, 0, piece, 0) == 0);
  second = first;
  answer = said(&second, "report dead");
  WANT(answer.outcome == MLIR_WORK_OK && answer.shown > 0);
  WANT(said(&second, "begin").outcome == MLIR_WORK_OK);
  WANT(said(&second, "erase #1").outcome == MLIR_WORK_OK);
  WANT(said(&second, "report dead").shown == 0);
  WANT(said(&second, "rollback").outcome == MLIR_WORK_OK);
  WANT(said(&second, "report dead").shown == answer.shown);
  mlir_work_close(&second);
  return 0;
}

/* What a line comes to whose bytes are odd, and how much it shows: blanks, line feeds, zeros, what isn't UTF-8. */
static int odd_lines(void) {
  static const struct {
    const char *line;
    size_t length;
    uint32_t outcome, refusal;
  } wanted[] = {{"\n", 1, MLIR_WORK_NOTHING, 0}, {" \t\r", 3, MLIR_WORK_NOTHING, 0},
                {"// -----", 8, MLIR_WORK_NOTHING, 0}, {"print\r\n", 7, MLIR_WORK_OK, 0},
                {"\n\n", 2, MLIR_WORK_REFUSED, MLIR_WORK_BAD_COMMAND},
                {"//x\nprint", 9, MLIR_WORK_REFUSED, MLIR_WORK_BAD_COMMAND},
                {"pr\0nt", 5, MLIR_WORK_REFUSED, MLIR_WORK_BAD_COMMAND},
                {"print\0", 6, MLIR_WORK_REFUSED, MLIR_WORK_BAD_COMMAND},
                {"// \xff", 4, MLIR_WORK_REFUSED, MLIR_WORK_BAD_COMMAND}};
  mlir_work_session session = MLIR_WORK_CLOSED;
  mlir_work_answer answer;
  WANT(opened(&session, module).outcome == MLIR_WORK_OK);
  for (size_t i = 0; i < sizeof wanted / sizeof *wanted; i++) {
    mlir_work_command(&session, (const uint8_t *)wanted[i].line, wanted[i].length, &answer);
    WANT(answer.outcome == wanted[i].outcome && answer.refusal == wanted[i].refusal && answer.number == 0);
    WANT((answer.shown > 0) == (answer.outcome == MLIR_WORK_OK));
  }
  mlir_work_close(&session);
  return 0;
}

/* A session is opened with any limit; a `canon` that says none is refused where that limit is out of range. */
static int limits(void) {
  static const struct {
    uint32_t limit, refusal;
  } wanted[] = {{0, MLIR_WORK_BAD_LIMIT}, {1, 0}, {1000000, 0}, {1000001, MLIR_WORK_BAD_LIMIT},
                {UINT32_MAX, MLIR_WORK_BAD_LIMIT}};
  mlir_work_session session = MLIR_WORK_CLOSED;
  mlir_work_answer answer;
  for (size_t i = 0; i < sizeof wanted / sizeof *wanted; i++) {
    mlir_work_open(&session, (const uint8_t *)module, strlen(module), 7, wanted[i].limit, &answer);
    WANT(answer.outcome == MLIR_WORK_OK);
    WANT(said(&session, "canon").refusal == wanted[i].refusal && said(&session, "canon limit 5").refusal == 0);
  }
  mlir_work_close(&session);
  return 0;
}

static const char sums[] =
    "%0 = \"test.source\"() : () -> i32\n"
    "%1 = \"arith.addi\"(%0, %0) <{overflowFlags = #arith.overflow<none>}> : (i32, i32) -> i32\n"
    "\"test.loop\"(%1) ({\n"
    "^bb0(%a: i32):\n"
    "  %2 = \"test.inner\"(%a) : (i32) -> i32\n"
    "  \"test.end\"(%2) : (i32) -> ()\n"
    "}, {}) : (i32) -> ()\n";

static bool is_value(mlir_work_session *session, uint32_t operation, size_t operand, mlir_work_value want) {
  mlir_work_value value = {9, 9, 9};
  return mlir_work_operand(session, operation, operand, &value) && value.operation == want.operation
         && value.region == want.region && value.place == want.place;
}

/* What is asked by numbers: #0 has #1, #2 and #3, and in #3 there are #4 and #5. */
static int questions(void) {
  mlir_work_session session = MLIR_WORK_CLOSED;
  mlir_work_value none = {7, 8, 9};
  mlir_work_use use;
  WANT(opened(&session, sums).outcome == MLIR_WORK_OK);
  WANT(mlir_work_root(&session) == 0 && mlir_work_has(&session, 5) && !mlir_work_has(&session, 6));
  WANT(mlir_work_parent(&session, 4) == 3 && mlir_work_parent(&session, 3) == 0);
  WANT(mlir_work_parent(&session, 0) == MLIR_WORK_NONE && mlir_work_parent(&session, 99) == MLIR_WORK_NONE);
  WANT(mlir_work_next(&session, 1) == 2 && mlir_work_next(&session, 3) == MLIR_WORK_NONE);
  WANT(mlir_work_previous(&session, 5) == 4 && mlir_work_previous(&session, 4) == MLIR_WORK_NONE);
  WANT(mlir_work_first(&session, 0, 0) == 1 && mlir_work_last(&session, 0, 0) == 3);
  WANT(mlir_work_first(&session, 3, 0) == 4 && mlir_work_last(&session, 3, 0) == 5);
  WANT(mlir_work_first(&session, 3, 1) == MLIR_WORK_NONE && mlir_work_last(&session, 3, 9) == MLIR_WORK_NONE);
  WANT(is_value(&session, 2, 1, (mlir_work_value){1, MLIR_WORK_RESULT, 0}));
  WANT(is_value(&session, 4, 0, (mlir_work_value){3, 0, 0}));
  WANT(!mlir_work_operand(&session, 2, 2, &none) && !mlir_work_operand(&session, 2, SIZE_MAX, &none));
  WANT(!mlir_work_operand(&session, 99, 0, &none) && none.operation == 7 && none.region == 8 && none.place == 9);
  WANT(mlir_work_first_use(&session, &(mlir_work_value){2, MLIR_WORK_RESULT, 0}, &use) && use.operation == 3
       && use.operand == 0);
  WANT(mlir_work_first_use(&session, &(mlir_work_value){3, 0, 0}, &use) && use.operation == 4);
  WANT(!mlir_work_first_use(&session, &(mlir_work_value){5, MLIR_WORK_RESULT, 0}, &use) && use.operation == 4);
  WANT(!mlir_work_first_use(&session, &(mlir_work_value){99, 0, 0}, &use) && use.operation == 4);
  mlir_work_close(&session);
  WANT(!mlir_work_first_use(&session, &(mlir_work_value){3, 0, 0}, &use) && use.operation == 4);
  WANT(mlir_work_root(&session) == MLIR_WORK_NONE && mlir_work_next(&session, 1) == MLIR_WORK_NONE);
  return 0;
}

/* Edits by numbers answer as the lines do. */
static int edits(void) {
  mlir_work_session session = MLIR_WORK_CLOSED;
  const mlir_work_value source = {1, MLIR_WORK_RESULT, 0}, sum = {2, MLIR_WORK_RESULT, 0}, argument = {3, 0, 0};
  mlir_work_answer answer;
  WANT(opened(&session, sums).outcome == MLIR_WORK_OK);
  mlir_work_set_operand(&session, 4, 0, &source, &answer);
  WANT(answer.outcome == MLIR_WORK_OK && !answer.shown && is_value(&session, 4, 0, source));
  mlir_work_set_operand(&session, 2, 0, &argument, &answer);
  WANT(answer.outcome == MLIR_WORK_REFUSED && answer.refusal == MLIR_WORK_NOT_VISIBLE);
  mlir_work_replace(&session, &sum, &source, &answer);
  WANT(answer.outcome == MLIR_WORK_OK && is_value(&session, 3, 0, source));
  mlir_work_erase(&session, 1, &answer);
  WANT(answer.outcome == MLIR_WORK_REFUSED && answer.refusal == MLIR_WORK_HAS_USES && mlir_work_has(&session, 1));
  mlir_work_erase(&session, 2, &answer);
  WANT(answer.outcome == MLIR_WORK_OK && !mlir_work_has(&session, 2) && mlir_work_next(&session, 1) == 3);
  mlir_work_move(&session, 4, &(mlir_work_spot){MLIR_WORK_BEFORE, 3, 0}, &answer);
  WANT(answer.outcome == MLIR_WORK_OK && mlir_work_next(&session, 1) == 4 && mlir_work_next(&session, 4) == 3);
  mlir_work_move(&session, 4, &(mlir_work_spot){MLIR_WORK_START, 3, 0}, &answer);
  WANT(answer.outcome == MLIR_WORK_OK && mlir_work_first(&session, 3, 0) == 4);
  mlir_work_move(&session, 4, &(mlir_work_spot){MLIR_WORK_AFTER, 1, 9}, &answer);
  WANT(answer.outcome == MLIR_WORK_OK && mlir_work_previous(&session, 4) == 1);
  mlir_work_move(&session, 1, &(mlir_work_spot){MLIR_WORK_END, 0, 0}, &answer);
  WANT(answer.outcome == MLIR_WORK_REFUSED && answer.refusal == MLIR_WORK_NOT_VISIBLE);
  mlir_work_move(&session, 1, &(mlir_work_spot){4, 0, 0}, &answer);
  WANT(answer.outcome == MLIR_WORK_REFUSED && answer.refusal == MLIR_WORK_BAD_COMMAND);
  mlir_work_close(&session);
  mlir_work_erase(&session, 1, &answer);
  WANT(answer.outcome == MLIR_WORK_NO_SESSION && !answer.refusal && !answer.number && !answer.shown);
  mlir_work_move(&session, 1, &(mlir_work_spot){4, 0, 0}, &answer);
  WANT(answer.outcome == MLIR_WORK_NO_SESSION);
  return 0;
}

/* Marks by calls answer as the lines do: a rollback undoes edits by lines and by numbers, a commit keeps them, and
   without a mark both are refused. */
static int marks(void) {
  mlir_work_session session = MLIR_WORK_CLOSED, lines = MLIR_WORK_CLOSED;
  mlir_work_answer answer;
  mlir_work_begin(&session, &answer);
  WANT(answer.outcome == MLIR_WORK_NO_SESSION && !answer.refusal && !answer.number && !answer.shown);
  WANT(opened(&session, sums).outcome == MLIR_WORK_OK && opened(&lines, sums).outcome == MLIR_WORK_OK);
  mlir_work_commit(&session, &answer);
  WANT(answer.outcome == MLIR_WORK_REFUSED && answer.refusal == MLIR_WORK_NO_MARK);
  mlir_work_rollback(&session, &answer);
  WANT(answer.outcome == MLIR_WORK_REFUSED && answer.refusal == MLIR_WORK_NO_MARK);
  WANT(said(&session, "print").shown);
  mlir_work_begin(&session, &answer);
  WANT(answer.outcome == MLIR_WORK_OK && !answer.shown);
  mlir_work_erase(&session, 3, &answer);
  WANT(answer.outcome == MLIR_WORK_OK && said(&session, "erase #2").outcome == MLIR_WORK_OK);
  mlir_work_rollback(&session, &answer);
  WANT(answer.outcome == MLIR_WORK_OK && mlir_work_has(&session, 2) && mlir_work_has(&session, 3));
  WANT(said(&session, "begin").outcome == MLIR_WORK_OK);
  mlir_work_erase(&session, 3, &answer);
  mlir_work_commit(&session, &answer);
  WANT(answer.outcome == MLIR_WORK_OK && !mlir_work_has(&session, 3));
  WANT(said(&session, "rollback").refusal == MLIR_WORK_NO_MARK);
  for (int i = 0; i < 17; i++) {
    mlir_work_begin(&session, &answer);
    const mlir_work_answer by_line = said(&lines, "begin");
    WANT(answer.outcome == by_line.outcome && answer.refusal == by_line.refusal);
  }
  WANT(answer.refusal == MLIR_WORK_TOO_MANY_MARKS);
  mlir_work_close(&session);
  mlir_work_close(&lines);
  return 0;
}

/* Edits by numbers that are at no place: the first and the greatest numbers, and values that aren't there. */
static int edges(void) {
  static const struct {
    uint32_t operation, refusal;
  } erased[] = {{0, MLIR_WORK_IS_ROOT}, {1, MLIR_WORK_HAS_USES}, {6, MLIR_WORK_NO_SUCH_OP},
                {UINT32_MAX, MLIR_WORK_NO_SUCH_OP}};
  const mlir_work_value source = {1, MLIR_WORK_RESULT, 0}, none = {UINT32_MAX, 0xfffffffeu, UINT32_MAX};
  const mlir_work_value far = {1, MLIR_WORK_RESULT, UINT32_MAX};
  mlir_work_session session = MLIR_WORK_CLOSED;
  mlir_work_answer answer;
  WANT(opened(&session, sums).outcome == MLIR_WORK_OK);
  for (size_t i = 0; i < sizeof erased / sizeof *erased; i++) {
    mlir_work_erase(&session, erased[i].operation, &answer);
    WANT(answer.refusal == erased[i].refusal);
  }
  mlir_work_set_operand(&session, 3, UINT32_MAX, &source, &answer);
  WANT(answer.refusal == MLIR_WORK_NO_SUCH_INDEX);
  mlir_work_set_operand(&session, 3, 0, &none, &answer);
  WANT(answer.refusal == MLIR_WORK_NO_SUCH_VALUE);
  mlir_work_set_operand(&session, 3, 0, &far, &answer);
  WANT(answer.refusal == MLIR_WORK_NO_SUCH_VALUE);
  mlir_work_replace(&session, &none, &far, &answer);
  WANT(answer.refusal == MLIR_WORK_NO_SUCH_VALUE);
  mlir_work_replace(&session, &source, &far, &answer);
  WANT(answer.refusal == MLIR_WORK_NO_SUCH_VALUE);
  mlir_work_move(&session, 3, &(mlir_work_spot){MLIR_WORK_BEFORE, 0, 0}, &answer);
  WANT(answer.refusal == MLIR_WORK_IS_ROOT);
  mlir_work_move(&session, 3, &(mlir_work_spot){MLIR_WORK_AFTER, UINT32_MAX, 0}, &answer);
  WANT(answer.refusal == MLIR_WORK_NO_SUCH_OP);
  mlir_work_move(&session, 3, &(mlir_work_spot){MLIR_WORK_END, 0, UINT32_MAX}, &answer);
  WANT(answer.refusal == MLIR_WORK_NO_SUCH_INDEX);
  mlir_work_move(&session, 3, &(mlir_work_spot){UINT32_MAX, 0, 0}, &answer);
  WANT(answer.refusal == MLIR_WORK_BAD_COMMAND);
  mlir_work_close(&session);
  return 0;
}

/* Patterns of one's own, which belong to a session, and which no rollback takes away. */
static int patterns(void) {
  static const char rows[] = "%a -2 : i2\nc -2 : i2\nold 1 : i2\nnew -1 : i2\n";
  mlir_work_session session = MLIR_WORK_CLOSED, other = MLIR_WORK_CLOSED;
  mlir_work_answer answer;
  uint8_t shown[256] = {0};
  WANT(opened(&session, sums).outcome == MLIR_WORK_OK && opened(&other, sums).outcome == MLIR_WORK_OK);
  answer = said(&session, "pattern twice arith.addi(%a) => %a");
  WANT(answer.outcome == MLIR_WORK_REFUSED_AT && answer.refusal == MLIR_WORK_TYPE_MISMATCH && answer.number == 6);
  WANT(said(&session, "begin").outcome == MLIR_WORK_OK);
  answer = said(&session, "pattern twice arith.addi(%a, %a) => arith.muli(%a, 2)");
  WANT(answer.outcome == MLIR_WORK_OK && !answer.shown);
  WANT(said(&session, "rollback").outcome == MLIR_WORK_OK);
  answer = said(&session, "check twice");
  WANT(answer.outcome == MLIR_WORK_HOLDS && answer.number == 0 && !answer.shown);
  answer = said(&session, "check twice width 8");
  WANT(answer.outcome == MLIR_WORK_HOLDS && answer.number == 8);
  answer = said(&session, "check twice width 64 sampled");
  WANT(answer.outcome == MLIR_WORK_UNREFUTED && answer.number == 64 && !answer.shown);
  answer = said(&session, "pattern half arith.divsi(%a, c) => arith.shrsi(%a, log2(c))");
  WANT(answer.outcome == MLIR_WORK_OK);
  answer = said(&session, "check half width 1");
  WANT(answer.outcome == MLIR_WORK_HOLDS && answer.number == 1 && !answer.refusal && !answer.shown);
  answer = said(&session, "check half");
  WANT(answer.outcome == MLIR_WORK_FAILS && answer.number == 2 && answer.shown == strlen(rows));
  WANT(mlir_work_read(&session, 0, shown, sizeof shown - 1) == strlen(rows) && !strcmp((const char *)shown, rows));
  answer = said(&session, "check half width 32 sampled");
  WANT(answer.outcome == MLIR_WORK_FAILS && answer.number == 32 && answer.shown);
  answer = said(&session, "check half width 0");
  WANT(answer.outcome == MLIR_WORK_REFUSED && answer.refusal == MLIR_WORK_BAD_LIMIT);
  WANT(said(&session, "pattern never arith.addi(%a, c) => %a where ult(c, 5), ugt(c, 9)").outcome == MLIR_WORK_OK);
  answer = said(&session, "check never");
  WANT(answer.outcome == MLIR_WORK_EMPTY && answer.number == 8);
  WANT(said(&session, "patterns").shown > 0 && said(&other, "patterns").shown == 0);
  answer = said(&session, "apply twice #2");
  WANT(answer.outcome == MLIR_WORK_APPLIED && answer.number == 1 && !mlir_work_has(&session, 2));
  answer = said(&session, "apply half #3");
  WANT(answer.outcome == MLIR_WORK_APPLIED && answer.number == 0);
  answer = said(&other, "apply twice #2");
  WANT(answer.outcome == MLIR_WORK_REFUSED && answer.refusal == MLIR_WORK_NO_SUCH_KEY);
  mlir_work_close(&session);
  mlir_work_close(&other);
  return 0;
}

static const char named[] =
    "%c = \"arith.constant\"() <{value = -1 : i32}> : () -> i32\n"
    "%t = \"arith.constant\"() <{value = true}> : () -> i1\n"
    "\"test.use\"(%c, %t) {k = @\"a b\", l = @\"a b\"::@\"c\\22 d\"} : (i32, i1) -> ()\n"
    "\"func.func\"() <{function_type = () -> (), sym_name = \"a b\"}> ({}) : () -> ()\n";

/* Rows by tabs. */
static int tabs(void) {
  static const struct {
    const char *line, *rows;
  } wanted[] = {{"report uses", "%v1.0\t#3\t0\n%v2.0\t#3\t1\n"},
                {"report symbols", "def\t#0\t@\"a b\"\t#4\nuse\t#3\t@\"a b\"\t#4\n"
                                   "unresolved\t#3\t@\"a b\"::@\"c\\22 d\"\n"},
                {"report effects", "#0\tunknown\n#3\tunknown\n#4\tunknown\n"},
                {"report constants", "%v1.0\t-1 : i32\n%v2.0\ttrue\n"},
                {"report dead", ""}};
  mlir_work_session session = MLIR_WORK_CLOSED;
  WANT(opened(&session, named).outcome == MLIR_WORK_OK);
  for (size_t i = 0; i < sizeof wanted / sizeof *wanted; i++) {
    uint8_t rows[256] = {0};
    WANT(said(&session, wanted[i].line).outcome == MLIR_WORK_OK);
    mlir_work_tabs(rows, mlir_work_read(&session, 0, rows, sizeof rows - 1));
    WANT(!strcmp((const char *)rows, wanted[i].rows));
  }
  mlir_work_close(&session);
  return 0;
}

/* Types and attributes that aren't known are kept where a session is opened so, and refused elsewhere. */
static int kept(void) {
  static const char text[] = "%0 = \"test.a\"() {x = 1.0 : f32} : () -> tensor<4xf32>\n";
  mlir_work_session session = MLIR_WORK_CLOSED;
  mlir_work_answer answer = opened(&session, text);
  uint8_t shown[256] = {0};
  WANT(answer.outcome == MLIR_WORK_REFUSED_AT && answer.refusal == MLIR_WORK_LEFT_OUT);
  mlir_work_open_opaque(&session, (const uint8_t *)text, strlen(text), 7, 1000, &answer);
  WANT(answer.outcome == MLIR_WORK_OK);
  WANT(said(&session, "set-attr #1 y #d.a<b>").outcome == MLIR_WORK_OK);
  WANT(said(&session, "insert end #0 0 \"test.b\"(%v1.0) : (tensor<4xf32>) -> !d.t").outcome == MLIR_WORK_MADE);
  WANT(said(&session, "print").outcome == MLIR_WORK_OK);
  mlir_work_read(&session, 0, shown, sizeof shown - 1);
  WANT(strstr((const char *)shown, "{x = 1.0 : f32, y = #d.a<b>} : () -> tensor<4xf32>"));
  WANT(strstr((const char *)shown, "(tensor<4xf32>) -> !d.t"));
  WANT(opened(&session, text).outcome == MLIR_WORK_REFUSED_AT);
  mlir_work_close(&session);
  return 0;
}

/* Many at once, each by itself. */
static int many(void) {
  enum { MANY = 64 };
  mlir_work_session sessions[MANY];
  for (int turn = 0; turn < 2; turn++) {
    for (int i = 0; i < MANY; i++) {
      const mlir_work_session begun = MLIR_WORK_CLOSED;
      sessions[i] = begun;
      WANT(opened(&sessions[i], module).outcome == MLIR_WORK_OK);
    }
    for (int i = 0; i < MANY; i += 2)
      WANT(said(&sessions[i], "erase #1").outcome == MLIR_WORK_OK);
    for (int i = 0; i < MANY; i++)
      WANT((said(&sessions[i], "report dead").shown == 0) == (i % 2 == 0));
    for (int i = 0; i < MANY; i++)
      mlir_work_close(&sessions[i]);
  }
  return 0;
}

int main(void) {
  WANT(mlir_work_version() == MLIR_WORK_VERSION);
  return closed() || foreign() || refused() || lines() || odd_lines() || limits() || questions() || edits() ||
         marks() || edges() || patterns() || tabs() || kept() || many();
}
