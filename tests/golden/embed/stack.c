/* What the library needs of the stack: a thread with so many KB of it reads the module that is nested deepest, and what
   is read, edited, asked and rewritten there is answered.

   usage: stack KB

   It prints nothing and ends with 0 where all is answered as it is to be, and with 77 where there is no such thread. */
#include "mlir_work.h"

#include <pthread.h>
#include <stdio.h>
#include <stdlib.h>
#include <string.h>

/* The most operations around one but for the root, and the most brackets of attributes and of types within one
   another. */
enum { REGIONS = 127, BRACKETS = 31, SKIPPED = 77 };

static char text[1 << 16], line[1 << 16];

static const char *const lines[] = {
    "print", "print ids", "report uses", "report symbols", "report diagnostics", "report effects", "report dead",
    "report constants", "report unreached", "why #127", "begin", "erase #1", "rollback", "canon", "canon trace",
    "canon at #2", "sweep", "convert partial illegal arith.addi rules 2,25,26,27,28,29,30", "resync uses",
    "pattern p arith.addi(arith.muli(%a, 2), %a) => arith.muli(%a, 3)", "check p", "rewrite p", "begin",
    "insert end #0 0 \"t.q\"() ({}) : () -> ()", "move #128 before #1", "rollback", "detach uses", "attach uses"};

static void put(char *into, const char *piece, int times) {
  while (times-- > 0)
    strcat(into, piece);
}

static void put_leaf(char *into) {
  put(into, "\"t.leaf\"() {a = ", 1);
  put(into, "[", BRACKETS);
  put(into, "1 : i8", 1);
  put(into, "]", BRACKETS);
  put(into, ", b = ", 1);
  put(into, "() -> (", BRACKETS);
  put(into, "i8", 1);
  put(into, ")", BRACKETS);
  put(into, "} : () -> () ", 1);
}

static void put_module(char *into, int regions) {
  put(into, "\"t.n\"() ({ ", regions);
  put_leaf(into);
  put(into, "}) : () -> () ", regions);
}

static bool is_answered(mlir_work_session *session, const char *said) {
  mlir_work_answer answer;
  mlir_work_command(session, (const uint8_t *)said, strlen(said), &answer);
  if (answer.outcome < MLIR_WORK_REFUSED || answer.outcome > MLIR_WORK_NO_SESSION)
    return true;
  fprintf(stderr, "%.60s: refused %u\n", said, answer.refusal);
  return false;
}

static void *worked(void *fault) {
  mlir_work_session session = MLIR_WORK_CLOSED;
  mlir_work_answer answer;
  mlir_work_open(&session, (const uint8_t *)text, strlen(text), 7, 1000, &answer);
  bool is_right = answer.outcome == MLIR_WORK_OK;
  for (size_t i = 0; i < sizeof lines / sizeof *lines; i++)
    is_right = is_answered(&session, lines[i]) && is_right;
  is_right = is_answered(&session, line) && is_right;
  mlir_work_open_opaque(&session, (const uint8_t *)text, strlen(text), 7, 1000, &answer);
  is_right = answer.outcome == MLIR_WORK_OK && is_answered(&session, "print") && is_right;
  mlir_work_close(&session);
  return is_right ? NULL : fault;
}

int main(int argc, char **argv) {
  pthread_attr_t with;
  pthread_t thread;
  void *fault;
  if (argc != 2)
    return 2;
  put_module(text, REGIONS);
  put(line, "insert end #0 0 ", 1);
  put_module(line, REGIONS);
  if (pthread_attr_init(&with) || pthread_attr_setstacksize(&with, (size_t)atoi(argv[1]) * 1024)
      || pthread_create(&thread, &with, worked, text) || pthread_join(thread, &fault))
    return SKIPPED;
  return fault != NULL;
}
