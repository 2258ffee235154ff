/* Runs that are stopped by a flag of another thread, by a signal handler and by a count leave the module and its marks
   as they were; runs in parts do what runs as a whole do. Writes nothing if all is right. */
#include "mlir_work.h"

#include <pthread.h>
#include <sched.h>
#include <signal.h>
#include <stdatomic.h>
#include <stdio.h>
#include <stdlib.h>
#include <string.h>

#define CHECK(it) ((it) ? (void)0 : (fprintf(stderr, "line %d: %s\n", __LINE__, #it), exit(1)))

static atomic_bool is_cancelled;
static atomic_int asked;
static volatile sig_atomic_t is_interrupted;

static void interrupt(int signal) {
  (void)signal;
  is_interrupted = 1;
}

static bool never(void *context) {
  (void)context;
  return false;
}
/* Stops when it is asked for the last time. */
static bool counted(void *context) { return --*(int *)context == 0; }
/* Stops after another thread has cancelled, which it does once this was asked three times. */
static bool cancelled(void *context) {
  (void)context;
  if (atomic_fetch_add(&asked, 1) >= 3)
    while (!atomic_load(&is_cancelled))
      sched_yield();
  return atomic_load(&is_cancelled);
}
static bool interrupted(void *context) {
  if (--*(int *)context == 0)
    raise(SIGUSR1);
  return is_interrupted;
}
static void *cancel(void *context) {
  while (atomic_load(&asked) < 3)
    sched_yield();
  atomic_store(&is_cancelled, true);
  return context;
}

/* Sums with 0, each of which is one rewrite, and unused operations. */
static void open(mlir_work_session *s) {
  static char text[1 << 16];
  char *at = text;
  mlir_work_answer answer;
  at += sprintf(at, "%%0 = \"test.x\"() : () -> i32\n%%1 = \"arith.constant\"() <{value = 0 : i32}> : () -> i32\n");
  for (int k = 2; k < 300; k++)
    at += sprintf(at, "%%%d = \"arith.addi\"(%%%d, %%1) <{overflowFlags = #arith.overflow<none>}> : %s\n", k,
                  k == 2 ? 0 : k - 1, "(i32, i32) -> i32");
  sprintf(at, "\"test.y\"(%%299) : (i32) -> ()\n");
  mlir_work_open(s, (const uint8_t *)text, strlen(text), 7, 1000, &answer);
  CHECK(answer.outcome == MLIR_WORK_OK);
}
static mlir_work_answer command(mlir_work_session *s, const char *line) {
  mlir_work_answer answer;
  mlir_work_command(s, (const uint8_t *)line, strlen(line), &answer);
  return answer;
}
static mlir_work_answer unless(mlir_work_session *s, const char *line, uint32_t limit, uint32_t slice,
                               mlir_work_stop *stop, void *context) {
  mlir_work_answer answer;
  mlir_work_rewrite_unless(s, (const uint8_t *)line, strlen(line), limit, slice, stop, context, &answer);
  return answer;
}
static char *shown(mlir_work_session *s, const char *line) {
  const size_t length = (size_t)command(s, line).shown;
  char *text = calloc(length + 1, 1);
  mlir_work_read(s, 0, (uint8_t *)text, length);
  return text;
}
static bool is_same(mlir_work_session *s, mlir_work_session *t) {
  static const char *const lines[] = {"print ids", "report uses", "report dead", "report constants"};
  bool is_alike = true;
  for (size_t k = 0; k < sizeof lines / sizeof *lines; k++) {
    char *one = shown(s, lines[k]), *other = shown(t, lines[k]);
    is_alike = is_alike && !strcmp(one, other);
    free(one);
    free(other);
  }
  return is_alike;
}

/* In parts of any size a run makes the rewrites of the command. */
static void parts(void) {
  static const uint32_t limits[] = {1, 2, 7, 100, 1000, 1000000}, slices[] = {0, 1, 3, 64, 5000};
  static const char *const lines[] = {"canon", "rewrite drop-zero", "rewrite 1,4", "rewrite no-rule"};
  for (size_t l = 0; l < sizeof lines / sizeof *lines; l++)
    for (size_t k = 0; k < sizeof limits / sizeof *limits; k++)
      for (size_t j = 0; j < sizeof slices / sizeof *slices; j++) {
        mlir_work_session s = MLIR_WORK_CLOSED, t = MLIR_WORK_CLOSED;
        char line[64];
        open(&s);
        open(&t);
        sprintf(line, "%s limit %u", lines[l], limits[k]);
        const mlir_work_answer whole = command(&s, line);
        const mlir_work_answer in_parts = unless(&t, lines[l], limits[k], slices[j], never, NULL);
        CHECK(whole.outcome == in_parts.outcome && whole.refusal == in_parts.refusal);
        CHECK(whole.number == in_parts.number && in_parts.shown == 0);
        CHECK(is_same(&s, &t));
        mlir_work_close(&s);
        mlir_work_close(&t);
      }
}

/* A run that is stopped undoes its rewrites, and those before it stay. */
static void stopped(mlir_work_stop *stop, void *context) {
  mlir_work_session s = MLIR_WORK_CLOSED, t = MLIR_WORK_CLOSED;
  open(&s);
  open(&t);
  CHECK(command(&s, "begin").outcome == MLIR_WORK_OK && command(&t, "begin").outcome == MLIR_WORK_OK);
  CHECK(command(&s, "canon limit 5").number == 5 && command(&t, "canon limit 5").number == 5);
  const mlir_work_answer answer = unless(&s, "canon", 1000, 1, stop, context);
  CHECK(answer.outcome == MLIR_WORK_STOPPED && answer.refusal == 0 && answer.number > 0);
  CHECK(is_same(&s, &t));
  CHECK(command(&s, "rollback").outcome == MLIR_WORK_OK && command(&t, "rollback").outcome == MLIR_WORK_OK);
  CHECK(command(&s, "rollback").refusal == MLIR_WORK_NO_MARK);
  CHECK(is_same(&s, &t));
  CHECK(unless(&s, "canon", 1000, 10, never, NULL).outcome == command(&t, "canon limit 1000").outcome);
  CHECK(is_same(&s, &t));
  mlir_work_close(&s);
  mlir_work_close(&t);
}

static void refused(void) {
  mlir_work_session s = MLIR_WORK_CLOSED;
  CHECK(unless(&s, "canon", 10, 1, never, NULL).outcome == MLIR_WORK_NO_SESSION);
  open(&s);
  CHECK(unless(&s, "canon", 0, 1, never, NULL).refusal == MLIR_WORK_BAD_LIMIT);
  CHECK(unless(&s, "canon", 1000001, 1, never, NULL).refusal == MLIR_WORK_BAD_LIMIT);
  for (int k = 0; k < 16; k++)
    CHECK(command(&s, "begin").outcome == MLIR_WORK_OK);
  CHECK(unless(&s, "canon", 10, 1, never, NULL).refusal == MLIR_WORK_TOO_MANY_MARKS);
  mlir_work_close(&s);
}

int main(void) {
  pthread_t other;
  int left = 4;
  parts();
  stopped(counted, &left);
  left = 3;
  signal(SIGUSR1, interrupt);
  stopped(interrupted, &left);
  CHECK(!pthread_create(&other, NULL, cancel, NULL));
  stopped(cancelled, NULL);
  CHECK(!pthread_join(other, NULL));
  refused();
  return 0;
}
