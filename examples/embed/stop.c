/* Canonicalizes the module of standard input, at most N seconds or until Ctrl-C, and prints the module. A run that is
   stopped leaves the module as it was.

   usage: stop N < MODULE */
#include "mlir_work.h"

#include <signal.h>
#include <stdio.h>
#include <stdlib.h>
#include <string.h>
#include <unistd.h>

static volatile sig_atomic_t is_cancelled;

static void cancel(int signal) {
  (void)signal;
  is_cancelled = 1;
}

static bool stop(void *context) {
  (void)context;
  return is_cancelled;
}

int main(int argc, char **argv) {
  static uint8_t text[1 << 20];
  const unsigned seconds = argc > 1 ? (unsigned)strtoul(argv[1], NULL, 10) : 1;
  mlir_work_session s = MLIR_WORK_CLOSED;
  mlir_work_answer answer;
  mlir_work_open(&s, text, fread(text, 1, sizeof text, stdin), (uint64_t)getpid(), 1000, &answer);
  if (answer.outcome != MLIR_WORK_OK)
    return 1;
  signal(SIGINT, cancel);
  signal(SIGALRM, cancel);
  if (seconds)
    alarm(seconds);
  else
    raise(SIGALRM);
  mlir_work_rewrite_unless(&s, (const uint8_t *)"canon", 5, 1000000, 1000, stop, NULL, &answer);
  if (answer.outcome == MLIR_WORK_STOPPED)
    fprintf(stdout, "// stopped\n");
  mlir_work_command(&s, (const uint8_t *)"print", 5, &answer);
  for (size_t from = 0, count; (count = mlir_work_read(&s, from, text, sizeof text)) > 0; from += count)
    fwrite(text, 1, count, stdout);
  mlir_work_close(&s);
  return 0;
}
