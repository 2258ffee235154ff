/* Says the lines of a script to a session, one by one, and writes the replies as `mlir_work --brief` does.

   usage: replies MODULE < SCRIPT */
#include "mlir_work.h"

#include <inttypes.h>
#include <stdio.h>
#include <stdlib.h>
#include <string.h>

/* The bytes of a file, or NULL. */
static uint8_t *bytes_of(const char *name, size_t *length) {
  FILE *file = fopen(name, "rb");
  uint8_t *bytes = NULL;
  if (!file)
    return NULL;
  if (!fseek(file, 0, SEEK_END) && (bytes = malloc((size_t)ftell(file) + 1))) {
    *length = (size_t)ftell(file);
    rewind(file);
    if (fread(bytes, 1, *length, file) != *length) {
      free(bytes);
      bytes = NULL;
    }
  }
  fclose(file);
  return bytes;
}

/* What the line showed, in pieces. */
static void put_shown(mlir_work_session *session) {
  uint8_t piece[4096];
  for (size_t from = 0, count; (count = mlir_work_read(session, from, piece, sizeof piece)) > 0; from += count)
    fwrite(piece, 1, count, stdout);
}

static void put_refusal(const mlir_work_answer *answer) {
  printf("refused %" PRIu32 " %s", answer->refusal, mlir_work_refusal_word(answer->refusal));
}

/* The line of a reply. Returns whether it is a refusal. */
static int put_reply(unsigned long n, const mlir_work_answer *answer) {
  static const char *const words[] = {"", "ok", "ok", "swept", "converged", "limit", "converted"};
  printf("%lu ", n);
  switch (answer->outcome) {
  case MLIR_WORK_REFUSED:
    put_refusal(answer);
    break;
  case MLIR_WORK_REFUSED_ON:
    put_refusal(answer);
    printf(" #%" PRIu64, answer->number);
    break;
  case MLIR_WORK_REFUSED_AT:
    put_refusal(answer);
    printf(" at %" PRIu64, answer->number);
    break;
  case MLIR_WORK_OK:
    printf("ok");
    break;
  case MLIR_WORK_MADE:
    printf("ok #%" PRIu64, answer->number);
    break;
  case MLIR_WORK_APPLIED:
    printf("applied %" PRIu64, answer->number);
    break;
  default:
    printf("%s %" PRIu64, words[answer->outcome], answer->number);
  }
  putchar('\n');
  return answer->outcome >= MLIR_WORK_REFUSED && answer->outcome <= MLIR_WORK_NO_SESSION;
}

int main(int argc, char **argv) {
  mlir_work_session session = MLIR_WORK_CLOSED;
  mlir_work_answer answer;
  size_t length = 0, room = 0;
  unsigned long n = 0;
  int status = 0;
  char *line = NULL;
  uint8_t *text;
  if (argc != 2 || mlir_work_version() != MLIR_WORK_VERSION || !(text = bytes_of(argv[1], &length)))
    return 2;
  mlir_work_open(&session, text, length, 12345, 1000, &answer);
  free(text);
  if (answer.outcome != MLIR_WORK_OK) {
    printf("module ");
    put_refusal(&answer);
    if (answer.outcome == MLIR_WORK_REFUSED_AT)
      printf(" at %" PRIu64, answer.number);
    putchar('\n');
    return 3;
  }
  for (ssize_t got; (got = getline(&line, &room, stdin)) >= 0;) {
    mlir_work_command(&session, (const uint8_t *)line, (size_t)got, &answer);
    if (answer.outcome == MLIR_WORK_NOTHING)
      continue;
    status |= put_reply(++n, &answer);
    put_shown(&session);
  }
  free(line);
  mlir_work_close(&session);
  return status;
}
