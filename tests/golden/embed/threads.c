/* Threads with a session each, which edit, read and report at the same time. It says nothing and ends with 0 if all
   modules are right. Linked with -pthread. */
#include "mlir_work.h"

#include <pthread.h>
#include <stdio.h>
#include <string.h>

enum { THREADS = 4, ROUNDS = 50 };

static const char module[] = "%0 = \"arith.constant\"() <{value = 5 : i32}> : () -> i32\n"
                             "\"test.use\"(%0) : (i32) -> ()\n";

/* Makes operations and erases them again; returns whether each answer is right. */
static void *work(void *seed) {
  mlir_work_session session = MLIR_WORK_CLOSED;
  mlir_work_answer answer;
  const mlir_work_value constant = {1, MLIR_WORK_RESULT, 0};
  const mlir_work_new_entry none = {0, 0, 0};
  bool is_right = true;
  for (uint32_t round = 0; round < ROUNDS && is_right; round++) {
    mlir_work_cell cells[64];
    mlir_work_open(&session, (const uint8_t *)module, sizeof module - 1, *(uint64_t *)seed, 1000, &answer);
    is_right = answer.outcome == MLIR_WORK_OK;
    mlir_work_name(&session, (const uint8_t *)"test.new", 8, &answer);
    const mlir_work_new made = {{MLIR_WORK_END, 0, 0}, (uint32_t)answer.number};
    for (uint32_t k = 0; k < 8; k++) {
      const uint32_t type = (uint32_t)mlir_work_value_type(&session, &constant);
      mlir_work_insert(&session, &made, &constant, 1, &type, 1, &none, 0, &answer);
      is_right = is_right && answer.outcome == MLIR_WORK_MADE && answer.number == 3 + k;
    }
    mlir_work_report(&session, MLIR_WORK_USES, cells, 64, &answer);
    is_right = is_right && answer.number == 3 * 9;
    for (uint32_t k = 0; k < 8; k++)
      mlir_work_erase(&session, 3 + k, &answer);
    mlir_work_command(&session, (const uint8_t *)"print", 5, &answer);
    is_right = is_right && answer.outcome == MLIR_WORK_OK && mlir_work_operations(&session, &(uint32_t){0}, 0) == 3;
  }
  mlir_work_close(&session);
  return is_right ? seed : NULL;
}

int main(void) {
  pthread_t threads[THREADS];
  uint64_t seeds[THREADS] = {1, 2, 3, 4};
  int faults = 0;
  for (int k = 0; k < THREADS; k++)
    if (pthread_create(&threads[k], NULL, work, &seeds[k]))
      return 2;
  for (int k = 0; k < THREADS; k++) {
    void *done = NULL;
    pthread_join(threads[k], &done);
    faults += done == NULL;
  }
  if (faults)
    printf("%d threads had wrong answers\n", faults);
  return faults != 0;
}
