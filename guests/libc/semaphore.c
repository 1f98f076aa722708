/* <semaphore.h>. */
#include <errno.h>
#include <semaphore.h>
#include <stdbool.h>

#include "wait.h"

static int refuse(int number) {
  errno = number;
  return -1;
}

int sem_init(sem_t *semaphore, int is_shared, unsigned value) {
  if (is_shared) return refuse(ENOSYS);
  if (value > SEM_VALUE_MAX) return refuse(EINVAL);
  *semaphore = (sem_t){.value = value};
  return 0;
}

int sem_destroy(sem_t *semaphore) {
  (void)semaphore;
  return 0;
}

int sem_trywait(sem_t *semaphore) {
  uint32_t value = semaphore->value;
  do {
    if (value == 0) return refuse(EAGAIN);
  } while (!__atomic_compare_exchange_n(&semaphore->value, &value, value - 1, false,
                                        __ATOMIC_SEQ_CST, __ATOMIC_SEQ_CST));
  return 0;
}

/* Who counts among those that wait before it looks at the value misses no post. */
int sem_wait(sem_t *semaphore) {
  int kept = errno;
  while (sem_trywait(semaphore) != 0) {
    __atomic_fetch_add(&semaphore->waiting, 1, __ATOMIC_SEQ_CST);
    wait_while(&semaphore->value, 0);
    __atomic_fetch_sub(&semaphore->waiting, 1, __ATOMIC_SEQ_CST);
  }
  errno = kept;
  return 0;
}

int sem_post(sem_t *semaphore) {
  uint32_t value = semaphore->value;
  do {
    if (value == SEM_VALUE_MAX) return refuse(EOVERFLOW);
  } while (!__atomic_compare_exchange_n(&semaphore->value, &value, value + 1, false,
                                        __ATOMIC_SEQ_CST, __ATOMIC_SEQ_CST));
  if (__atomic_load_n(&semaphore->waiting, __ATOMIC_SEQ_CST) != 0) wake_one(&semaphore->value);
  return 0;
}

int sem_getvalue(sem_t *restrict semaphore, int *restrict value) {
  *value = (int)semaphore->value;
  return 0;
}
