/* <pthread.h>: barriers and spin locks. */
#include <errno.h>
#include <pthread.h>

#include "calls.h"
#include "wait.h"

int pthread_barrierattr_init(pthread_barrierattr_t *attributes) {
  attributes->unused = 0;
  return 0;
}

int pthread_barrierattr_destroy(pthread_barrierattr_t *attributes) {
  (void)attributes;
  return 0;
}

int pthread_barrier_init(pthread_barrier_t *restrict barrier,
                         const pthread_barrierattr_t *restrict attributes, unsigned count) {
  (void)attributes;
  if (count == 0) return EINVAL;
  *barrier = (pthread_barrier_t){.count = count};
  return 0;
}

/* Whoever has passed may free the barrier: so this waits until all others have left it too. */
int pthread_barrier_destroy(pthread_barrier_t *barrier) {
  while (barrier->inside != 0) sched_yield();
  return 0;
}

/* The last one to arrive begins a new turn, which the others wait for. */
int pthread_barrier_wait(pthread_barrier_t *barrier) {
  uint32_t turn = barrier->turn;
  __atomic_fetch_add(&barrier->inside, 1, __ATOMIC_SEQ_CST);
  int is_last = __atomic_add_fetch(&barrier->arrived, 1, __ATOMIC_SEQ_CST) == barrier->count;
  if (is_last) {
    barrier->arrived = 0;
    __atomic_store_n(&barrier->turn, turn + 1, __ATOMIC_SEQ_CST);
    wake_all(&barrier->turn);
  }
  while (barrier->turn == turn) wait_while(&barrier->turn, turn);
  __atomic_fetch_sub(&barrier->inside, 1, __ATOMIC_SEQ_CST);
  return is_last ? PTHREAD_BARRIER_SERIAL_THREAD : 0;
}

/* ---- spin locks: who doesn't get it looks again in the next round ---- */

int pthread_spin_init(pthread_spinlock_t *lock, int is_shared) {
  if (is_shared != PTHREAD_PROCESS_PRIVATE) return EINVAL;
  *lock = 0;
  return 0;
}

int pthread_spin_destroy(pthread_spinlock_t *lock) {
  (void)lock;
  return 0;
}

int pthread_spin_trylock(pthread_spinlock_t *lock) {
  return __atomic_exchange_n(lock, 1, __ATOMIC_SEQ_CST) == 0 ? 0 : EBUSY;
}

int pthread_spin_lock(pthread_spinlock_t *lock) {
  while (pthread_spin_trylock(lock) != 0) sched_yield();
  return 0;
}

int pthread_spin_unlock(pthread_spinlock_t *lock) {
  __atomic_store_n(lock, 0, __ATOMIC_SEQ_CST);
  return 0;
}
