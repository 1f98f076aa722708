#include "runtime.h"

/* ---- a mutex: tickets, and who waits for a call sleeps on the number that is called ---- */

void mutex_lock(struct mutex *mutex) {
  uint32_t mine = atomic_add(&mutex->drawn, 1);
  uint32_t called;
  while ((called = mutex->called) != mine) dos_futex_wait(&mutex->called, called);
}

/* A ticket that is drawn after the look at `drawn` finds its own number called already. One drawn before may sleep. Who
   sleeps may have fallen asleep in another order than that of the tickets, so all wake, and all but one sleep again. */
void mutex_unlock(struct mutex *mutex) {
  uint32_t next = mutex->called + 1;
  __atomic_store_n(&mutex->called, next, __ATOMIC_SEQ_CST);
  if (__atomic_load_n(&mutex->drawn, __ATOMIC_SEQ_CST) != next) dos_futex_wake(&mutex->called, EVERYBODY);
}

/* ---- a condition: who waits sleeps on the count of its signals ---- */

/* The count is taken while the mutex is held, so a signal that comes before the sleep makes it another value, and then
   dos_futex_wait comes back at once. */
void condition_wait(struct condition *condition, struct mutex *mutex) {
  uint32_t signals = condition->signals;
  mutex_unlock(mutex);
  dos_futex_wait(&condition->signals, signals);
  mutex_lock(mutex);
}

static void condition_wake(struct condition *condition, uint32_t count) {
  atomic_add(&condition->signals, 1);
  dos_futex_wake(&condition->signals, count);
}

void condition_signal(struct condition *condition) {
  condition_wake(condition, 1);
}

void condition_broadcast(struct condition *condition) {
  condition_wake(condition, EVERYBODY);
}
