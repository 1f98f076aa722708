/* <threads.h>, but for the timed calls: there is no clock to wait by. */
#include <errno.h>
#include <stdbool.h>
#include <stddef.h>
#include <stdint.h>
#include <string.h>
#include <threads.h>

#include "calls.h"
#include "condition.h"
#include "keys.h"
#include "lock.h"
#include "once.h"
#include "thread.h"

int thrd_create(thrd_t *made, thrd_start_t start, void *argument) {
  struct body body = {.numbered = start, .argument = argument};
  switch (thread_make(made, body, thread_stack_size(), false)) {
  case 0: return thrd_success;
  case ENOMEM: return thrd_nomem;
  default: return thrd_error;
  }
}

_Noreturn void thrd_exit(int result) {
  thread_end((void *)(intptr_t)result);
}

int thrd_join(thrd_t thread, int *result) {
  void *given = thread_join(thread);
  if (result != NULL) *result = (int)(intptr_t)given;
  return thrd_success;
}

int thrd_detach(thrd_t thread) {
  thread_detach(thread);
  return thrd_success;
}

thrd_t thrd_current(void) {
  return thread_current();
}

int thrd_equal(thrd_t left, thrd_t right) {
  return left == right;
}

void thrd_yield(void) {
  call(CALL_YIELD, 0, 0, 0);
}

/* ---- mutexes ---- */

int mtx_init(mtx_t *mutex, int type) {
  if (type & mtx_timed) return thrd_error;
  memset(mutex, 0, sizeof *mutex);
  mutex->type = type;
  return thrd_success;
}

void mtx_destroy(mtx_t *mutex) {
  (void)mutex;
}

int mtx_lock(mtx_t *mutex) {
  if (mutex->type & mtx_recursive)
    lock_take_again(&mutex->lock);
  else
    lock_take(&mutex->lock);
  return thrd_success;
}

int mtx_trylock(mtx_t *mutex) {
  bool taken = mutex->type & mtx_recursive ? lock_try_again(&mutex->lock) : lock_try(&mutex->lock);
  return taken ? thrd_success : thrd_busy;
}

int mtx_unlock(mtx_t *mutex) {
  if (mutex->type & mtx_recursive)
    lock_release_again(&mutex->lock);
  else
    lock_release(&mutex->lock);
  return thrd_success;
}

/* ---- conditions ---- */

int cnd_init(cnd_t *condition) {
  *condition = (cnd_t){0, 0};
  return thrd_success;
}

void cnd_destroy(cnd_t *condition) {
  (void)condition;
}

int cnd_wait(cnd_t *condition, mtx_t *mutex) {
  uint32_t number = condition_enter(condition);
  mtx_unlock(mutex);
  condition_sleep(condition, number);
  return mtx_lock(mutex);
}

int cnd_signal(cnd_t *condition) {
  condition_release(condition, 1);
  return thrd_success;
}

int cnd_broadcast(cnd_t *condition) {
  condition_release(condition, UINT32_MAX);
  return thrd_success;
}

/* ---- once, and storage of each thread's own ---- */

void call_once(once_flag *flag, void (*function)(void)) {
  make_once(flag, function);
}

int tss_create(tss_t *made, tss_dtor_t destructor) {
  *made = key_make(destructor);
  return *made >= 0 ? thrd_success : thrd_error;
}

void tss_delete(tss_t key) {
  key_drop(key);
}

void *tss_get(tss_t key) {
  return key_value(key);
}

int tss_set(tss_t key, void *value) {
  key_set(key, value);
  return thrd_success;
}
