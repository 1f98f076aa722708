/* <pthread.h>: mutexes and condition variables. */
#include <errno.h>
#include <pthread.h>
#include <stdbool.h>

#include "condition.h"
#include "lock.h"

int pthread_mutexattr_init(pthread_mutexattr_t *attributes) {
  attributes->type = PTHREAD_MUTEX_DEFAULT;
  return 0;
}

int pthread_mutexattr_destroy(pthread_mutexattr_t *attributes) {
  (void)attributes;
  return 0;
}

int pthread_mutexattr_settype(pthread_mutexattr_t *attributes, int type) {
  if (type < PTHREAD_MUTEX_NORMAL || type > PTHREAD_MUTEX_ERRORCHECK) return EINVAL;
  attributes->type = type;
  return 0;
}

int pthread_mutexattr_gettype(const pthread_mutexattr_t *restrict attributes, int *restrict type) {
  *type = attributes->type;
  return 0;
}

int pthread_mutex_init(pthread_mutex_t *restrict mutex,
                       const pthread_mutexattr_t *restrict attributes) {
  *mutex = (pthread_mutex_t)PTHREAD_MUTEX_INITIALIZER;
  if (attributes != NULL) mutex->type = attributes->type;
  return 0;
}

int pthread_mutex_destroy(pthread_mutex_t *mutex) {
  return lock_is_taken(&mutex->lock) ? EBUSY : 0;
}

/* Who asks again for a mutex of the normal type waits for itself, for ever. */
int pthread_mutex_lock(pthread_mutex_t *mutex) {
  if (mutex->type == PTHREAD_MUTEX_NORMAL) {
    lock_take(&mutex->lock);
    return 0;
  }
  if (mutex->type == PTHREAD_MUTEX_ERRORCHECK && lock_is_mine(&mutex->lock)) return EDEADLK;
  lock_take_again(&mutex->lock);
  return 0;
}

int pthread_mutex_trylock(pthread_mutex_t *mutex) {
  bool is_taken;
  if (mutex->type == PTHREAD_MUTEX_NORMAL)
    is_taken = lock_try(&mutex->lock);
  else if (mutex->type == PTHREAD_MUTEX_ERRORCHECK && lock_is_mine(&mutex->lock))
    is_taken = false;
  else
    is_taken = lock_try_again(&mutex->lock);
  return is_taken ? 0 : EBUSY;
}

int pthread_mutex_unlock(pthread_mutex_t *mutex) {
  if (mutex->type == PTHREAD_MUTEX_NORMAL) {
    lock_release(&mutex->lock);
    return 0;
  }
  if (!lock_is_mine(&mutex->lock)) return EPERM;
  lock_release_again(&mutex->lock);
  return 0;
}

/* ---- condition variables ---- */

int pthread_condattr_init(pthread_condattr_t *attributes) {
  attributes->unused = 0;
  return 0;
}

int pthread_condattr_destroy(pthread_condattr_t *attributes) {
  (void)attributes;
  return 0;
}

int pthread_cond_init(pthread_cond_t *restrict condition,
                      const pthread_condattr_t *restrict attributes) {
  (void)attributes;
  *condition = (pthread_cond_t)PTHREAD_COND_INITIALIZER;
  return 0;
}

int pthread_cond_destroy(pthread_cond_t *condition) {
  (void)condition;
  return 0;
}

int pthread_cond_wait(pthread_cond_t *restrict condition, pthread_mutex_t *restrict mutex) {
  uint32_t number = condition_enter(condition);
  int refusal = pthread_mutex_unlock(mutex);
  if (refusal != 0) return refusal;
  condition_sleep(condition, number);
  return pthread_mutex_lock(mutex);
}

int pthread_cond_signal(pthread_cond_t *condition) {
  condition_release(condition, 1);
  return 0;
}

int pthread_cond_broadcast(pthread_cond_t *condition) {
  condition_release(condition, UINT32_MAX);
  return 0;
}
