/* <pthread.h>: locks that many readers hold at once, or one writer. A reader never waits for a
   writer that waits, so who holds the lock for reading may take it again. */
#include <errno.h>
#include <pthread.h>
#include <stdbool.h>

#include "condition.h"
#include "lock.h"
#include "thread.h"

int pthread_rwlockattr_init(pthread_rwlockattr_t *attributes) {
  attributes->unused = 0;
  return 0;
}

int pthread_rwlockattr_destroy(pthread_rwlockattr_t *attributes) {
  (void)attributes;
  return 0;
}

int pthread_rwlock_init(pthread_rwlock_t *restrict lock,
                        const pthread_rwlockattr_t *restrict attributes) {
  (void)attributes;
  *lock = (pthread_rwlock_t)PTHREAD_RWLOCK_INITIALIZER;
  return 0;
}

static bool is_free_for(const pthread_rwlock_t *lock, bool is_writer) {
  return lock->writer == NULL && (!is_writer || lock->readers == 0);
}

int pthread_rwlock_destroy(pthread_rwlock_t *lock) {
  return is_free_for(lock, true) ? 0 : EBUSY;
}

static void hold(pthread_rwlock_t *lock, bool is_writer) {
  if (is_writer)
    lock->writer = thread_current();
  else
    lock->readers++;
}

static int take(pthread_rwlock_t *lock, bool is_writer) {
  if (lock->writer == thread_current()) return EDEADLK;
  lock_take(&lock->lock);
  while (!is_free_for(lock, is_writer)) {
    uint32_t number = condition_enter(&lock->free);
    lock_release(&lock->lock);
    condition_sleep(&lock->free, number);
    lock_take(&lock->lock);
  }
  hold(lock, is_writer);
  lock_release(&lock->lock);
  return 0;
}

static int try_take(pthread_rwlock_t *lock, bool is_writer) {
  lock_take(&lock->lock);
  bool is_free = is_free_for(lock, is_writer);
  if (is_free) hold(lock, is_writer);
  lock_release(&lock->lock);
  return is_free ? 0 : EBUSY;
}

int pthread_rwlock_rdlock(pthread_rwlock_t *lock) {
  return take(lock, false);
}

int pthread_rwlock_tryrdlock(pthread_rwlock_t *lock) {
  return try_take(lock, false);
}

int pthread_rwlock_wrlock(pthread_rwlock_t *lock) {
  return take(lock, true);
}

int pthread_rwlock_trywrlock(pthread_rwlock_t *lock) {
  return try_take(lock, true);
}

/* A lock that a writer holds is given back by that writer. */
int pthread_rwlock_unlock(pthread_rwlock_t *lock) {
  lock_take(&lock->lock);
  if (lock->writer != NULL)
    lock->writer = NULL;
  else
    lock->readers--;
  if (is_free_for(lock, true)) condition_release(&lock->free, UINT32_MAX);
  lock_release(&lock->lock);
  return 0;
}
