#include "lock.h"

#include <stdlib.h>
#include <sys/lock.h>

#include "wait.h"

void lock_take(struct __lock *lock) {
  uint32_t mine = __atomic_fetch_add(&lock->drawn, 1, __ATOMIC_SEQ_CST);
  uint32_t called;
  while ((called = lock->called) != mine) wait_while(&lock->called, called);
}

bool lock_try(struct __lock *lock) {
  uint32_t called = lock->called;
  return __atomic_compare_exchange_n(&lock->drawn, &called, called + 1, false, __ATOMIC_SEQ_CST,
                                     __ATOMIC_SEQ_CST);
}

/* Who draws a number after the look at `drawn` finds it called already. */
void lock_release(struct __lock *lock) {
  uint32_t next = lock->called + 1;
  __atomic_store_n(&lock->called, next, __ATOMIC_SEQ_CST);
  if (__atomic_load_n(&lock->drawn, __ATOMIC_SEQ_CST) != next) wake_all(&lock->called);
}

/* A thread's tp is its own, and no two threads that live have the same. */
static void *this_thread(void) {
  void *own;
  __asm__("mv %0, tp" : "=r"(own));
  return own;
}

bool lock_is_mine(const struct __lock *lock) {
  return lock->owner == this_thread();
}

bool lock_is_taken(const struct __lock *lock) {
  return lock->drawn != lock->called;
}

void lock_take_again(struct __lock *lock) {
  if (lock_is_mine(lock)) {
    lock->depth++;
    return;
  }
  lock_take(lock);
  lock->owner = this_thread();
}

bool lock_try_again(struct __lock *lock) {
  if (lock_is_mine(lock)) {
    lock->depth++;
    return true;
  }
  if (!lock_try(lock)) return false;
  lock->owner = this_thread();
  return true;
}

void lock_release_again(struct __lock *lock) {
  if (lock->depth > 0) {
    lock->depth--;
    return;
  }
  lock->owner = NULL;
  lock_release(lock);
}

/* ---- the locks that picolibc asks for: one for malloc and atexit, one for each stream ---- */

struct __lock __lock___libc_recursive_mutex;

/* picolibc's call has no way to say that memory is short. It then goes without a lock, as does what
   asks for none. */
void __retarget_lock_init(_LOCK_T *lock) {
  *lock = calloc(1, sizeof(struct __lock));
}

void __retarget_lock_init_recursive(_LOCK_T *lock) {
  __retarget_lock_init(lock);
}

void __retarget_lock_close(_LOCK_T lock) {
  free(lock);
}

void __retarget_lock_close_recursive(_LOCK_T lock) {
  free(lock);
}

/* A stream's lock is taken again for each byte in a call that has it already, so all of them are of
   this kind. */
void __retarget_lock_acquire_recursive(_LOCK_T lock) {
  if (lock != NULL) lock_take_again(lock);
}

int __retarget_lock_try_acquire_recursive(_LOCK_T lock) {
  return lock == NULL || lock_try_again(lock);
}

void __retarget_lock_release_recursive(_LOCK_T lock) {
  if (lock != NULL) lock_release_again(lock);
}

void __retarget_lock_acquire(_LOCK_T lock) {
  __retarget_lock_acquire_recursive(lock);
}

int __retarget_lock_try_acquire(_LOCK_T lock) {
  return __retarget_lock_try_acquire_recursive(lock);
}

void __retarget_lock_release(_LOCK_T lock) {
  __retarget_lock_release_recursive(lock);
}
