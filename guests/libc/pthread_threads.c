/* <pthread.h>: threads, once, and storage of each thread's own. */
#include <errno.h>
#include <pthread.h>
#include <stdbool.h>

#include "keys.h"
#include "once.h"
#include "thread.h"

_Static_assert(PTHREAD_KEYS_MAX == KEYS, "the header says how many keys there are");

int pthread_attr_init(pthread_attr_t *attributes) {
  *attributes = (pthread_attr_t){thread_stack_size(), PTHREAD_CREATE_JOINABLE};
  return 0;
}

int pthread_attr_destroy(pthread_attr_t *attributes) {
  (void)attributes;
  return 0;
}

int pthread_attr_setdetachstate(pthread_attr_t *attributes, int state) {
  if (state != PTHREAD_CREATE_JOINABLE && state != PTHREAD_CREATE_DETACHED) return EINVAL;
  attributes->detach_state = state;
  return 0;
}

int pthread_attr_getdetachstate(const pthread_attr_t *attributes, int *state) {
  *state = attributes->detach_state;
  return 0;
}

int pthread_attr_setstacksize(pthread_attr_t *attributes, size_t bytes) {
  if (bytes < PTHREAD_STACK_MIN || bytes > THREAD_STACK_MOST) return EINVAL;
  attributes->stack_size = bytes;
  return 0;
}

int pthread_attr_getstacksize(const pthread_attr_t *restrict attributes, size_t *restrict bytes) {
  *bytes = attributes->stack_size;
  return 0;
}

/* POSIX has one number for want of memory and of threads. */
int pthread_create(pthread_t *restrict made, const pthread_attr_t *restrict attributes,
                   void *(*start)(void *), void *restrict argument) {
  struct body body = {.pointed = start, .argument = argument};
  size_t stack = attributes != NULL ? attributes->stack_size : thread_stack_size();
  bool is_detached = attributes != NULL && attributes->detach_state == PTHREAD_CREATE_DETACHED;
  return thread_make(made, body, stack, is_detached) == 0 ? 0 : EAGAIN;
}

int pthread_join(pthread_t thread, void **result) {
  if (thread == thread_current()) return EDEADLK;
  if (thread_is_detached(thread)) return EINVAL;
  void *given = thread_join(thread);
  if (result != NULL) *result = given;
  return 0;
}

int pthread_detach(pthread_t thread) {
  if (thread_is_detached(thread)) return EINVAL;
  thread_detach(thread);
  return 0;
}

pthread_t pthread_self(void) {
  return thread_current();
}

int pthread_equal(pthread_t left, pthread_t right) {
  return left == right;
}

/* ---- the end, and what is called at it ---- */

static _Thread_local struct __cleanup *cleanups;

void __cleanup_push(struct __cleanup *cleanup) {
  cleanup->next = cleanups;
  cleanups = cleanup;
}

void __cleanup_pop(int is_called) {
  struct __cleanup *cleanup = cleanups;
  cleanups = cleanup->next;
  if (is_called) cleanup->routine(cleanup->argument);
}

void pthread_exit(void *result) {
  while (cleanups != NULL) __cleanup_pop(true);
  thread_end(result);
}

/* ---- once, and storage of each thread's own ---- */

int pthread_once(pthread_once_t *flag, void (*function)(void)) {
  make_once(flag, function);
  return 0;
}

int pthread_key_create(pthread_key_t *made, void (*destructor)(void *)) {
  int key = key_make(destructor);
  if (key < 0) return EAGAIN;
  *made = key;
  return 0;
}

int pthread_key_delete(pthread_key_t key) {
  if (!key_is_made(key)) return EINVAL;
  key_drop(key);
  return 0;
}

void *pthread_getspecific(pthread_key_t key) {
  return key_is_made(key) ? key_value(key) : NULL;
}

int pthread_setspecific(pthread_key_t key, const void *value) {
  if (!key_is_made(key)) return EINVAL;
  key_set(key, value);
  return 0;
}
