/* POSIX threads, as far as the kernel has what they ask for (IEEE Std 1003.1-2017). What isn't
   there isn't declared: cancelling, priorities, timed waits, sharing by processes, signals. */
#ifndef _PTHREAD_H_
#define _PTHREAD_H_

#include <machine/_threads.h>
#include <sched.h>
#include <stddef.h>
#include <stdint.h>
#include <sys/types.h>
#include <time.h>

__BEGIN_DECLS

/* ---- threads ---- */

typedef thrd_t pthread_t;

typedef struct {
  size_t stack_size;
  int detach_state;
} pthread_attr_t;

enum { PTHREAD_CREATE_JOINABLE, PTHREAD_CREATE_DETACHED };
#define PTHREAD_CREATE_JOINABLE PTHREAD_CREATE_JOINABLE
#define PTHREAD_CREATE_DETACHED PTHREAD_CREATE_DETACHED
#define PTHREAD_STACK_MIN 4096
#define PTHREAD_THREADS_MAX 64

int pthread_attr_init(pthread_attr_t *__attributes);
int pthread_attr_destroy(pthread_attr_t *__attributes);
int pthread_attr_setdetachstate(pthread_attr_t *__attributes, int __state);
int pthread_attr_getdetachstate(const pthread_attr_t *__attributes, int *__state);
int pthread_attr_setstacksize(pthread_attr_t *__attributes, size_t __bytes);
int pthread_attr_getstacksize(const pthread_attr_t *__restrict __attributes,
                              size_t *__restrict __bytes);

int pthread_create(pthread_t *__restrict __made, const pthread_attr_t *__restrict __attributes,
                   void *(*__start)(void *), void *__restrict __argument);
int pthread_join(pthread_t __joined, void **__result);
int pthread_detach(pthread_t __left);
void pthread_exit(void *__result) __attribute__((__noreturn__));
pthread_t pthread_self(void);
int pthread_equal(pthread_t __left, pthread_t __right);

/* What pthread_exit calls, the last one first, and pthread_cleanup_pop(1). */
struct __cleanup {
  void (*routine)(void *);
  void *argument;
  struct __cleanup *next;
};
void __cleanup_push(struct __cleanup *__cleanup);
void __cleanup_pop(int __is_called);
#define pthread_cleanup_push(routine, argument)                                                    \
  do {                                                                                             \
    struct __cleanup __cleanup_here = {(routine), (argument), NULL};                               \
    __cleanup_push(&__cleanup_here)
#define pthread_cleanup_pop(is_called)                                                             \
  __cleanup_pop(is_called);                                                                        \
  }                                                                                                \
  while (0)

/* ---- once, and storage of each thread's own ---- */

typedef struct __once pthread_once_t;
#define PTHREAD_ONCE_INIT {0}
int pthread_once(pthread_once_t *__flag, void (*__function)(void));

typedef int pthread_key_t;
#define PTHREAD_KEYS_MAX 128
#define PTHREAD_DESTRUCTOR_ITERATIONS 4
int pthread_key_create(pthread_key_t *__made, void (*__destructor)(void *));
int pthread_key_delete(pthread_key_t __key);
void *pthread_getspecific(pthread_key_t __key);
int pthread_setspecific(pthread_key_t __key, const void *__value);

/* ---- mutexes ---- */

enum {
  PTHREAD_MUTEX_NORMAL,
  PTHREAD_MUTEX_RECURSIVE,
  PTHREAD_MUTEX_ERRORCHECK,
  PTHREAD_MUTEX_DEFAULT = PTHREAD_MUTEX_NORMAL
};

typedef struct {
  int type;
} pthread_mutexattr_t;

int pthread_mutexattr_init(pthread_mutexattr_t *__attributes);
int pthread_mutexattr_destroy(pthread_mutexattr_t *__attributes);
int pthread_mutexattr_settype(pthread_mutexattr_t *__attributes, int __type);
int pthread_mutexattr_gettype(const pthread_mutexattr_t *__restrict __attributes,
                              int *__restrict __type);

typedef struct {
  struct __lock lock;
  int type;
} pthread_mutex_t;
#define PTHREAD_MUTEX_INITIALIZER {{0, 0, NULL, 0}, PTHREAD_MUTEX_DEFAULT}

int pthread_mutex_init(pthread_mutex_t *__restrict __mutex,
                       const pthread_mutexattr_t *__restrict __attributes);
int pthread_mutex_destroy(pthread_mutex_t *__mutex);
int pthread_mutex_lock(pthread_mutex_t *__mutex);
int pthread_mutex_trylock(pthread_mutex_t *__mutex);
int pthread_mutex_unlock(pthread_mutex_t *__mutex);

/* ---- condition variables ---- */

/* Conditions have no attributes. */
typedef struct {
  int unused;
} pthread_condattr_t;
int pthread_condattr_init(pthread_condattr_t *__attributes);
int pthread_condattr_destroy(pthread_condattr_t *__attributes);

typedef struct __condition pthread_cond_t;
#define PTHREAD_COND_INITIALIZER {0, 0}

int pthread_cond_init(pthread_cond_t *__restrict __condition,
                      const pthread_condattr_t *__restrict __attributes);
int pthread_cond_destroy(pthread_cond_t *__condition);
int pthread_cond_wait(pthread_cond_t *__restrict __condition, pthread_mutex_t *__restrict __mutex);
int pthread_cond_signal(pthread_cond_t *__condition);
int pthread_cond_broadcast(pthread_cond_t *__condition);

/* ---- locks of readers and writers ---- */

/* They have no attributes. */
typedef struct {
  int unused;
} pthread_rwlockattr_t;
int pthread_rwlockattr_init(pthread_rwlockattr_t *__attributes);
int pthread_rwlockattr_destroy(pthread_rwlockattr_t *__attributes);

typedef struct {
  struct __lock lock; /* of what follows */
  struct __condition free;
  uint32_t readers;
  pthread_t writer; /* NULL where there is none */
} pthread_rwlock_t;
#define PTHREAD_RWLOCK_INITIALIZER {{0, 0, NULL, 0}, {0, 0}, 0, NULL}

int pthread_rwlock_init(pthread_rwlock_t *__restrict __lock,
                        const pthread_rwlockattr_t *__restrict __attributes);
int pthread_rwlock_destroy(pthread_rwlock_t *__lock);
int pthread_rwlock_rdlock(pthread_rwlock_t *__lock);
int pthread_rwlock_tryrdlock(pthread_rwlock_t *__lock);
int pthread_rwlock_wrlock(pthread_rwlock_t *__lock);
int pthread_rwlock_trywrlock(pthread_rwlock_t *__lock);
int pthread_rwlock_unlock(pthread_rwlock_t *__lock);

/* ---- barriers ---- */

/* They have no attributes. */
typedef struct {
  int unused;
} pthread_barrierattr_t;
int pthread_barrierattr_init(pthread_barrierattr_t *__attributes);
int pthread_barrierattr_destroy(pthread_barrierattr_t *__attributes);

typedef struct {
  uint32_t count;
  volatile uint32_t arrived, turn, inside;
} pthread_barrier_t;
#define PTHREAD_BARRIER_SERIAL_THREAD (-1)

int pthread_barrier_init(pthread_barrier_t *__restrict __barrier,
                         const pthread_barrierattr_t *__restrict __attributes, unsigned __count);
int pthread_barrier_destroy(pthread_barrier_t *__barrier);
int pthread_barrier_wait(pthread_barrier_t *__barrier);

/* ---- spin locks ---- */

typedef volatile uint32_t pthread_spinlock_t;
enum { PTHREAD_PROCESS_PRIVATE };
#define PTHREAD_PROCESS_PRIVATE PTHREAD_PROCESS_PRIVATE

int pthread_spin_init(pthread_spinlock_t *__lock, int __is_shared);
int pthread_spin_destroy(pthread_spinlock_t *__lock);
int pthread_spin_lock(pthread_spinlock_t *__lock);
int pthread_spin_trylock(pthread_spinlock_t *__lock);
int pthread_spin_unlock(pthread_spinlock_t *__lock);

__END_DECLS

#endif
