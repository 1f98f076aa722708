/* The types behind <threads.h>, <pthread.h> and <semaphore.h>. All zeros is a lock that nobody
   holds, a condition that nobody waits for, and a flag of a call that wasn't made. */
#ifndef _MACHINE__THREADS_H_
#define _MACHINE__THREADS_H_

#include <stdint.h>
#include <sys/cdefs.h>

typedef struct thread *thrd_t;

/* A lock that is given in the order in which it was asked for: guests/libc/lock.h has its
   functions. */
struct __lock {
  volatile uint32_t drawn;  /* how many numbers were drawn */
  volatile uint32_t called; /* the number that holds the lock, or is the next to */
  void *volatile owner;     /* who holds it, by its tp, where lock_take_again took it; else NULL */
  uint32_t depth;           /* how often its owner has it beyond the first time */
};

typedef struct {
  struct __lock lock;
  int type;
} mtx_t;

/* Who waits draws a number, and numbers are released in their order: guests/libc/condition.h. */
typedef struct __condition {
  volatile uint32_t arrived, released;
} cnd_t;

typedef struct __once {
  volatile uint32_t state;
} once_flag;

#define ONCE_FLAG_INIT {0}

typedef int tss_t;

/* How often a thread's end calls the destructors of what its tss_t variables hold, where they set
   new ones. */
#define TSS_DTOR_ITERATIONS 4

#endif
