/* Threads, as <threads.h> and <pthread.h> have them in common. */
#ifndef LIBC_THREAD_H
#define LIBC_THREAD_H

#include <stdbool.h>
#include <stddef.h>
#include <stdint.h>

/* The function that a thread runs: one of <threads.h>, which gives a number, or of <pthread.h>. */
struct body {
  int (*numbered)(void *argument); /* NULL where it is `pointed` */
  void *(*pointed)(void *argument);
  void *argument;
};

struct thread {
  void *tls; /* first: start.S takes tp from here */
  struct body body;
  void *result;
  volatile uint32_t state;
  uint32_t slot;         /* where its block lies, */
  uint32_t first, pages; /* the block's address and its pages */
};

/* The most bytes of a stack that thread_make takes. */
#define THREAD_STACK_MOST (3u << 20)

/* Makes a thread with a stack of at least this many bytes. Answers 0, or EAGAIN where there are too
   many threads, or ENOMEM where there are too few frames. `made` is set before the thread runs. */
int thread_make(struct thread **made, struct body body, size_t stack, bool is_detached);

/* The bytes of a stack where nobody asks for others: THREAD_STACK of the Makefile. */
size_t thread_stack_size(void);

/* Ends the calling thread with this result. The last one of a process ends it, as exit(0) does. */
_Noreturn void thread_end(void *result);

/* Waits until the thread has ended, frees it and answers its result. */
void *thread_join(struct thread *thread);

/* Has the thread be freed when it ends. */
void thread_detach(struct thread *thread);

bool thread_is_detached(const struct thread *thread);

struct thread *thread_current(void);

/* After a fork: the child has the calling thread alone. */
void thread_forked(void);

#endif
