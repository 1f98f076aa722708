/* The services as the C library here calls them. guests/runtime/services.h says what each does. */
#ifndef LIBC_CALLS_H
#define LIBC_CALLS_H

#include <stdint.h>

enum call {
  CALL_THREAD_EXIT = 1,
  CALL_PROCESS_EXIT = 2,
  CALL_THREAD_NEW = 3,
  CALL_FORK = 4,
  CALL_WAIT = 5,
  CALL_PIPE = 6,
  CALL_READ = 7,
  CALL_WRITE = 8,
  CALL_CLOSE = 9,
  CALL_DUP = 10,
  CALL_FUTEX_WAIT = 11,
  CALL_FUTEX_WAKE = 12,
  CALL_MAP = 13,
  CALL_UNMAP = 14,
  CALL_KILL = 19,
  CALL_GET_PID = 20,
  CALL_GET_TID = 21,
  CALL_CLOCK = 22,
  CALL_YIELD = 23,
  CALL_ROUND = 24
};

/* What a service that isn't there answers. */
enum { NO_CALL = -38 };

/* What a service gives back in a0 and a1. A service that answers one number leaves a1 as it was. */
struct answer {
  int32_t first;
  uint32_t second;
};

struct answer call_for_two(enum call number, uint32_t first, uint32_t second, uint32_t third);

static inline int32_t call(enum call number, uint32_t first, uint32_t second, uint32_t third) {
  return call_for_two(number, first, second, third).first;
}

/* Finds out who serves the calls: before the first of them. */
void find_server(void);

/* Where the answer is a refusal, sets errno and gives -1; else gives the answer. In system.c. */
int32_t or_errno(int32_t answer);

/* Fills a block of __tls_size bytes with the first contents of the thread-local variables. In
   system.c. */
void fill_tls(void *block);

#endif
