/* Threads that do nothing but yield, to be measured: THREADS of them beside the one that waits for them, TURNS times
   each, so that what a round costs by itself can be seen. A thread yields once a round. Before, each writes to PAGES
   pages of its own.

   Expect: 7 threads yielded 1000 times
   and `process 1 status 0`. Build it with -DPOOL_THREADS= where there are more than 8. */
#include "runtime.h"

#ifndef THREADS
#define THREADS 7
#endif
#ifndef TURNS
#define TURNS 1000
#endif
#ifndef PAGES
#define PAGES 0
#endif

static unsigned char own[THREADS][PAGES * PAGE_SIZE] ON_A_PAGE;

static void idle(uintptr_t number) {
  for (int32_t page = 0; page < PAGES; page++) own[number][page * PAGE_SIZE] = 1;
  for (uint32_t i = 0; i < TURNS; i++) dos_yield();
}

int main(void) {
  if (!run_threads(THREADS, idle)) return 1;
  print_decimal(THREADS);
  print(" threads yielded ");
  print_decimal(TURNS);
  print(" times\n");
  return 0;
}
