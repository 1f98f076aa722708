/* Threads that compute, each on a page of its own, to be measured: THREADS of them beside the one that waits for them,
   each with TURNS turns of some ten instructions. Few of their instructions need a page of another thread.

   Expect: 7 threads of 1000000 turns
   and `process 1 status 0`. Build it with -DPOOL_THREADS= where there are more than 8. */
#include "runtime.h"

#ifndef THREADS
#define THREADS 7
#endif
#ifndef TURNS
#define TURNS 1000000
#endif

enum { WORDS = PAGE_SIZE / sizeof(uint32_t) };

static uint32_t pages[THREADS][WORDS] ON_A_PAGE;

static void compute(uintptr_t number) {
  uint32_t *words = pages[number];
  uint32_t value = number;
  for (uint32_t i = 0; i < TURNS; i++) {
    value = value * 1664525 + 1013904223;
    words[i % WORDS] += value;
  }
}

int main(void) {
  if (!run_threads(THREADS, compute)) return 1;
  print_decimal(THREADS);
  print(" threads of ");
  print_decimal(TURNS);
  print(" turns\n");
  return 0;
}
