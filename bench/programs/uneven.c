/* Threads whose parts of a round are very uneven, to be measured by bench/run: 63 beside the one that waits for them.
   The first computes for TURNS turns of some ten instructions, and uses its quantum whole. The others compute for a tenth
   as many turns, and yield after each PART of them, which take a tenth of a quantum.

   Expect: `uneven` and a number that any other machine gives too. Build it with -DPOOL_THREADS=64. */
#include "runtime.h"

#ifndef TURNS
#define TURNS 1000000
#endif
#ifndef PART
#define PART 10
#endif

enum { THREADS = 63, WORDS = PAGE_SIZE / sizeof(uint32_t) };

static uint32_t pages[THREADS][WORDS] ON_A_PAGE;

static void compute(uintptr_t number) {
  uint32_t *words = pages[number];
  uint32_t value = number;
  uint32_t turns = number ? TURNS / 10 : TURNS;
  for (uint32_t i = 0; i < turns; i++) {
    value = value * 1664525 + 1013904223;
    words[i % WORDS] += value;
    if (number && i % PART == PART - 1) dos_yield();
  }
}

int main(void) {
  uint32_t sum = 0;
  if (!run_threads(THREADS, compute)) return 1;
  for (uint32_t i = 0; i < THREADS; i++) sum += pages[i][0];
  print("uneven ");
  print_decimal(sum);
  print("\n");
  return 0;
}
