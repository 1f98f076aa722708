/* Eight threads, each of which adds 1 to words of its own in one page, by plain loads and stores, TURNS times. To
   be measured under both schemes: by ownership the page is one thread's, and the others wait for the serial phase of
   each round; in the buffered scheme all of them run at once.

   Expect: 8 threads added TURNS times, the sum is 8 times TURNS. */
#include "runtime.h"

#ifndef TURNS
#define TURNS 1000000
#endif

enum { THREADS = 8, WORDS = PAGE_SIZE / sizeof(uint32_t) / THREADS };

static volatile uint32_t words[WORDS][THREADS] ON_A_PAGE;

static void add(uintptr_t number) {
  for (uint32_t i = 0; i < TURNS; i++) words[i % WORDS][number] += 1;
}

int main(void) {
  if (!run_threads(THREADS, add)) return 1;
  uint32_t sum = 0;
  for (uint32_t i = 0; i < WORDS; i++)
    for (uint32_t number = 0; number < THREADS; number++) sum += words[i][number];
  print_decimal(THREADS);
  print(" threads added ");
  print_decimal(TURNS);
  print(" times, the sum is ");
  print_decimal((int32_t)sum);
  print("\n");
  return 0;
}
