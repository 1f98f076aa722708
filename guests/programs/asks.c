/* Asks the clock ASKS times and prints how often it didn't go on by one: for measuring what a question costs.

   Expect, with --clock-from 0: `1000000 questions, 0 odd` and `process 1 status 0`. */
#include "runtime.h"

#ifndef ASKS
#define ASKS 1000000
#endif

int main(void) {
  uint64_t last = dos_clock();
  int odd = 0;
  for (int i = 1; i < ASKS; i++) {
    uint64_t now = dos_clock();
    if (now != last + 1) odd++;
    last = now;
  }
  print_line("%d questions, %d odd\n", ASKS, odd);
  return 0;
}
