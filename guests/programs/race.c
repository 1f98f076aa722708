/* Two threads add 1 to one counter TURNS times each, without a lock. Each addition is a load, an add and a store, and
   additions that fall between another thread's load and its store are lost. Elsewhere one would get another total at
   each run. Here the total is a function of the program and the quantum: the same at each run, on each computer.

   Expect, from data/race.elf: 2000 additions gave 1000
   and `process 1 status 0`. With --quantum 100 it is 1037, with 1001 it is 1398, and with 10000 it is 2000: there all
   the additions of a thread fit into one quantum. Another compiler may put the loads and stores elsewhere, and then
   other totals come out, the same at each run. */
#include "runtime.h"

#ifndef TURNS
#define TURNS 1000
#endif

static volatile uint32_t counter ON_A_PAGE;

static void add(uintptr_t number) {
  (void)number;
  for (uint32_t i = 0; i < TURNS; i++) counter = counter + 1;
}

int main(void) {
  if (!run_threads(2, add)) return 1;
  print_decimal(2 * TURNS);
  print(" additions gave ");
  print_decimal((int32_t)counter);
  print("\n");
  return 0;
}
