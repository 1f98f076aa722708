/* Two threads that take two pages from each other, one in each even round and the other in each odd one, in TURNS rounds,
   while OTHER pages more are in use. To be measured by bench/trace.

   Expect: `turns` and the number of TURNS, or one less. */
#include "runtime.h"

#ifndef TURNS
#define TURNS 1000
#endif
#ifndef OTHER
#define OTHER 0
#endif

enum { OTHER_AT = 0x40000000 };

static volatile uint32_t first ON_A_PAGE, second ON_A_PAGE;
static unsigned char behind[PAGE_SIZE] ON_A_PAGE;

/* Each round one of the two writes on both pages; a yield ends the part of a thread in the round. */
static void take_turns(uintptr_t mine) {
  for (uint32_t turn = 0; turn < TURNS; turn++) {
    if ((uint32_t)dos_round() % 2 == mine) first++, second++;
    dos_yield();
  }
}

int main(void) {
  behind[0] = 1;
  if (OTHER > 0 && dos_map(OTHER_AT, OTHER, MAY_READ) < 0) return 1;
  if (thread_start(take_turns, 1) < 0) return 2;
  take_turns(0);
  thread_join(0);
  print_line("turns %d\n", (int)first);
  return second != first;
}
