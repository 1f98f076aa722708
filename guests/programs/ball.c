/* Two processes on one shared page: a ball is a word that counts how often it was thrown. It is the parent's turn where
   the count is even, and the child's where it is odd; the other one sleeps on the word. A sleeper's place is a frame
   and an offset in it, not an address, so a wake by one process wakes the other.

   Expect: thrown 1000 times, 500 by process 2
   and status 0 of the processes 1 and 2, with each quantum. */
#include "runtime.h"

#ifndef THROWS
#define THROWS 1000
#endif

enum { COURT_AT = 0x40000000 };

struct court {
  volatile uint32_t ball;
  uint32_t by_child;
};

/* Throws the ball each time that its count has this rest modulo 2; answers how often. */
static uint32_t play(struct court *court, uint32_t rest) {
  uint32_t throws = 0;
  for (uint32_t mine = rest; mine < THROWS; mine += 2) {
    uint32_t ball;
    while ((ball = court->ball) != mine) dos_futex_wait(&court->ball, ball);
    court->ball = ball + 1;
    dos_futex_wake(&court->ball, 1);
    throws++;
  }
  return throws;
}

int main(void) {
  struct court *court = (struct court *)COURT_AT;
  if (dos_map(COURT_AT, 1, MAY_READ | MAY_WRITE) < 0 || dos_share(COURT_AT, 1) < 0) return 1;
  int32_t child = dos_fork(), status;
  if (child == 0) {
    court->by_child = play(court, 1);
    return 0;
  }
  play(court, 0);
  wait_for(child, &status);
  print_line("thrown %d times, %d by process %d\n", (int)court->ball, (int)court->by_child, (int)child);
  return status;
}
