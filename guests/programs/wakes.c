/* Wakes, to be timed: THREADS threads in a ring, the first one among them, of which one at a time is awake. It wakes
   the next one and sleeps on a word of its own, each on a page of its own, until its turn comes again: TURNS times
   each.

   Expect: 2 threads, 10000 turns each
   and `process 1 status 0`, with each quantum. Build it with -DPOOL_THREADS= where there are more than 9. */
#include "runtime.h"

#ifndef THREADS
#define THREADS 2
#endif
#ifndef TURNS
#define TURNS 10000
#endif

/* How often it was this thread's turn. */
static struct {
  volatile uint32_t turns;
  unsigned char rest[PAGE_SIZE - sizeof(uint32_t)];
} seats[THREADS] ON_A_PAGE;

static void begin_turn(uint32_t number, uint32_t turn) {
  seats[number].turns = turn;
  dos_futex_wake(&seats[number].turns, 1);
}

static void play(uintptr_t number) {
  for (uint32_t turn = 1; turn <= TURNS; turn++) {
    uint32_t seen;
    while ((seen = seats[number].turns) != turn) dos_futex_wait(&seats[number].turns, seen);
    if (number + 1 < THREADS) begin_turn(number + 1, turn);
    else if (turn < TURNS) begin_turn(0, turn + 1);
  }
}

int main(void) {
  int32_t places[THREADS];
  for (uint32_t i = 1; i < THREADS; i++)
    if ((places[i] = thread_start(play, i)) < 0) return 1;
  seats[0].turns = 1;
  play(0);
  for (uint32_t i = 1; i < THREADS; i++) thread_join(places[i]);
  print_line("%d threads, %d turns each\n", THREADS, TURNS);
  return 0;
}
