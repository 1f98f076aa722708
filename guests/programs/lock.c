/* The program race with a lock around each addition: nothing is lost, whatever the quantum is. A quantum often ends
   while the lock is held. Then the other thread finds it held, once a round, and yields. The lock and the counter stand
   on one page: whoever takes the lock has with it what the lock guards.

   Expect: 2000 additions gave 2000
   and `process 1 status 0`. */
#include "runtime.h"

#ifndef TURNS
#define TURNS 1000
#endif

static struct {
  struct lock lock;
  volatile uint32_t counter;
} shared ON_A_PAGE;

static void add(uintptr_t number) {
  (void)number;
  for (uint32_t i = 0; i < TURNS; i++) {
    lock_take(&shared.lock);
    shared.counter = shared.counter + 1;
    lock_release(&shared.lock);
  }
}

int main(void) {
  if (!run_threads(2, add)) return 1;
  print_decimal(2 * TURNS);
  print(" additions gave ");
  print_decimal((int32_t)shared.counter);
  print("\n");
  return 0;
}
