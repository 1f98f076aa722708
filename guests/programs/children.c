/* A process with four children and their statuses. The first three end by themselves, the last one first; the fourth
   stores at address 0, where no page is. A child's status is kept until its parent has collected it, so the order in
   which they end doesn't matter to one that waits for them by number. What was collected is no child any more.

   Expect: child 2 ended with status 11
           child 3 ended with status 12
           child 4 ended with status 13
           child 5 ended with status 139
           then a wait answers -10
   and `process 1 status 0`, the children's as their lines say, with each quantum. */
#include "runtime.h"

enum { CHILDREN = 4 };

static int32_t live(uint32_t number) {
  for (uint32_t i = 0; i < 10 * (CHILDREN - number); i++) dos_yield();
  if (number == CHILDREN) *(volatile uint32_t *)0 = 1;
  return (int32_t)(10 + number);
}

int main(void) {
  int32_t children[CHILDREN], status;
  for (uint32_t i = 0; i < CHILDREN; i++) {
    children[i] = dos_fork();
    if (children[i] == 0) return live(i + 1);
  }
  for (uint32_t i = 0; i < CHILDREN; i++) {
    int32_t child = dos_wait(children[i], &status);
    print_line("child %d ended with status %d\n", (int)child, (int)status);
  }
  print_line("then a wait answers %d\n", (int)dos_wait(0, &status));
  return 0;
}
