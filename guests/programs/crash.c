/* A child stores through a pointer that its parent has spoilt before the fork: a fault 11, which ends the child with
   status 139. What went wrong happened before the child was born, in another process.

   Expect: the child ended with status 139
   and `process 1 status 0`, `process 2 status 139`, with each quantum. */
#include "runtime.h"

static volatile uint32_t counter;
static volatile uint32_t *place = &counter;

static void spoil(void) { place = (volatile uint32_t *)0x10; }

static int add(void) {
  *place = *place + 1;
  return 0;
}

int main(void) {
  int32_t status;
  add();
  spoil();
  int32_t child = dos_fork();
  if (child == 0) return add();
  wait_for(child, &status);
  print_line("the child ended with status %d\n", (int)status);
  return 0;
}
