/* A fork with a private and a shared page side by side. The child has a copy of the private one, as it stood at the
   fork, and the shared one in common with its parent; so of what it stores the parent sees the half. dos_share says it
   of pages for the forks that come; each page is private before.

   Expect: before the fork: private 1, shared 1
           in the child: private 2, shared 2
           in the parent: private 1, shared 2
   and status 0 of the processes 1 and 2, with each quantum. */
#include "runtime.h"

enum { PRIVATE_AT = 0x40000000, SHARED_AT = 0x40001000 };

static volatile uint32_t *const private = (volatile uint32_t *)PRIVATE_AT;
static volatile uint32_t *const shared = (volatile uint32_t *)SHARED_AT;

static void say(const char *where) {
  print_line("%s: private %d, shared %d\n", where, (int)*private, (int)*shared);
}

int main(void) {
  if (dos_map(PRIVATE_AT, 2, MAY_READ | MAY_WRITE) < 0 || dos_share(SHARED_AT, 1) < 0) return 1;
  *private = *shared = 1;
  say("before the fork");
  int32_t child = dos_fork(), status;
  if (child == 0) {
    *private = *shared = 2;
    say("in the child");
    return 0;
  }
  wait_for(child, &status);
  say("in the parent");
  return status;
}
