/* Children that the handler of signal 17 collects. Where a process ends, 17 is posted to its parent; what is pending is
   a set, so one signal may stand for several children, and the handler looks at all of them. dos_kill with 0 asks
   whether one lives, so that dos_wait never waits. While the children are made, 17 is masked: else one could end before
   its number is in the table. The program sleeps meanwhile; the handler breaks off its sleep, or makes the word another
   one before it.

   Expect: 4 children collected, their statuses add up to 10
   and the statuses 0, 1, 2, 3, 4 of the processes 1 to 5, with each quantum. */
#include "runtime.h"

enum { CHILDREN = 4 };

static int32_t children[CHILDREN]; /* 0 where it was collected */
static volatile uint32_t collected;
static int32_t sum;

static void collect(uint32_t signal) {
  (void)signal;
  for (uint32_t i = 0; i < CHILDREN; i++) {
    int32_t status;
    if (children[i] == 0 || dos_kill(children[i], 0) != NO_PROCESS) continue;
    dos_wait(children[i], &status);
    children[i] = 0;
    sum += status;
    collected++;
  }
}

int main(void) {
  catch_signal(SIGNAL_CHILD, collect);
  dos_sig_mask(MASK_OF(SIGNAL_CHILD));
  for (uint32_t i = 0; i < CHILDREN; i++) {
    children[i] = dos_fork();
    if (children[i] == 0) return (int)i + 1;
  }
  dos_sig_mask(0);
  uint32_t seen;
  while ((seen = collected) < CHILDREN) dos_futex_wait(&collected, seen);
  print_line("%d children collected, their statuses add up to %d\n", (int)collected, (int)sum);
  return 0;
}
