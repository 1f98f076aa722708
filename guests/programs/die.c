/* Three children that signals end: with status 128 plus the signal's number. The first has no handler for 15. The
   second has masked and ignored whatever can be, but 9 can't. The third posts 31 to itself.

   Expect: status 143, by signal 15
           status 137, by signal 9
           status 159, by signal 31
   and `process 1 status 0`, the children's as the lines say, with each quantum. */
#include "runtime.h"

/* Waits for its end. */
static _Noreturn void wait_for_ever(void) {
  for (;;) dos_yield();
}

static void ignore_all(void) {
  for (uint32_t signal = 1; signal <= 31; signal++) dos_sig_handler(signal, IGNORE_ACTION);
  dos_sig_mask(0xFFFFFFFF);
}

static void say_end(int32_t child, uint32_t signal) {
  int32_t status;
  wait_for(child, &status);
  print_line("status %d, by signal %d\n", (int)status, (int)signal);
}

int main(void) {
  int32_t first = dos_fork();
  if (first == 0) wait_for_ever();
  dos_kill(first, SIGNAL_TERMINATE);
  say_end(first, SIGNAL_TERMINATE);
  int32_t second = dos_fork();
  if (second == 0) {
    ignore_all();
    wait_for_ever();
  }
  for (uint32_t i = 0; i < 100; i++) dos_yield();
  dos_kill(second, SIGNAL_KILL);
  say_end(second, SIGNAL_KILL);
  int32_t third = dos_fork();
  if (third == 0) {
    dos_kill(dos_get_pid(), 31);
    wait_for_ever();
  }
  say_end(third, 31);
  return 0;
}
