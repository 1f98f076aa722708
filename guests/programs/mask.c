/* Signals that are masked stay pending; each comes once its bit is taken out of the mask. Posted twice it comes once,
   since what is pending is a set.

   Expect: masked: 0 came
           10 unmasked: 1 came, the last was 10
           15 unmasked: 2 came, the last was 15
   and `process 1 status 0`, with each quantum. */
#include "runtime.h"

static volatile uint32_t came, last;

static void handle(uint32_t signal) {
  last = signal;
  came++;
}

static void yield_often(void) {
  for (uint32_t i = 0; i < 10; i++) dos_yield();
}

int main(void) {
  int32_t process = dos_get_pid();
  catch_signal(SIGNAL_USER, handle);
  catch_signal(SIGNAL_TERMINATE, handle);
  dos_sig_mask(MASK_OF(SIGNAL_USER) | MASK_OF(SIGNAL_TERMINATE));
  dos_kill(process, SIGNAL_TERMINATE);
  dos_kill(process, SIGNAL_USER);
  dos_kill(process, SIGNAL_USER);
  yield_often();
  print_line("masked: %d came\n", (int)came);
  dos_sig_mask(MASK_OF(SIGNAL_TERMINATE));
  yield_often();
  print_line("10 unmasked: %d came, the last was %d\n", (int)came, (int)last);
  dos_sig_mask(0);
  yield_often();
  print_line("15 unmasked: %d came, the last was %d\n", (int)came, (int)last);
  return 0;
}
